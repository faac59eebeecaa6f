//! Joiners that go wrong with the records' number of alive rows.
use super::{How, Slip, slip};
use crate::model;
use crate::table::{self, Call};
use crate::wire::Seg;

pub const SLIPS: &[Slip] = &[
    slip("6 without the numbers of alive rows", How::Check(6, table::alive_bits)),
    slip(
        "6 by the numbers not without an alive set",
        How::Check(6, |c| by(c, |n, s| wrong(n, s) && given(s))),
    ),
    slip("6 by the numbers not with an alive set", How::Check(6, |c| by(c, |n, s| wrong(n, s) && !given(s)))),
    slip(
        "6 by the numbers in ordered joins alone",
        How::Check(6, |c| table::alive_bits(c) || c.sections.mode == 1 && table::counts(c)),
    ),
    slip(
        "6 by the numbers in stacked joins alone",
        How::Check(6, |c| table::alive_bits(c) || c.sections.mode == 0 && table::counts(c)),
    ),
    slip("6 by the sum of the numbers", How::Check(6, |c| table::alive_bits(c) || sums(c))),
    slip(
        "6 by the first segment's number alone",
        How::Check(6, |c| table::alive_bits(c) || table::counted(c).take(1).any(|(n, s)| wrong(n, s))),
    ),
    slip(
        "6 by the last segment's number alone",
        How::Check(6, |c| table::alive_bits(c) || table::counted(c).last().is_some_and(|(n, s)| wrong(n, s))),
    ),
    slip("6 by the numbers not for no column", How::Check(6, |c| by(c, |n, s| wrong(n, s) && s.ty != 255))),
    slip(
        "6 by the numbers not for dropped columns",
        How::Check(6, |c| by(c, |n, s| wrong(n, s) && model::held(s))),
    ),
    slip("6 by the numbers not for kind 0", How::Check(6, |c| by(c, |n, s| wrong(n, s) && s.kind != 0))),
    slip("6 by the numbers not for no rows", How::Check(6, |c| by(c, |n, s| wrong(n, s) && s.rows > 0))),
    slip(
        "6 by the numbers not where no row is alive",
        How::Check(6, |c| by(c, |n, s| wrong(n, s) && table::alive_rows(s) > 0)),
    ),
    slip("6 for a number above the rows alone", How::Check(6, |c| by(c, |n, s| n > s.rows))),
    slip(
        "6 for a number that is too large alone",
        How::Check(6, |c| by(c, |n, s| n as u64 > table::alive_rows(s))),
    ),
    slip(
        "6 for a number that is too small alone",
        How::Check(6, |c| by(c, |n, s| (n as u64) < table::alive_rows(s))),
    ),
    slip(
        "6 by the numbers' low bits",
        How::Check(6, |c| by(c, |n, s| n as u16 != table::alive_rows(s) as u16)),
    ),
    slip(
        "6 not for the rows stored though fewer are alive",
        How::Check(6, |c| by(c, |n, s| wrong(n, s) && n != s.rows)),
    ),
    slip("6 not for a number of 0", How::Check(6, |c| by(c, |n, s| wrong(n, s) && n > 0))),
    slip("the rows' number though an alive set is given", How::Check(6, |c| by(c, |n, s| n != s.rows))),
    slip(
        "the withdrawn rows' number",
        How::Check(6, |c| by(c, |n, s| given(s) && n as u64 != s.rows as u64 - table::alive_rows(s))),
    ),
    slip(
        "the number of the alive rows with a value",
        How::Check(6, |c| {
            by(c, |n, s| {
                let alive = model::filled(s).iter().filter(|(row, _)| s.is_alive(*row)).count();
                if given(s) { n as usize != alive } else { wrong(n, s) }
            })
        }),
    ),
    slip(
        "the number of the first word's bits",
        How::Check(6, |c| {
            let first = |s: &Seg| s.alive.as_ref().and_then(|set| set.first()).map(|word| word.count_ones());
            table::alive_bits(c) || table::counted(c).any(|(n, s)| n != first(s).unwrap_or(s.right_count()))
        }),
    ),
    slip(
        "6 not for a bit past the rows that is counted",
        How::Check(6, |c| stacked_set(c) || table::counted(c).any(|(n, s)| n != s.right_count())),
    ),
    slip(
        "6 not for a bit past the rows that is not counted",
        How::Check(6, |c| stacked_set(c) || table::counts(c)),
    ),
    slip(
        "3 for type 255 with a number of alive rows",
        How::Check(3, |c| table::unknown(c) || c.sections.records.iter().any(|r| r[0] == 255 && r[8] > 0)),
    ),
    slip("the numbers tested before 3", How::CountsAfter(2)),
    slip("the numbers tested before 19", How::CountsAfter(3)),
    slip("the numbers tested before 4", How::CountsAfter(19)),
    slip("the numbers tested before 5", How::CountsAfter(4)),
    slip("the numbers tested after 7", How::CountsAfter(7)),
    slip("the numbers tested after 8", How::CountsAfter(8)),
    slip("the numbers tested after 9", How::CountsAfter(9)),
    slip("the numbers tested after 10", How::CountsAfter(10)),
    slip("the numbers tested after 11", How::CountsAfter(11)),
];

/// 6 by another test of the numbers.
fn by(call: &Call, fails: fn(u32, &Seg) -> bool) -> bool {
    table::alive_bits(call) || table::counted(call).any(|(count, s)| fails(count, s))
}

pub fn wrong(count: u32, s: &Seg) -> bool {
    table::wrong_count(count, s)
}

pub fn given(s: &Seg) -> bool {
    s.alive.is_some()
}

/// The numbers' sum is wrong.
pub fn sums(call: &Call) -> bool {
    let [mut stored, mut alive] = [0; 2];
    for (count, s) in table::counted(call) {
        stored += count as u64;
        alive += table::alive_rows(s);
    }
    stored != alive
}

fn stacked_set(call: &Call) -> bool {
    call.sections.mode == 0 && call.any_segment(given)
}
