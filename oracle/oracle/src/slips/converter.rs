//! Converters that are wrong on purpose.
use super::listeners::{in_words, lengths_by, termless, two_if_unknown};
use super::pairs::{self, alive, right};
use super::{Slip, put_before, put_in_place, slip, split};
use crate::convert::{self, CHECKS, Call, Check, Converted, Outcome};
use crate::ours::NewLists;
use crate::table;
use crate::wire::{IP, Pair, Record, Sections, Seg, width};

#[derive(Clone, Copy)]
pub enum How {
    /// The first check right before the second.
    Before(u32, u32),
    /// Without check k.
    Skip(u32),
    /// Another check k.
    Check(u32, Check),
    /// The number of alive rows tested right after check k.
    CountAfter(u32),
    /// The pair tested right after check k.
    PairAfter(u32),
    /// Something else is written.
    Write(fn(&Seg, &mut Converted)),
    /// Something else is left in memory.
    Leave(fn(&Outcome, &mut NewLists)),
}

const fn wrong(name: &'static str, how: How) -> Slip {
    slip(name, super::How::Converter(how))
}

pub const SLIPS: &[Slip] = &[
    wrong("converter: 3 before 2", How::Before(3, 2)),
    wrong("converter: 4 before 3", How::Before(4, 3)),
    wrong("converter: 5 before 4", How::Before(5, 4)),
    wrong("converter: 6 before 5", How::Before(6, 5)),
    wrong("converter: 11 before 6", How::Before(11, 6)),
    wrong("converter: 11 before 4", How::Before(11, 4)),
    wrong("converter: no 2", How::Skip(2)),
    wrong("converter: no 3", How::Skip(3)),
    wrong("converter: no 4", How::Skip(4)),
    wrong("converter: no 5", How::Skip(5)),
    wrong("converter: no 6", How::Skip(6)),
    wrong("converter: no 11", How::Skip(11)),
    wrong(
        "converter: 2 with alive words for flag 2",
        How::Check(2, |c| {
            let mut s = c.sections.clone();
            s.records[0][7] = (s.records[0][7] != 0) as u32;
            convert::lengths(&Call { sections: &s, ..*c })
        }),
    ),
    wrong("converter: 3 not for kind 4", How::Check(3, |c| record(c)[1] != 4 && convert::unknown(c))),
    wrong("converter: 3 not for type 255", How::Check(3, |c| record(c)[0] != 255 && convert::unknown(c))),
    wrong("converter: 2 by one word an address", How::Check(2, |c| lengths_by(&table_call(c), |_| 1))),
    wrong(
        "converter: 2 by two words a value of an unknown type",
        How::Check(2, |c| lengths_by(&table_call(c), two_if_unknown)),
    ),
    wrong("converter: 3 for type 6", How::Check(3, |c| record(c)[0] == IP || convert::unknown(c))),
    wrong("converter: 3 not for type 8", How::Check(3, |c| record(c)[0] != 8 && convert::unknown(c))),
    wrong("converter: 3 not for an unknown flag", How::Check(3, |c| record(c)[7] < 2 && convert::unknown(c))),
    wrong(
        "converter: 3 with a kind that nobody knows alone",
        How::Check(3, |c| record(c)[1] > 4 || record(c)[1] == 3 && convert::unknown(c)),
    ),
    wrong("converter: 3 for kind 3", How::Check(3, |_| true)),
    wrong("converter: 4 not for ids", How::Check(4, |c| table::runs_of(&Seg { ids: vec![], ..c.segment() }))),
    wrong(
        "converter: 4 not for a first offset above 0",
        How::Check(4, |c| {
            let mut s = c.segment();
            s.offsets.iter_mut().take(1).for_each(|first| *first = 0);
            table::runs_of(&s)
        }),
    ),
    wrong(
        "converter: 4 not for a last offset below the number of values",
        How::Check(4, |c| {
            let mut s = c.segment();
            let last = s.offsets.last().map_or(0, |&last| last as usize);
            s.values.truncate(last);
            table::runs_of(&s)
        }),
    ),
    wrong(
        "converter: 4 not for falling offsets",
        How::Check(4, |c| {
            let mut s = c.segment();
            s.offsets.sort();
            table::runs_of(&s)
        }),
    ),
    wrong(
        "converter: 4 for a repeated offset",
        How::Check(4, |c| convert::runs(c) || c.segment().offsets.windows(2).any(|w| w[0] == w[1])),
    ),
    wrong("converter: 4 by words", How::Check(4, |c| table::runs_of(&in_words(&c.segment())))),
    wrong(
        "converter: 5 not for terms on addresses",
        How::Check(5, |c| convert::pair(c) || table::contents_of(&termless(&c.segment()))),
    ),
    wrong(
        "converter: 5 not for equal terms",
        How::Check(5, |c| {
            let mut s = c.segment();
            s.terms.dedup();
            convert::pair(c) || table::contents_of(&s)
        }),
    ),
    wrong(
        "converter: 5 for the rows that are alive alone",
        How::Check(5, |c| {
            let s = c.segment();
            let alive =
                |row: usize| s.alive.as_ref().is_none_or(|words| words[row / 64] >> (row % 64) & 1 == 1);
            let values = s.offsets.windows(2).enumerate().filter(|(row, _)| alive(*row));
            let values = values.flat_map(|(_, w)| s.values[w[0] as usize..w[1] as usize].to_vec()).collect();
            convert::pair(c) || table::contents_of(&Seg { values, ..s.clone() })
        }),
    ),
    wrong("converter: 5 without the pair", How::Check(5, without_pair)),
    wrong("converter: 5 by the least value alone", How::Check(5, |c| by(c, |p, s| p[0] != right(s)[0]))),
    wrong("converter: 5 by the greatest value alone", How::Check(5, |c| by(c, |p, s| p[1] != right(s)[1]))),
    wrong(
        "converter: 5 by the pair of the alive rows' values",
        How::Check(5, |c| by(c, |p, s| p != alive(s))),
    ),
    wrong(
        "converter: 5 by the pair of the rows' first values",
        How::Check(5, |c| by(c, |p, s| p != pairs::first_values(s))),
    ),
    wrong(
        "converter: 5 by the pair not without values",
        How::Check(5, |c| by(c, |p, s| table::untrue(p, s) && !s.values.is_empty())),
    ),
    wrong(
        "converter: 5 by the pair not for other types",
        How::Check(5, |c| by(c, |p, s| table::untrue(p, s) && s.ty <= 1)),
    ),
    wrong(
        "converter: 5 by the pair not with an alive set",
        How::Check(5, |c| by(c, |p, s| table::untrue(p, s) && s.alive.is_none())),
    ),
    wrong(
        "converter: 5 not for 0 and 0",
        How::Check(5, |c| by(c, |p, s| table::untrue(p, s) && p != [0, 0])),
    ),
    wrong("converter: 5 by a pair from 0", How::Check(5, |c| by_pair(c, pairs::from_zero))),
    wrong("converter: 5 by the unsigned order for I64", How::Check(5, |c| by_pair(c, pairs::unsigned))),
    wrong("converter: 5 by the signed order for U64", How::Check(5, |c| by_pair(c, pairs::signed))),
    wrong("converter: 5 by a pair of times", How::Check(5, |c| by_pair(c, pairs::of_times))),
    wrong("converter: 5 by a pair without the last value", How::Check(5, |c| by_pair(c, pairs::but_last))),
    wrong("converter: the pair tested before 4", How::PairAfter(3)),
    wrong("converter: the pair tested after 6", How::PairAfter(6)),
    wrong("converter: the pair tested after 11", How::PairAfter(11)),
    wrong("converter: 6 for an alive set", How::Check(6, |c| record(c)[7] == 1 || convert::count(c))),
    wrong(
        "converter: 6 for the row after the last alone",
        How::Check(6, |c| {
            let s = c.segment();
            let next = |words: &Vec<u64>| {
                words.get(s.rows as usize / 64).is_some_and(|w| w >> (s.rows % 64) & 1 == 1)
            };
            s.alive.as_ref().is_some_and(next) || record(c)[8] != s.right_count()
        }),
    ),
    wrong("converter: 6 without the number of alive rows", How::Check(6, convert::alive_bits)),
    wrong(
        "converter: 6 by the number not without an alive set",
        How::Check(6, |c| convert::alive_bits(c) || record(c)[7] == 1 && convert::count(c)),
    ),
    wrong(
        "converter: 6 by the number not with an alive set",
        How::Check(6, |c| convert::alive_bits(c) || record(c)[7] == 0 && convert::count(c)),
    ),
    wrong(
        "converter: 6 for a number above the rows alone",
        How::Check(6, |c| convert::alive_bits(c) || record(c)[8] > record(c)[2]),
    ),
    wrong(
        "converter: 6 not for a bit past the rows that is counted",
        How::Check(6, |c| record(c)[8] != c.segment().right_count()),
    ),
    wrong("converter: 6 not for a bit past the rows that is not counted", How::Check(6, convert::count)),
    wrong("converter: the number tested before 4", How::CountAfter(3)),
    wrong("converter: the number tested before 5", How::CountAfter(4)),
    wrong("converter: the number tested after 11", How::CountAfter(11)),
    wrong(
        "converter: 11 for the ids alone",
        How::Check(11, |c| c.space.ids < convert::needed(&c.segment()).ids),
    ),
    wrong(
        "converter: 11 for the offsets alone",
        How::Check(11, |c| c.space.offsets < convert::needed(&c.segment()).offsets),
    ),
    wrong(
        "converter: 11 by the rows",
        How::Check(11, |c| {
            let rows = record(c)[2] as usize;
            c.space.ids < rows || c.space.offsets < rows + 1
        }),
    ),
    wrong(
        "converter: an empty row's offset kept",
        How::Write(|old, new| {
            new.offsets = old.offsets.clone();
            new.record[4] = new.offsets.len() as u32;
        }),
    ),
    wrong(
        "converter: a row without values listed",
        How::Write(|old, new| {
            new.ids = (0..old.rows).collect();
            new.offsets = old.offsets.clone();
            new.record[3] = new.ids.len() as u32;
            new.record[4] = new.offsets.len() as u32;
        }),
    ),
    wrong(
        "converter: a withdrawn row not listed",
        How::Write(|old, new| {
            new.ids.retain(|&row| old.is_alive(row));
            new.record[3] = new.ids.len() as u32;
        }),
    ),
    wrong(
        "converter: counts in the offsets' place",
        How::Write(|_, new| {
            let counts: Vec<u32> = new.offsets.windows(2).map(|w| w[1] - w[0]).collect();
            new.offsets[1..].copy_from_slice(&counts);
        }),
    ),
    wrong(
        "converter: offsets by words",
        How::Write(|old, new| new.offsets.iter_mut().for_each(|offset| *offset *= width(old.ty) as u32)),
    ),
    wrong("converter: values counted in words", How::Write(|old, new| new.record[5] *= width(old.ty) as u32)),
    wrong(
        "converter: no offset where no row has a value",
        How::Write(|_, new| {
            if new.ids.is_empty() {
                new.offsets.clear();
                new.record[4] = 0;
            }
        }),
    ),
    wrong("converter: the kind stays 3", How::Write(|_, new| new.record[1] = 3)),
    wrong("converter: rows are those with a value", How::Write(|_, new| new.record[2] = new.record[3])),
    wrong("converter: the number of ids stays", How::Write(|_, new| new.record[3] = 0)),
    wrong("converter: the number of offsets stays", How::Write(|old, new| new.record[4] = old.rows + 1)),
    wrong("converter: another number of values", How::Write(|_, new| new.record[5] = new.record[3])),
    wrong("converter: no terms", How::Write(|_, new| new.record[6] = 0)),
    wrong("converter: the flag dropped", How::Write(|_, new| new.record[7] = 0)),
    wrong("converter: the number of alive rows dropped", How::Write(|_, new| new.record[8] = 0)),
    wrong(
        "converter: the rows for the number of alive rows",
        How::Write(|_, new| new.record[8] = new.record[2]),
    ),
    wrong(
        "converter: the rows with a value for the number of alive rows",
        How::Write(|_, new| new.record[8] = new.record[3]),
    ),
    wrong(
        "converter: the alive rows with a value for the number of alive rows",
        How::Write(|old, new| {
            new.record[8] = new.ids.iter().filter(|&&row| old.is_alive(row)).count() as u32
        }),
    ),
    wrong("converter: the pair dropped", How::Write(|_, new| new.record.set_pair([0, 0]))),
    wrong(
        "converter: the pair of the alive rows' values",
        How::Write(|old, new| new.record.set_pair(alive(old))),
    ),
    wrong("converter: the least value twice", How::Write(|old, new| new.record.set_pair([right(old)[0]; 2]))),
    wrong(
        "converter: the low halves of the pair",
        How::Write(|old, new| new.record.set_pair(right(old).map(|word| word as u32 as u64))),
    ),
    wrong(
        "converter: the high half of the pair first",
        How::Write(|old, new| new.record.set_pair(right(old).map(|word| word.rotate_left(32)))),
    ),
    wrong(
        "converter: an id beyond the new ids",
        How::Leave(|outcome, lists| {
            if let Outcome::Accepted(new) = outcome
                && let Some(place) = lists.ids.lent().get_mut(new.ids.len())
            {
                *place = 0;
            }
        }),
    ),
    wrong(
        "converter: an offset beyond the new offsets",
        How::Leave(|outcome, lists| {
            if let Outcome::Accepted(new) = outcome
                && let Some(place) = lists.offsets.lent().get_mut(new.offsets.len())
            {
                *place = new.offsets[new.offsets.len() - 1];
            }
        }),
    ),
    wrong("converter: an offset past what was lent", How::Leave(|_, lists| lists.offsets.past_the_end(0))),
    wrong(
        "converter: a refusal writes the record",
        How::Leave(|outcome, lists| {
            if let Outcome::Refused(_) = outcome {
                lists.record.lent()[1] = 4;
            }
        }),
    ),
    wrong(
        "converter: 11 once the ids are written",
        How::Leave(|outcome, lists| {
            if let Outcome::Refused(11) = outcome
                && let Some(place) = lists.ids.lent().first_mut()
            {
                *place = 0;
            }
        }),
    ),
    wrong(
        "converter: a refusal writes the first offset",
        How::Leave(|outcome, lists| {
            if let Outcome::Refused(4..) = outcome
                && let Some(place) = lists.offsets.lent().first_mut()
            {
                *place = 0;
            }
        }),
    ),
];

fn table_call<'a>(call: &Call<'a>) -> table::Call<'a> {
    table::Call::new(call.sections, table::Lent::default())
}

fn record(call: &Call) -> Record {
    call.sections.records[0]
}

fn without_pair(call: &Call) -> bool {
    table::contents_of(&call.segment())
}

/// 5 by another test of the pair.
fn by(call: &Call, fails: fn(Pair, &Seg) -> bool) -> bool {
    without_pair(call) || fails(record(call).pair(), &call.segment())
}

/// 5 by another pair of type and values.
fn by_pair(call: &Call, of: pairs::PairOf) -> bool {
    let s = call.segment();
    without_pair(call) || record(call).pair() != of(s.ty, &s.values)
}

/// The model as a converter, with a slip or none: the answer's number.
pub fn convert(how: Option<How>, sections: &Sections, lists: &mut NewLists) -> u32 {
    let call = Call { sections, space: lists.space() };
    let mut checks = CHECKS.to_vec();
    match how {
        Some(How::Before(k, other)) => put_before(&mut checks, k, other),
        Some(How::Skip(k)) => checks.retain(|&(number, _)| number != k),
        Some(How::Check(k, check)) => put_in_place(&mut checks, k, check),
        Some(How::CountAfter(k)) => split(&mut checks, 6, k, convert::alive_bits, convert::count),
        Some(How::PairAfter(k)) => split(&mut checks, 5, k, without_pair, convert::pair),
        _ => {}
    }
    let mut outcome = convert::outcome_by(&checks, &call);
    if let Outcome::Accepted(new) = &mut outcome {
        if let Some(How::Write(f)) = how {
            f(&call.segment(), new);
        }
        lists.write(new);
    }
    if let Some(How::Leave(f)) = how {
        f(&outcome, lists);
    }
    outcome.number()
}
