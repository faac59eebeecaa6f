//! Calls of withdraw and reinstate that are wrong on purpose.
use super::{Slip, put_before, put_in_place, slip};
use crate::ours::Marked;
use crate::withdraw::{self, AliveSet, CHECKS, Call, Check, Mark, Outcome};

#[derive(Clone, Copy)]
pub enum How {
    /// The first check right before the second.
    Before(u32, u32),
    /// Without check k.
    Skip(u32),
    /// Another check k.
    Check(u32, Check),
    /// Another change of each row, by whether it is to be alive, which tells how many rows it changed.
    Row(fn(&mut AliveSet, bool, u32) -> u64),
    /// Another change of all rows.
    Rows(fn(&mut AliveSet, &Mark) -> u64),
    /// Something else is left in memory.
    Leave(fn(&Mark, &Outcome, &mut Marked)),
}

const fn wrong(name: &'static str, how: How) -> Slip {
    slip(name, super::How::Withdraw(how))
}

pub const SLIPS: &[Slip] = &[
    wrong("withdraw: 3 before 2", How::Before(3, 2)),
    wrong("withdraw: 6 before 2", How::Before(6, 2)),
    wrong("withdraw: 6 before 3", How::Before(6, 3)),
    wrong("withdraw: 15 before 2", How::Before(15, 2)),
    wrong("withdraw: 15 before 3", How::Before(15, 3)),
    wrong("withdraw: 15 before 6", How::Before(15, 6)),
    wrong("withdraw: 16 before 6", How::Before(16, 6)),
    wrong("withdraw: 16 before 15", How::Before(16, 15)),
    wrong("withdraw: no 2", How::Skip(2)),
    wrong("withdraw: no 3", How::Skip(3)),
    wrong("withdraw: no 6", How::Skip(6)),
    wrong("withdraw: no 15", How::Skip(15)),
    wrong("withdraw: no 16", How::Skip(16)),
    wrong("withdraw: 2 by whole words alone", How::Check(2, |c| unlike(c, |rows| rows / 64))),
    wrong("withdraw: 2 by a word more", How::Check(2, |c| unlike(c, |rows| rows / 64 + 1))),
    wrong(
        "withdraw: 2 by 32 bits that wrap",
        How::Check(2, |c| unlike(c, |rows| rows.wrapping_add(63) / 64)),
    ),
    wrong(
        "withdraw: 2 for too few words alone",
        How::Check(2, |c| c.set.flag() == 1 && c.set.words.len() < c.set.rows().div_ceil(64) as usize),
    ),
    wrong(
        "withdraw: 2 not for words without an alive set",
        How::Check(2, |c| c.set.flag() != 0 && withdraw::lengths(c)),
    ),
    wrong(
        "withdraw: 2 with alive words for flag 2",
        How::Check(2, |c| {
            let words = if c.set.flag() > 0 { c.set.rows().div_ceil(64) } else { 0 };
            c.set.words.len() != words as usize
        }),
    ),
    wrong("withdraw: 3 for flag 2 alone", How::Check(3, |c| c.set.flag() == 2)),
    wrong("withdraw: 3 by the flag's low byte", How::Check(3, |c| c.set.flag() as u8 > 1)),
    wrong("withdraw: 3 for an unknown type", How::Check(3, |c| withdraw::unknown(c) || c.set.record[0] == 8)),
    wrong("withdraw: 3 for an unknown kind", How::Check(3, |c| withdraw::unknown(c) || c.set.record[1] > 4)),
    wrong("withdraw: 3 for kind 3", How::Check(3, |c| withdraw::unknown(c) || c.set.record[1] == 3)),
    wrong(
        "withdraw: 3 for no column with a kind",
        How::Check(3, |c| withdraw::unknown(c) || c.set.record[0] == 255 && c.set.record[1] > 0),
    ),
    wrong(
        "withdraw: 3 for no column with a pair",
        How::Check(3, |c| withdraw::unknown(c) || c.set.record[0] == 255 && c.set.record.pair() != [0, 0]),
    ),
    wrong(
        "withdraw: 6 for a pair of another type than 0 and 1",
        How::Check(6, |c| withdraw::alive_set(c) || c.set.record[0] > 1 && c.set.record.pair() != [0, 0]),
    ),
    wrong(
        "withdraw: 6 for a least value above the greatest",
        How::Check(6, |c| {
            let [least, greatest] = c.set.record.pair();
            withdraw::alive_set(c) || least > greatest
        }),
    ),
    wrong("withdraw: 6 without the number", How::Check(6, withdraw::past_the_rows)),
    wrong("withdraw: 6 not for a bit past the rows that is counted", How::Check(6, withdraw::wrong_count)),
    wrong(
        "withdraw: 6 not for a bit past the rows that is not counted",
        How::Check(6, |c| {
            let alive = c.set.bits().iter().take(c.set.rows() as usize).filter(|&&bit| bit).count();
            c.set.count() as usize != if c.set.flag() == 1 { alive } else { c.set.rows() as usize }
        }),
    ),
    wrong(
        "withdraw: 6 by the number not without an alive set",
        How::Check(6, |c| c.set.flag() == 1 && withdraw::alive_set(c)),
    ),
    wrong(
        "withdraw: 6 by the number without an alive set alone",
        How::Check(6, |c| withdraw::past_the_rows(c) || c.set.flag() == 0 && withdraw::wrong_count(c)),
    ),
    wrong(
        "withdraw: 6 for a number above the rows alone",
        How::Check(6, |c| withdraw::past_the_rows(c) || c.set.count() > c.set.rows()),
    ),
    wrong(
        "withdraw: 6 by the number's low bits",
        How::Check(6, |c| {
            let right = if c.set.flag() == 1 { ones(c.set) } else { c.set.rows() };
            withdraw::past_the_rows(c) || c.set.count() as u16 != right as u16
        }),
    ),
    wrong(
        "withdraw: 6 for a bit past the rows in a named row's word alone",
        How::Check(6, |c| {
            let last = |&row: &u32| row as usize / 64 + 1 >= c.set.words.len();
            withdraw::wrong_count(c) || withdraw::past_the_rows(c) && c.mark.rows().iter().any(last)
        }),
    ),
    wrong(
        "withdraw: 6 not where no row is named",
        How::Check(6, |c| withdraw::alive_set(c) && !c.mark.rows().is_empty()),
    ),
    wrong("withdraw: 6 for reinstate alone", How::Check(6, |c| c.mark.alive && withdraw::alive_set(c))),
    wrong(
        "withdraw: 15 not for the row after the last",
        How::Check(15, |c| c.mark.rows().iter().any(|&row| row > c.set.rows())),
    ),
    wrong(
        "withdraw: 15 for the last row",
        How::Check(15, |c| c.mark.rows().iter().any(|&row| row as u64 + 1 >= c.set.rows() as u64)),
    ),
    wrong(
        "withdraw: 15 by the words",
        How::Check(15, |c| c.mark.rows().iter().any(|&row| row as usize >= 64 * c.set.words.len())),
    ),
    wrong(
        "withdraw: 15 for the first row of a run alone",
        How::Check(15, |c| c.mark.rows().first().is_some_and(|&row| row >= c.set.rows())),
    ),
    wrong(
        "withdraw: 15 for the last row of a run alone",
        How::Check(15, |c| c.mark.rows().last().is_some_and(|&row| row >= c.set.rows())),
    ),
    wrong(
        "withdraw: 15 for a row that is so already",
        How::Check(15, |c| {
            withdraw::absent(c) || c.set.flag() == 1 && !c.mark.rows().iter().any(|&r| turns(c, r))
        }),
    ),
    wrong(
        "withdraw: 15 by the alive rows",
        How::Check(15, |c| c.mark.rows().iter().any(|&r| r >= c.set.count())),
    ),
    wrong(
        "withdraw: 16 not where no row is named",
        How::Check(16, |c| withdraw::without_set(c) && !c.mark.rows().is_empty()),
    ),
    wrong("withdraw: 16 for withdraw alone", How::Check(16, |c| withdraw::without_set(c) && !c.mark.alive)),
    wrong(
        "withdraw: 16 where no row is alive",
        How::Check(16, |c| withdraw::without_set(c) || c.set.count() == 0),
    ),
    wrong(
        "withdraw: the number changes though the row is so already",
        How::Row(|set, alive, row| {
            let changed = put(set, alive, row);
            step(set, alive, 1);
            changed
        }),
    ),
    wrong(
        "withdraw: the number goes down though the row is withdrawn already",
        How::Row(|set, alive, row| {
            let changed = put(set, alive, row);
            step(set, alive, if alive { changed } else { 1 });
            changed
        }),
    ),
    wrong(
        "withdraw: a row that is so already told as changed",
        How::Row(|set, alive, row| {
            right(set, alive, row);
            1
        }),
    ),
    wrong(
        "withdraw: the bit turned though the row is so already",
        How::Row(|set, alive, row| {
            let before = bit(set, row);
            put(set, !before, row);
            let changed = (before != alive) as u64;
            step(set, alive, changed);
            changed
        }),
    ),
    wrong("withdraw: withdraw keeps the number", How::Row(|set, alive, row| keeping(set, alive, row, false))),
    wrong("withdraw: reinstate keeps the number", How::Row(|set, alive, row| keeping(set, alive, row, true))),
    wrong(
        "withdraw: the bit stays",
        How::Row(|set, alive, row| {
            let changed = (bit(set, row) != alive) as u64;
            step(set, alive, changed);
            changed
        }),
    ),
    wrong("withdraw: reinstate withdraws", How::Row(|set, _, row| right(set, false, row))),
    wrong("withdraw: withdraw reinstates", How::Row(|set, _, row| right(set, true, row))),
    wrong(
        "withdraw: the bit in the first word always",
        How::Row(|set, alive, row| right(set, alive, row % 64)),
    ),
    wrong(
        "withdraw: the row's low five bits for its place in the word",
        How::Row(|set, alive, row| right(set, alive, row / 64 * 64 + row % 32)),
    ),
    wrong(
        "withdraw: words of 32 rows",
        How::Row(|set, alive, row| right(set, alive, row / 32 * 64 + row % 32)),
    ),
    wrong(
        "withdraw: row 0 in the highest bit",
        How::Row(|set, alive, row| right(set, alive, row / 64 * 64 + 63 - row % 64)),
    ),
    wrong("withdraw: the row before", How::Row(|set, alive, row| right(set, alive, row.saturating_sub(1)))),
    wrong(
        "withdraw: the rows beyond the first word stay",
        How::Row(|set, alive, row| if row < 64 { right(set, alive, row) } else { 0 }),
    ),
    wrong(
        "withdraw: the highest bit of a word stays",
        How::Row(|set, alive, row| if row % 64 < 63 { right(set, alive, row) } else { 0 }),
    ),
    wrong(
        "withdraw: withdraw clears the word",
        How::Row(|set, alive, row| {
            let changed = right(set, alive, row);
            if !alive {
                set.words[row as usize / 64] = 0;
            }
            changed
        }),
    ),
    wrong(
        "withdraw: reinstate sets the rest of the word",
        How::Row(|set, alive, row| {
            let changed = right(set, alive, row);
            if alive {
                set.words[row as usize / 64] |= u64::MAX << (row % 64);
            }
            changed
        }),
    ),
    wrong(
        "withdraw: the last alive row stays",
        How::Row(|set, alive, row| if !alive && set.count() == 1 { 0 } else { right(set, alive, row) }),
    ),
    wrong(
        "withdraw: the flag goes once no row is withdrawn",
        How::Row(|set, alive, row| {
            let changed = right(set, alive, row);
            set.record[7] = (set.count() != set.rows()) as u32;
            changed
        }),
    ),
    wrong(
        "withdraw: the rows go down with the number",
        How::Row(|set, alive, row| {
            let changed = right(set, alive, row);
            if !alive {
                set.record[2] -= changed as u32;
            }
            changed
        }),
    ),
    wrong(
        "withdraw: the number of values goes down too",
        How::Row(|set, alive, row| {
            let changed = right(set, alive, row);
            if !alive {
                set.record[5] = set.record[5].wrapping_sub(changed as u32);
            }
            changed
        }),
    ),
    wrong(
        "withdraw: the pair goes with a change",
        How::Row(|set, alive, row| {
            let changed = right(set, alive, row);
            if changed > 0 {
                set.record.set_pair([0, 0]);
            }
            changed
        }),
    ),
    wrong(
        "withdraw: the pair goes once no row is alive",
        How::Row(|set, alive, row| {
            let changed = right(set, alive, row);
            if set.count() == 0 {
                set.record.set_pair([0, 0]);
            }
            changed
        }),
    ),
    wrong(
        "withdraw: the halves of the pair exchanged",
        How::Row(|set, alive, row| {
            let changed = right(set, alive, row);
            set.record.set_pair(set.record.pair().map(|word| word.rotate_left(32)));
            changed
        }),
    ),
    wrong(
        "withdraw: the number in the record's last place too",
        How::Row(|set, alive, row| {
            let changed = right(set, alive, row);
            *set.record.0.last_mut().unwrap() = set.count();
            changed
        }),
    ),
    wrong(
        "withdraw: a row named twice counted twice",
        How::Rows(|set, mark| counted_first(set, mark, |_| true)),
    ),
    wrong(
        "withdraw: a row reinstated twice counted twice",
        How::Rows(|set, mark| counted_first(set, mark, |alive| alive)),
    ),
    wrong(
        "withdraw: a row withdrawn twice counted twice",
        How::Rows(|set, mark| counted_first(set, mark, |alive| !alive)),
    ),
    wrong(
        "withdraw: rows named told as changed",
        How::Rows(|set, mark| {
            each(set, mark.alive, mark.rows());
            mark.rows().len() as u64
        }),
    ),
    wrong(
        "withdraw: one row told as changed of several",
        How::Rows(|set, mark| each(set, mark.alive, mark.rows()).min(1)),
    ),
    wrong(
        "withdraw: the first row of a run alone",
        How::Rows(|set, mark| each(set, mark.alive, &mark.rows()[..mark.rows().len().min(1)])),
    ),
    wrong(
        "withdraw: the last row of a run left out",
        How::Rows(|set, mark| match mark.rows() {
            [rows @ .., _] if !rows.is_empty() => each(set, mark.alive, rows),
            rows => each(set, mark.alive, rows),
        }),
    ),
    wrong(
        "withdraw: a run ends at a row that is so already",
        How::Rows(|set, mark| {
            let rows = mark.rows();
            let end = rows.iter().position(|&row| bit(set, row) == mark.alive).unwrap_or(rows.len());
            each(set, mark.alive, &rows[..end])
        }),
    ),
    wrong(
        "withdraw: a run's neighbours taken once",
        How::Rows(|set, mark| {
            let mut rows = mark.rows().to_vec();
            rows.dedup_by_key(|row| *row / 64);
            each(set, mark.alive, &rows)
        }),
    ),
    wrong(
        "withdraw: a run with an absent row changes those before it",
        How::Leave(|mark, outcome, lent| {
            if let Outcome::Refused(15) = outcome {
                let mut set = lent.set();
                let present: Vec<u32> =
                    mark.rows().iter().copied().take_while(|&row| row < set.rows()).collect();
                if set.flag() == 1 {
                    each(&mut set, mark.alive, &present);
                    lent.record.lent().copy_from_slice(&set.record.0);
                    lent.words.lent().copy_from_slice(&set.words);
                }
            }
        }),
    ),
    wrong(
        "withdraw: a refusal writes the changed rows",
        How::Leave(|_, outcome, lent| {
            if let Outcome::Refused(_) = outcome {
                lent.changed.lent()[0] = 0;
            }
        }),
    ),
    wrong(
        "withdraw: the changed rows not written where nothing changed",
        How::Leave(|_, outcome, lent| {
            if let Outcome::Changed(0, _) = outcome {
                lent.unwritten();
            }
        }),
    ),
    wrong(
        "withdraw: 6 puts the number right",
        How::Leave(|_, outcome, lent| {
            let set = lent.set();
            if let Outcome::Refused(6) = outcome {
                lent.record.lent()[8] = if set.flag() == 1 { ones(&set) } else { set.rows() };
            }
        }),
    ),
    wrong(
        "withdraw: 6 clears the bits past the rows",
        How::Leave(|_, outcome, lent| {
            let past = lent.set().rows() % 64;
            if let Some(word) = lent.words.lent().last_mut()
                && past > 0
                && outcome.number() == 6
            {
                *word &= !(u64::MAX << past);
            }
        }),
    ),
    wrong(
        "withdraw: 16 changes the number",
        How::Leave(|_, outcome, lent| {
            if let Outcome::Refused(16) = outcome {
                lent.record.lent()[8] = lent.record.lent()[8].wrapping_sub(1);
            }
        }),
    ),
    wrong("withdraw: a word past the alive words", How::Leave(|_, _, lent| lent.words.past_the_end(0))),
    wrong("withdraw: a number past the record", How::Leave(|_, _, lent| lent.record.past_the_end(0))),
];

/// Check 2 by another number of words for the rows.
fn unlike(call: &Call, words: fn(u32) -> u32) -> bool {
    let words = if call.set.flag() == 1 { words(call.set.rows()) } else { 0 };
    call.set.words.len() != words as usize
}

fn ones(set: &AliveSet) -> u32 {
    set.words.iter().map(|word| word.count_ones()).sum()
}

fn bit(set: &AliveSet, row: u32) -> bool {
    set.words[row as usize / 64] >> (row % 64) & 1 == 1
}

/// Whether a row that is there is to change.
fn turns(call: &Call, row: u32) -> bool {
    row < call.set.rows() && bit(call.set, row) != call.mark.alive
}

/// Puts the bit alone, and tells 1 if it changed.
fn put(set: &mut AliveSet, alive: bool, row: u32) -> u64 {
    let before = bit(set, row);
    let word = &mut set.words[row as usize / 64];
    *word = *word & !(1 << (row % 64)) | (alive as u64) << (row % 64);
    (before != alive) as u64
}

fn step(set: &mut AliveSet, alive: bool, by: u64) {
    let by = by as u32;
    set.record[8] = if alive { set.count().wrapping_add(by) } else { set.count().wrapping_sub(by) };
}

/// As it must be.
fn right(set: &mut AliveSet, alive: bool, row: u32) -> u64 {
    let changed = put(set, alive, row);
    step(set, alive, changed);
    changed
}

fn keeping(set: &mut AliveSet, alive: bool, row: u32, which: bool) -> u64 {
    let before = set.count();
    let changed = right(set, alive, row);
    if alive == which {
        set.record[8] = before;
    }
    changed
}

fn each(set: &mut AliveSet, alive: bool, rows: &[u32]) -> u64 {
    rows.iter().map(|&row| right(set, alive, row)).sum()
}

/// Counts the rows to be changed before any is, where `so` says so of what they are to be.
fn counted_first(set: &mut AliveSet, mark: &Mark, so: fn(bool) -> bool) -> u64 {
    if !so(mark.alive) {
        return each(set, mark.alive, mark.rows());
    }
    let changed = mark.rows().iter().filter(|&&row| bit(set, row) != mark.alive).count() as u64;
    for &row in mark.rows() {
        put(set, mark.alive, row);
    }
    step(set, mark.alive, changed);
    changed
}

/// The model as withdraw and reinstate, with a slip or none: the answer's number.
pub fn mark(how: Option<How>, mark: &Mark, lent: &mut Marked) -> u32 {
    let set = &lent.set();
    let call = Call { mark, set };
    let mut checks = CHECKS.to_vec();
    match how {
        Some(How::Before(k, other)) => put_before(&mut checks, k, other),
        Some(How::Skip(k)) => checks.retain(|&(number, _)| number != k),
        Some(How::Check(k, check)) => put_in_place(&mut checks, k, check),
        _ => {}
    }
    let outcome = match withdraw::answer_by(&checks, &call) {
        0 => changed(how, &call),
        number => Outcome::Refused(number),
    };
    if let Outcome::Changed(n, left) = &outcome {
        lent.write(*n, left);
    }
    if let Some(How::Leave(f)) = how {
        f(mark, &outcome, lent);
    }
    outcome.number()
}

fn changed(how: Option<How>, call: &Call) -> Outcome {
    let mut set = call.set.clone();
    let n = match how {
        Some(How::Row(f)) => call.mark.rows().iter().map(|&row| f(&mut set, call.mark.alive, row)).sum(),
        Some(How::Rows(f)) => f(&mut set, call.mark),
        _ => return withdraw::changed(call),
    };
    Outcome::Changed(n, set)
}
