//! Times of withdraw and reinstate, of one row and of a run of rows. The same changes in plain Rust, without
//! any test, stand beside them.
use std::hint::black_box;
use std::time::Duration;

use super::inputs::{alive_row, withdrawing};
use super::{Clock, checksum, library, mean, rounds};
use crate::ours::{Joiner, Marked};
use crate::rng::Rng;
use crate::withdraw::{AliveSet, Mark, Rows};

/// How many rows a run names where the sets grow.
pub const RUN: usize = 100_000;

/// What was measured of a set: ns a call of one row, of one that is refused with 15, which has all tests
/// before it, of a run of no rows, and of a count of the set bits in plain Rust; ns a row of a run, and in
/// plain Rust; and checksums of the plain set and of ours.
pub struct MeasuredSet {
    pub rows: u32,
    pub words: usize,
    pub one: f64,
    pub refused: f64,
    pub none: f64,
    pub count: f64,
    pub run: MeasuredRun,
}

/// What was measured of a run of so many rows: ns a call.
pub struct MeasuredRun {
    pub rows: u32,
    pub named: usize,
    pub ours: f64,
    pub plain: f64,
    pub sums: [u64; 2],
}

impl MeasuredRun {
    pub fn per_row(&self, time: f64) -> f64 {
        time / self.named as f64
    }
}

pub fn measure_set(rows: u32) -> MeasuredSet {
    let set = withdrawing(rows);
    let mut ours = Ours::new(&set);
    let calls = one_by_one(&set, (20_000_000 / rows.max(1)).clamp(20, 20_000));
    let repeats = calls.len() as u32;
    let absent = Mark { alive: false, rows: Rows::One(rows) };
    let nothing = Mark { alive: false, rows: Rows::Run(vec![]) };
    let (Clock { look, .. }, least) = rounds(|| {
        let mut call = calls.iter();
        [
            mean(repeats, || ours.mark(call.next().unwrap(), 0)),
            mean(repeats, || ours.mark(&absent, 15)),
            mean(repeats, || ours.mark(&nothing, 0)),
            mean(repeats, || _ = black_box(count(black_box(&set.words)))),
        ]
    });
    let [one, refused, none, count] = least.map(|time| nanoseconds(time.saturating_sub(look / repeats)));
    MeasuredSet { rows, words: set.words.len(), one, refused, none, count, run: measure_run(rows, RUN) }
}

/// The named rows are withdrawn and reinstated in turn.
pub fn measure_run(rows: u32, named: usize) -> MeasuredRun {
    let set = withdrawing(rows);
    let mut rng = Rng::new(0);
    let list: Vec<u32> = (0..named).map(|_| rng.below(rows as u64) as u32).collect();
    let marks = [false, true].map(|alive| Mark { alive, rows: Rows::Run(list.clone()) });
    let (mut ours, mut plain) = (Ours::new(&set), set.clone());
    let repeats = 2 * (1_000_000 / named.max(1)).clamp(1, 1_000) as u32;
    let (Clock { look, .. }, least) = rounds(|| {
        let mut turn = [0; 2];
        [
            mean(repeats, || ours.mark(&marks[next(&mut turn[0])], 0)),
            mean(repeats, || _ = black_box(change(&mut plain, &marks[next(&mut turn[1])]))),
        ]
    });
    // Once more with half of them, so that the sets end other than they began.
    let half = Mark { alive: false, rows: Rows::Run(list[named / 2..].to_vec()) };
    ours.mark(&half, 0);
    let changed = change(&mut plain, &half);
    let [ours_time, plain_time] = least.map(|time| nanoseconds(time.saturating_sub(look / repeats)));
    MeasuredRun { rows, named, ours: ours_time, plain: plain_time, sums: [sum(&plain, changed), ours.sum()] }
}

/// 0, 1, 0, 1, ..
fn next(turn: &mut usize) -> usize {
    *turn ^= 1;
    *turn ^ 1
}

fn nanoseconds(time: Duration) -> f64 {
    time.as_nanos() as f64
}

/// An alive row withdrawn and reinstated, then another: each call changes one.
fn one_by_one(set: &AliveSet, calls: u32) -> Vec<Mark> {
    let mut rng = Rng::new(0);
    let mut list = Vec::new();
    for _ in 0..calls.div_ceil(2) {
        let row = alive_row(&mut rng, set);
        list.extend([false, true].map(|alive| Mark { alive, rows: Rows::One(row) }));
    }
    list
}

struct Ours {
    joiner: Box<dyn Joiner>,
    lent: Marked,
}

impl Ours {
    fn new(set: &AliveSet) -> Ours {
        Ours { joiner: library(), lent: Marked::new(set, 1) }
    }

    fn mark(&mut self, mark: &Mark, answer: u32) {
        assert_eq!(self.joiner.mark(mark, &mut self.lent), answer);
    }

    fn sum(&mut self) -> u64 {
        let changed = self.lent.changed.lent()[0];
        sum(&self.lent.set(), changed)
    }
}

/// The set bits, in plain Rust.
fn count(words: &[u64]) -> u32 {
    words.iter().map(|word| word.count_ones()).sum()
}

/// The change of all rows, in plain Rust: how many changed.
fn change(set: &mut AliveSet, mark: &Mark) -> u64 {
    let mut changed = 0;
    for &row in mark.rows() {
        let (word, bit) = (&mut set.words[row as usize / 64], 1 << (row % 64));
        let alive = *word & bit != 0;
        changed += (alive != mark.alive) as u64;
        *word = if mark.alive { *word | bit } else { *word & !bit };
    }
    let n = changed as u32;
    set.record[8] = if mark.alive { set.count() + n } else { set.count() - n };
    changed
}

/// Over the record, the words and the number of rows that changed last.
fn sum(set: &AliveSet, changed: u64) -> u64 {
    checksum(&set.record.0, &[], &[&set.words[..], &[changed]].concat())
}

#[cfg(test)]
mod tests {
    use super::*;
    use crate::withdraw::{self, Call, Outcome};

    /// The plain change is the model's, and each call of one row changes it.
    #[test]
    fn is_the_change() {
        let set = withdrawing(1_000);
        for mark in one_by_one(&set, 100).chunks(2) {
            let outcomes = withdraw::outcomes(&set, mark);
            assert!(outcomes.iter().all(|outcome| matches!(outcome, Outcome::Changed(1, _))));
            assert_eq!(withdraw::left(&set, &outcomes), set);
        }
        let mut rng = Rng::new(3);
        for alive in [false, true] {
            let rows = (0..500).map(|_| rng.below(1_000) as u32).collect();
            let mark = Mark { alive, rows: Rows::Run(rows) };
            let mut plain = set.clone();
            let changed = change(&mut plain, &mark);
            let outcome = withdraw::outcome(&Call { mark: &mark, set: &set });
            assert_eq!(outcome, Outcome::Changed(changed, plain));
        }
    }
}
