//! Random records with their alive words, and calls of withdraw and reinstate in turn.
use super::alive_set;
use crate::rng::Rng;
use crate::wire::Record;
use crate::withdraw::{AliveSet, Mark, Rows};

/// A record that passes 2, 3 and 6, mostly with an alive set, and its words. What else stands in the record,
/// least and greatest value among it, is not asked for, so it may be anything.
pub fn alive(rng: &mut Rng) -> AliveSet {
    let flag = !rng.one_in(12) as u32;
    let rows = if flag == 1 { rows(rng) } else { any(rng) };
    let mut record = Record(std::array::from_fn(|_| any(rng)));
    (record[2], record[7], record[8]) = (rows, flag, rows);
    let mut set = AliveSet { record, words: vec![] };
    if flag == 1 {
        set.words = alive_set(rng, rows, &[]);
        set.record[8] = set.words.iter().map(|word| word.count_ones()).sum();
    }
    set
}

/// Around whole words, few, some, many.
fn rows(rng: &mut Rng) -> u32 {
    let n = match rng.below(200) {
        0 => rng.below(100_000),
        1..10 => rng.below(3_000),
        10..70 => 64 * rng.between(1, 4) + rng.below(3) - 1,
        70..100 => rng.below(3),
        100..140 => rng.below(300),
        _ => rng.below(20),
    };
    n as u32
}

fn any(rng: &mut Rng) -> u32 {
    match rng.below(4) {
        0 => rng.next() as u32,
        1 => {
            rng.pick(&[0, 255, 1 << 31, u32::MAX - 64, u32::MAX - 63, u32::MAX - 62, u32::MAX - 1, u32::MAX])
        }
        _ => rng.below(9) as u32,
    }
}

/// Calls in turn for a record of so many rows: mostly of one row, some of a run, mostly of rows that are
/// there, and again and again of the same few.
pub fn marks(rng: &mut Rng, rows: u32) -> Vec<Mark> {
    let calls = match rng.below(8) {
        0..3 => rng.between(1, 3),
        3..7 => rng.below(20),
        _ => rng.below(60),
    };
    // Thousands of rows: few calls.
    let calls = if rows > 3_000 { calls.min(5) } else { calls };
    let few: Vec<u32> = (0..rng.between(1, 6)).map(|_| present(rng, rows)).collect();
    let draw = Draw { rows, few, absent: rng.pick(&[5, 20, u64::MAX]), same: rng.pick(&[1, 2, 3]) };
    (0..calls).map(|_| draw.mark(rng)).collect()
}

/// A row that is there, if any is: any one, the first, the last, at a word's start or end.
fn present(rng: &mut Rng, rows: u32) -> u32 {
    let n = rows.max(1);
    let row = match rng.below(6) {
        0 => 0,
        1 => n - 1,
        2 => (rng.below(n as u64) as u32) / 64 * 64,
        3 => (rng.below(n as u64) as u32) | 63,
        _ => rng.below(n as u64) as u32,
    };
    row.min(n - 1)
}

struct Draw {
    rows: u32,
    /// Rows that are named again and again.
    few: Vec<u32>,
    /// One row in so many is not there.
    absent: u64,
    /// One row in so many is one of the few.
    same: u64,
}

impl Draw {
    fn mark(&self, rng: &mut Rng) -> Mark {
        let alive = rng.one_in(2);
        let rows = if rng.one_in(3) { Rows::Run(self.run(rng)) } else { Rows::One(self.row(rng)) };
        Mark { alive, rows }
    }

    fn row(&self, rng: &mut Rng) -> u32 {
        if rng.one_in(self.absent) {
            let last_word = self.rows.div_ceil(64).wrapping_mul(64);
            let past = [self.rows, self.rows, last_word.wrapping_sub(1), last_word, 1 << 31, u32::MAX];
            return rng.pick(&past).max(self.rows);
        }
        if rng.one_in(self.same) { rng.pick(&self.few) } else { present(rng, self.rows) }
    }

    /// No rows, some, one of them twice, neighbours, or all.
    fn run(&self, rng: &mut Rng) -> Vec<u32> {
        let n = rng.below(9);
        let mut run: Vec<u32> = (0..n).map(|_| self.row(rng)).collect();
        match rng.below(8) {
            0 => run.clear(),
            1 => run.extend(run.first().copied()),
            2 => run = run.iter().flat_map(|&row| [row; 2]).collect(),
            3 => {
                let (a, b) = (present(rng, self.rows), present(rng, self.rows));
                run = (a.min(b)..a.max(b).min(self.rows)).take(500).collect();
            }
            4 if self.rows < 500 => run = (0..self.rows).collect(),
            // Rows that are there, and then one that isn't, or the other way round.
            5 => {
                run.retain(|&row| row < self.rows);
                let place = if rng.one_in(2) { run.len() } else { 0 };
                run.insert(place, self.rows);
            }
            _ => {}
        }
        run
    }
}
