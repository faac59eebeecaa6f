//! The time orders of a case, and what is told of them in the end.
use super::{Answers, Source, Task, lend};
use crate::damage;
use crate::generate;
use crate::order;
use crate::rng::Rng;
use crate::wire::{Input, Outcome, Sections, Seg};

/// Segments of times in exact space or more; the join of them in their time order; damaged copies.
pub fn tasks(rng: &mut Rng) -> Vec<Task> {
    let segs = generate::times::segments(rng);
    let addresses = order::addresses(&segs);
    let space = addresses.len() + if rng.one_in(3) { 0 } else { rng.index(9) };
    let mut list = vec![Task::Order { sections: order::sections(&segs), space }];
    let copies = if addresses.len() < 1_000 { 3 } else { 1 };
    for _ in 0..copies {
        let (sections, space) = damage::order(rng, &segs);
        list.push(Task::Order { sections, space });
    }
    let required = rng.pick(&[255, 255, 7]);
    let sections = Input { mode: 1, required, segs, addresses }.sections();
    let lent = lend(rng, &sections).0;
    list.push(Task::Join { sections, lent, source: Source::Ordered });
    list
}

/// How many there were, and of the sorted ones what they had.
#[derive(Default)]
pub struct Orders {
    answers: Answers,
    alive: u64,
    /// An alive untimed row at a segment's start.
    starts: u64,
    /// One whose time is that of a withdrawn row.
    from_withdrawn: u64,
    /// A segment of rows without any time.
    without_time: u64,
    /// More than 64 rows of one segment on end, and others.
    long_runs: u64,
    exact: u64,
    most_rows: usize,
    joins: Answers,
    classes: [u64; 3],
}

impl Orders {
    pub fn count(&mut self, sections: &Sections, space: usize, outcome: &order::Outcome) {
        self.answers.0[outcome.number() as usize] += 1;
        let order::Outcome::Sorted(addresses) = outcome else { return };
        let segs = sections.cut().segs;
        let first = |s: &Seg| order::timed(s).first().map(|&(row, _)| row);
        let starts = |s: &&Seg| first(s).is_some_and(|row| (0..row).any(|row| s.is_alive(row)));
        let mut runs = addresses.chunk_by(|a, b| a[0] == b[0]);
        self.alive += segs.iter().any(|s| s.alive.is_some()) as u64;
        self.starts += segs.iter().any(|s| starts(&s)) as u64;
        self.from_withdrawn += segs.iter().filter(starts).any(|s| !s.is_alive(first(s).unwrap())) as u64;
        self.without_time += segs.iter().any(|s| s.rows > 0 && s.values.is_empty()) as u64;
        self.long_runs += runs.any(|run| run.len() > 64 && run.len() < addresses.len()) as u64;
        self.exact += (space == addresses.len()) as u64;
        self.most_rows = self.most_rows.max(addresses.len());
    }

    pub fn count_join(&mut self, outcome: &Outcome) {
        self.joins.0[outcome.number() as usize] += 1;
        if let Outcome::Accepted(l) = outcome {
            self.classes[l.class as usize] += 1;
        }
    }

    pub fn add(&mut self, other: &Orders) {
        self.answers.add(&other.answers);
        self.alive += other.alive;
        self.starts += other.starts;
        self.from_withdrawn += other.from_withdrawn;
        self.without_time += other.without_time;
        self.long_runs += other.long_runs;
        self.exact += other.exact;
        self.most_rows = self.most_rows.max(other.most_rows);
        self.joins.add(&other.joins);
        self.classes.iter_mut().zip(other.classes).for_each(|(a, b)| *a += b);
    }

    pub fn print(&self) {
        println!(
            "time orders: {}; accepted: with alive sets {}, with untimed rows at a segment's start {}, \
             whose time is a withdrawn row's {}, with a segment without any time {}, \
             with more than 64 rows of one segment on end {}, in exact space {}; most rows {}",
            self.answers.print(order::CHECKS.iter().map(|(number, _)| *number)),
            self.alive,
            self.starts,
            self.from_withdrawn,
            self.without_time,
            self.long_runs,
            self.exact,
            self.most_rows
        );
        println!(
            "joins in the time order beside the crate's: accepted {}; class 0 {}, 1 {}, 2 {}",
            self.joins.accepted(),
            self.classes[0],
            self.classes[1],
            self.classes[2]
        );
    }
}
