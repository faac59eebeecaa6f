//! The calls for least and greatest values of a case, and what is told of pairs in the end.
use super::{Must, Source, Task};
use crate::generate;
use crate::model;
use crate::order;
use crate::rng::Rng;
use crate::run;
use crate::table::{self, Call, Lent};
use crate::wire::{Input, Listing, Outcome, Sections, Seg, words_of};
use crate::{convert, wire::Pair};

/// Columns that belong to no join, of any type.
pub fn tasks(rng: &mut Rng) -> Vec<Task> {
    let column = |_| {
        let (ty, words) = generate::column(rng);
        Task::Pair { ty, words }
    };
    (0..2).map(column).collect()
}

/// The columns of segments that are joined.
pub fn of_segments(segs: &[Seg]) -> Vec<Task> {
    segs.iter().map(|s| Task::Pair { ty: s.ty, words: words_of(s.ty, &s.values) }).collect()
}

#[derive(Default)]
pub struct Pairs {
    /// Joined pairs that were held to the crate's own least and greatest value, of I64 and of U64.
    beside: [u64; 2],
    /// Of these: of coerced columns; other than the held columns' pairs put together; wider than 32 bits.
    coerced: u64,
    unlike: u64,
    wide: u64,
    /// 0 and 0: of I64 or U64 without a value, of another type.
    zeros: [u64; 2],
    /// By the model alone.
    beyond: u64,
    /// Refused with 5 for an untrue pair alone: joins, conversions, time orders.
    untrue: [u64; 3],
    /// Calls for a column's pair: of I64, of U64, of no value of these, of another type.
    calls: [u64; 4],
}

impl Pairs {
    pub fn count(&mut self, task: &Task, must: &Must) {
        match (task, must) {
            (Task::Join { sections, source, .. }, Must::Join(Outcome::Accepted(l))) => match source {
                Source::Converted(stored) => self.count_join(stored, l),
                _ => self.count_join(&sections.cut(), l),
            },
            (Task::Join { sections, .. }, Must::Join(Outcome::Refused(5))) => {
                self.untrue[0] += pair_alone(sections)
            }
            (Task::Convert { sections, .. }, Must::Convert(convert::Outcome::Refused(5))) => {
                self.untrue[1] += pair_alone(sections)
            }
            (Task::Order { sections, .. }, Must::Order(order::Outcome::Refused(5))) => {
                self.untrue[2] += pair_alone(sections)
            }
            (Task::Pair { ty, words }, _) => {
                let kind = match ty {
                    0 | 1 if words.is_empty() => 2,
                    0 | 1 => *ty as usize,
                    _ => 3,
                };
                self.calls[kind] += 1;
            }
            _ => {}
        }
    }

    /// `input`: what the crate joins.
    fn count_join(&mut self, input: &Input, l: &Listing) {
        if !run::says_pair(l) {
            self.zeros[(l.ty > 1) as usize] += 1;
            return;
        }
        if run::beyond_the_crate(input) {
            self.beyond += 1;
            return;
        }
        let held = || input.segs.iter().filter(|s| model::held(s));
        self.beside[l.ty as usize] += 1;
        self.coerced += held().any(|s| s.ty != l.ty) as u64;
        self.unlike += (put_together(l.ty, held().map(Seg::right_pair)) != l.pair) as u64;
        self.wide += l.pair.iter().any(|word| word >> 32 > 0) as u64;
    }

    pub fn add(&mut self, other: &Pairs) {
        fn add<const N: usize>(list: &mut [u64; N], other: [u64; N]) {
            list.iter_mut().zip(other).for_each(|(a, b)| *a += b);
        }
        add(&mut self.beside, other.beside);
        add(&mut self.zeros, other.zeros);
        add(&mut self.untrue, other.untrue);
        add(&mut self.calls, other.calls);
        self.coerced += other.coerced;
        self.unlike += other.unlike;
        self.wide += other.wide;
        self.beyond += other.beyond;
    }

    pub fn print(&self) {
        println!(
            "joined pairs beside the crate's own least and greatest value: {}: I64 {}, U64 {}; coerced {}, \
             other than the sources' put together {}, wider than 32 bits {}; by the model alone {}; 0 and 0: \
             without a value {}, of another type {}; refused for an untrue pair alone: joins {}, \
             conversions {}, time orders {}; pairs asked for {}: I64 {}, U64 {}, without a value {}, \
             of another type {}",
            self.beside.iter().sum::<u64>(),
            self.beside[0],
            self.beside[1],
            self.coerced,
            self.unlike,
            self.wide,
            self.beyond,
            self.zeros[0],
            self.zeros[1],
            self.untrue[0],
            self.untrue[1],
            self.untrue[2],
            self.calls.iter().sum::<u64>(),
            self.calls[0],
            self.calls[1],
            self.calls[2],
            self.calls[3],
        );
    }
}

/// The least and the greatest of pairs.
fn put_together(ty: u32, pairs: impl Iterator<Item = Pair>) -> Pair {
    let ends: Vec<u128> = pairs.flatten().map(u128::from).collect();
    model::pair(ty, &ends)
}

/// 1 where the values and terms of all segments are right, so that a pair is not.
fn pair_alone(sections: &Sections) -> u64 {
    !Call::new(sections, Lent::default()).any_segment(table::contents_of) as u64
}
