//! The calls of withdraw and reinstate of a case, and what is told of them in the end.
use super::{Answers, Source, Task, lend};
use crate::damage;
use crate::generate::{self, Kinds, Types, turns};
use crate::ours::{Joiner, Marked};
use crate::rng::Rng;
use crate::wire::{Input, Outcome, Seg};
use crate::withdraw::{self, AliveSet, Mark, Rows};

/// Calls in turn of a good record and its alive words; damaged copies of these; now and then segments
/// whose alive sets have been changed, in an ordered join.
pub fn tasks(rng: &mut Rng) -> Vec<Task> {
    let set = turns::alive(rng);
    let mut list = vec![turn(rng, set.clone(), usize::MAX)];
    // Mostly all calls are refused alike: a few will do.
    for _ in 0..2 {
        let damaged = damage::alive(rng, &set);
        list.push(turn(rng, damaged, 4));
    }
    if rng.one_in(4) {
        list.extend(joined(rng));
    }
    list
}

fn turn(rng: &mut Rng, set: AliveSet, most: usize) -> Task {
    let mut marks = turns::marks(rng, set.rows());
    marks.truncate(most);
    Task::Turn { set, marks }
}

/// Calls in turn of some segments of a join, and the join of what they leave in any row order.
fn joined(rng: &mut Rng) -> Vec<Task> {
    let shape = generate::stored_shape(rng);
    let mut input = Input { mode: 1, ..generate::input(rng, shape, Kinds::Joined, Types::Any) };
    let mut list = Vec::new();
    for s in &mut input.segs {
        if rng.one_in(3) {
            list.push(marked(rng, s));
        }
    }
    input.addresses = generate::addresses(rng, &input.segs);
    let sections = input.sections();
    let lent = lend(rng, &sections).0;
    list.push(Task::Join { sections, lent, source: Source::Marked });
    list
}

/// Leaves the segment as calls in turn leave it. That the joiner's calls leave it so is compared first.
fn marked(rng: &mut Rng, s: &mut Seg) -> Task {
    if s.alive.is_none() {
        s.alive = Some(generate::alive_set(rng, s.rows, &[]));
    }
    let set = AliveSet::of(s);
    let marks = turns::marks(rng, s.rows);
    let left = withdraw::left(&set, &withdraw::outcomes(&set, &marks));
    s.alive = Some(left.words);
    s.set_count(left.record[8]);
    Task::Turn { set, marks }
}

/// What is wrong with calls in turn on one record and its alive words, if anything. After each call answer,
/// record, words and the number of changed rows are compared.
pub fn fault(
    joiner: &mut dyn Joiner,
    set: &AliveSet,
    marks: &[Mark],
    outcomes: &[withdraw::Outcome],
    salt: u64,
) -> Option<String> {
    let mut lent = Marked::new(set, salt);
    let (mut before, mut answers) = (set.clone(), Vec::new());
    for (i, (mark, outcome)) in marks.iter().zip(outcomes).enumerate() {
        lent.unwritten();
        let named = mark.clone();
        let answer = joiner.mark(&named, &mut lent);
        let fault = match answer == outcome.number() {
            _ if named != *mark => Some("the rows were written to".to_string()),
            false => Some(format!("the answer is {answer}, must be {}", outcome.number())),
            true => lent.fault(outcome, &before),
        };
        if let Some(fault) = fault {
            return Some(format!("in call {i} of a turn, {mark:?}: {fault}"));
        }
        if let withdraw::Outcome::Changed(_, left) = outcome {
            before = left.clone();
        }
        answers.push(answer);
    }
    end_fault(set, marks, &answers, &lent.set())
}

/// What is wrong in the end, by the start, the calls and their answers alone, where any was accepted: "the
/// number equals the set bits after any sequence of the two", and each row is as the last word on it says.
fn end_fault(set: &AliveSet, marks: &[Mark], answers: &[u32], left: &AliveSet) -> Option<String> {
    if !answers.contains(&0) {
        return (set != left).then(|| "refusals alone have changed something".to_string());
    }
    let set_bits: u32 = left.words.iter().map(|word| word.count_ones()).sum();
    if left.count() != set_bits {
        return Some(format!("the number is {}, {set_bits} bits are set", left.count()));
    }
    let (is, must_be) = (left.bits(), withdraw::last_words(set, marks, answers));
    let row = (0..is.len()).find(|&row| is[row] != must_be[row])?;
    Some(format!("row {row} is not as the last word on it says"))
}

/// How many calls there were, and of the accepted ones what they did.
#[derive(Default)]
pub struct Turns {
    turns: u64,
    calls: Answers,
    /// Of accepted calls: withdraw and reinstate, with a change and without.
    changes: [[u64; 2]; 2],
    runs: u64,
    rows_named: u64,
    rows_changed: u64,
    most_calls: usize,
    most_rows: u32,
    joins: Answers,
}

impl Turns {
    pub fn count(&mut self, set: &AliveSet, marks: &[Mark], outcomes: &[withdraw::Outcome]) {
        self.turns += 1;
        for (mark, outcome) in marks.iter().zip(outcomes) {
            self.calls.0[outcome.number() as usize] += 1;
            let withdraw::Outcome::Changed(n, _) = outcome else { continue };
            self.changes[mark.alive as usize][(*n == 0) as usize] += 1;
            self.runs += matches!(mark.rows, Rows::Run(_)) as u64;
            self.rows_named += mark.rows().len() as u64;
            self.rows_changed += n;
            self.most_rows = self.most_rows.max(set.rows());
        }
        self.most_calls = self.most_calls.max(marks.len());
    }

    pub fn count_join(&mut self, outcome: &Outcome) {
        self.joins.0[outcome.number() as usize] += 1;
    }

    pub fn add(&mut self, other: &Turns) {
        self.turns += other.turns;
        self.calls.add(&other.calls);
        let each = self.changes.as_flattened_mut().iter_mut();
        each.zip(other.changes.as_flattened()).for_each(|(a, b)| *a += b);
        self.runs += other.runs;
        self.rows_named += other.rows_named;
        self.rows_changed += other.rows_changed;
        self.most_calls = self.most_calls.max(other.most_calls);
        self.most_rows = self.most_rows.max(other.most_rows);
        self.joins.add(&other.joins);
    }

    pub fn print(&self) {
        let [withdrawn, reinstated] = self.changes;
        println!(
            "withdraw and reinstate, {} turns: {}; accepted: withdraw with a change {}, without one {}, \
             reinstate with a change {}, without one {}; of a run {}; rows named {}, changed {}; \
             most calls in a turn {}, most rows {}",
            self.turns,
            self.calls.print(withdraw::CHECKS.iter().map(|(number, _)| *number)),
            withdrawn[0],
            withdrawn[1],
            reinstated[0],
            reinstated[1],
            self.runs,
            self.rows_named,
            self.rows_changed,
            self.most_calls,
            self.most_rows
        );
        println!("ordered joins of what they left: {}", self.joins.print([10].into_iter()));
    }
}
