//! Document 02's withdraw and reinstate, of one row or of a run of rows, their answers and what they
//! change: from the document's words alone, as naively as they read, over the rows as a list of yes and no.
use crate::wire::{Record, Seg};

/// What is lent to a call, and as it leaves it: a record and its alive words.
#[derive(Clone, Debug, PartialEq, Eq)]
pub struct AliveSet {
    pub record: Record,
    pub words: Vec<u64>,
}

impl AliveSet {
    pub fn of(s: &Seg) -> AliveSet {
        AliveSet { record: s.record(), words: s.alive.clone().unwrap_or_default() }
    }
    pub fn rows(&self) -> u32 {
        self.record[2]
    }
    pub fn flag(&self) -> u32 {
        self.record[7]
    }
    pub fn count(&self) -> u32 {
        self.record[8]
    }
    /// Of each bit of the words whether it is set, row 0 first.
    pub fn bits(&self) -> Vec<bool> {
        self.words.iter().flat_map(|word| (0..64).map(move |bit| word >> bit & 1 == 1)).collect()
    }
}

/// One row, as 02 has it, or a run of them.
#[derive(Clone, Debug, PartialEq, Eq)]
pub enum Rows {
    One(u32),
    Run(Vec<u32>),
}

/// A call: rows that are to be alive (reinstate) or not (withdraw).
#[derive(Clone, Debug, PartialEq, Eq)]
pub struct Mark {
    pub alive: bool,
    pub rows: Rows,
}

impl Mark {
    pub fn rows(&self) -> &[u32] {
        match &self.rows {
            Rows::One(row) => std::slice::from_ref(row),
            Rows::Run(rows) => rows,
        }
    }
}

pub struct Call<'a> {
    pub mark: &'a Mark,
    pub set: &'a AliveSet,
}

/// How many rows changed, and what is left.
#[derive(Clone, Debug, PartialEq, Eq)]
pub enum Outcome {
    Changed(u64, AliveSet),
    Refused(u32),
}

impl Outcome {
    pub fn number(&self) -> u32 {
        match self {
            Outcome::Changed(..) => 0,
            Outcome::Refused(n) => *n,
        }
    }
}

pub type Check = fn(&Call) -> bool;

/// "These two calls give 6 .. before 15. Before that they give 2 .. and 3 .. 16 .. tested after 15."
pub const CHECKS: [(u32, Check); 5] =
    [(2, lengths), (3, unknown), (6, alive_set), (15, absent), (16, without_set)];

pub fn outcome(call: &Call) -> Outcome {
    match answer_by(&CHECKS, call) {
        0 => changed(call),
        number => Outcome::Refused(number),
    }
}

/// The first check that fails, or 0.
pub fn answer_by(checks: &[(u32, Check)], call: &Call) -> u32 {
    checks.iter().find(|(_, fails)| fails(call)).map_or(0, |(number, _)| *number)
}

/// 2: "when the alive words don't fit the record": one word per 64 rows or part of it; "only flag 1 adds
/// alive words"
pub fn lengths(call: &Call) -> bool {
    let words = if call.set.flag() == 1 { call.set.rows().div_ceil(64) } else { 0 };
    call.set.words.len() != words as usize
}

/// 3: "for an unknown flag"
pub fn unknown(call: &Call) -> bool {
    call.set.flag() > 1
}

/// 6: "for that", a wrong stored number, "or for a bit past the rows"
pub fn alive_set(call: &Call) -> bool {
    past_the_rows(call) || wrong_count(call)
}

pub fn past_the_rows(call: &Call) -> bool {
    call.set.bits().iter().skip(call.set.rows() as usize).any(|&bit| bit)
}

/// "A record without an alive set holds its row count."
pub fn wrong_count(call: &Call) -> bool {
    let right = match call.set.flag() {
        0 => call.set.rows() as usize,
        _ => call.set.bits().iter().filter(|&&bit| bit).count(),
    };
    call.set.count() as usize != right
}

/// 15: "when the row isn't below the segment's rows", any of them
pub fn absent(call: &Call) -> bool {
    call.mark.rows().iter().any(|&row| row >= call.set.rows())
}

/// 16: "when the segment has no alive set"
pub fn without_set(call: &Call) -> bool {
    call.set.flag() == 0
}

/// "Withdrawing or reinstating a row changes its bit and the number; where the row is so already, the call
/// changes neither and tells that nothing changed." Row after row.
pub fn changed(call: &Call) -> Outcome {
    let mut bits = call.set.bits();
    let mut changed = 0;
    for &row in call.mark.rows() {
        let bit = &mut bits[row as usize];
        changed += (*bit != call.mark.alive) as u64;
        *bit = call.mark.alive;
    }
    let word = |bits: &[bool]| bits.iter().rev().fold(0, |word, &bit| word << 1 | bit as u64);
    let mut left = call.set.clone();
    left.words = bits.chunks(64).map(word).collect();
    left.record[8] = bits.iter().filter(|&&bit| bit).count() as u32;
    Outcome::Changed(changed, left)
}

/// The outcomes of calls in turn.
pub fn outcomes(set: &AliveSet, marks: &[Mark]) -> Vec<Outcome> {
    let mut set = set.clone();
    let mut list = Vec::new();
    for mark in marks {
        let outcome = outcome(&Call { mark, set: &set });
        if let Outcome::Changed(_, left) = &outcome {
            set = left.clone();
        }
        list.push(outcome);
    }
    list
}

/// What calls in turn leave.
pub fn left(set: &AliveSet, outcomes: &[Outcome]) -> AliveSet {
    let last = outcomes.iter().rev().find_map(|outcome| match outcome {
        Outcome::Changed(_, left) => Some(left),
        Outcome::Refused(_) => None,
    });
    last.unwrap_or(set).clone()
}

/// The last word on each row: as the last call that names it and was not refused says, else as it was.
pub fn last_words(set: &AliveSet, marks: &[Mark], answers: &[u32]) -> Vec<bool> {
    let mut bits = set.bits();
    for (mark, _) in marks.iter().zip(answers).filter(|(_, answer)| **answer == 0) {
        mark.rows().iter().for_each(|&row| bits[row as usize] = mark.alive);
    }
    bits
}

#[cfg(test)]
mod tests {
    use super::*;

    /// Rows, flag, number of alive rows and words, in a record whose type and kind a join refuses and whose
    /// lengths and pair stand for nothing that is lent.
    fn set(rows: u32, flag: u32, count: u32, words: &[u64]) -> AliveSet {
        let record = Record::new([9, 3, rows, 1, 2, 3, 4, flag, count], [u64::MAX, 1 << 32]);
        AliveSet { record, words: words.to_vec() }
    }
    fn one(alive: bool, row: u32) -> Mark {
        Mark { alive, rows: Rows::One(row) }
    }
    fn run(alive: bool, rows: &[u32]) -> Mark {
        Mark { alive, rows: Rows::Run(rows.to_vec()) }
    }
    fn changes(n: u64, left: AliveSet, mark: Mark, set: AliveSet) {
        assert_eq!(outcome(&Call { mark: &mark, set: &set }), Outcome::Changed(n, left), "{mark:?} {set:?}");
        // A run of one row is that row.
        if let Rows::One(row) = mark.rows {
            let (mark, set) = (&run(mark.alive, &[row]), &set);
            assert_eq!(outcome(&Call { mark, set }).number(), 0, "{mark:?} {set:?}");
        }
    }
    fn refuses(number: u32, mark: Mark, set: AliveSet) {
        assert_eq!(outcome(&Call { mark: &mark, set: &set }), Outcome::Refused(number), "{mark:?} {set:?}");
    }

    const W: bool = false;
    const R: bool = true;
    const ALL: u64 = u64::MAX;

    #[test]
    fn rows() {
        changes(1, set(3, 1, 2, &[5]), one(W, 1), set(3, 1, 3, &[7]));
        changes(0, set(3, 1, 2, &[5]), one(W, 1), set(3, 1, 2, &[5]));
        changes(1, set(3, 1, 3, &[7]), one(R, 1), set(3, 1, 2, &[5]));
        changes(0, set(3, 1, 2, &[5]), one(R, 2), set(3, 1, 2, &[5]));
        changes(1, set(3, 1, 0, &[0]), one(W, 2), set(3, 1, 1, &[4]));
        changes(1, set(1, 1, 1, &[1]), one(R, 0), set(1, 1, 0, &[0]));
        changes(1, set(65, 1, 1, &[0, 1]), one(R, 64), set(65, 1, 0, &[0, 0]));
        changes(1, set(66, 1, 64, &[ALL, 0]), one(W, 65), set(66, 1, 65, &[ALL, 2]));
        changes(1, set(64, 1, 63, &[ALL >> 1]), one(W, 63), set(64, 1, 64, &[ALL]));
        changes(1, set(64, 1, 64, &[ALL]), one(R, 63), set(64, 1, 63, &[ALL >> 1]));
    }

    #[test]
    fn answers() {
        // 2: a word too few, one too many, any without an alive set or with an unknown flag
        refuses(2, one(W, 0), set(65, 1, 1, &[1]));
        refuses(2, one(W, 0), set(1, 1, 1, &[1, 0]));
        refuses(2, one(R, 0), set(0, 1, 0, &[0]));
        refuses(2, one(W, 1), set(3, 0, 3, &[7]));
        refuses(2, one(R, 1), set(3, 2, 3, &[7]));
        // 67108864 words, not none
        refuses(2, one(W, 0), set(u32::MAX, 1, 0, &[]));
        refuses(2, one(W, 0), set(u32::MAX - 63, 1, 0, &[]));
        // .. before 6, 15 and 16
        refuses(2, one(W, 3), set(3, 0, 2, &[7]));
        refuses(2, one(R, 65), set(65, 1, 9, &[1]));
        // 3, before 6 and 15
        refuses(3, one(W, 1), set(3, 2, 3, &[]));
        refuses(3, one(R, 3), set(3, u32::MAX, 2, &[]));
        // 6: a bit past the rows, counted or not; a wrong number, of set bits or of rows
        refuses(6, one(W, 0), set(3, 1, 4, &[15]));
        refuses(6, one(W, 0), set(3, 1, 3, &[15]));
        refuses(6, one(R, 0), set(65, 1, 1, &[0, 2]));
        refuses(6, one(W, 0), set(3, 1, 2, &[7]));
        refuses(6, one(R, 1), set(3, 1, 3, &[5]));
        refuses(6, one(R, 0), set(3, 1, 1, &[0]));
        refuses(6, one(W, 1), set(3, 0, 2, &[]));
        refuses(6, one(W, 1), set(u32::MAX, 0, 0, &[]));
        // .. before 15
        refuses(6, one(W, 3), set(3, 1, 2, &[7]));
        refuses(6, one(R, 3), set(3, 0, 2, &[]));
        // 15, before 16
        refuses(15, one(W, 3), set(3, 1, 3, &[7]));
        refuses(15, one(R, 3), set(3, 1, 3, &[7]));
        refuses(15, one(R, 0), set(0, 1, 0, &[]));
        refuses(15, one(W, u32::MAX), set(3, 1, 3, &[7]));
        refuses(15, one(W, 3), set(3, 0, 3, &[]));
        refuses(15, one(R, 0), set(0, 0, 0, &[]));
        // 16
        refuses(16, one(W, 1), set(3, 0, 3, &[]));
        refuses(16, one(R, 2), set(3, 0, 3, &[]));
        refuses(16, one(W, 0), set(u32::MAX, 0, u32::MAX, &[]));
    }

    #[test]
    fn runs() {
        changes(2, set(3, 1, 0, &[0]), run(W, &[0, 1, 2]), set(3, 1, 2, &[5]));
        changes(1, set(3, 1, 2, &[5]), run(W, &[1, 1]), set(3, 1, 3, &[7]));
        changes(0, set(3, 1, 2, &[5]), run(W, &[]), set(3, 1, 2, &[5]));
        changes(2, set(66, 1, 3, &[1, 3]), run(R, &[65, 0, 64]), set(66, 1, 1, &[1, 0]));
        changes(0, set(3, 1, 2, &[5]), run(R, &[2, 0, 2]), set(3, 1, 2, &[5]));
        refuses(15, run(W, &[0, 1, 3]), set(3, 1, 3, &[7]));
        refuses(15, run(R, &[3, 0]), set(3, 1, 0, &[0]));
        refuses(15, run(W, &[0, 3]), set(3, 0, 3, &[]));
        refuses(16, run(W, &[]), set(3, 0, 3, &[]));
        refuses(6, run(R, &[]), set(3, 1, 3, &[5]));
        refuses(3, run(R, &[]), set(3, 2, 3, &[]));
        refuses(2, run(R, &[]), set(3, 1, 3, &[]));
    }

    /// Withdrawn, reinstated, withdrawn again, one refused, one that changes nothing.
    #[test]
    fn in_turn() {
        let marks = [one(W, 1), one(R, 1), one(W, 3), run(W, &[1, 2]), one(R, 0), one(R, 2)];
        let start = set(3, 1, 3, &[7]);
        let outcomes = outcomes(&start, &marks);
        let left = left(&start, &outcomes);
        let answers: Vec<u32> = outcomes.iter().map(Outcome::number).collect();
        assert_eq!(answers, [0, 0, 15, 0, 0, 0]);
        assert_eq!(left, set(3, 1, 2, &[5]));
        assert_eq!(last_words(&start, &marks, &answers), left.bits());
        assert_eq!(left.bits()[..4], [true, false, true, false]);
    }
}
