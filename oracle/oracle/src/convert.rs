//! Document 02's converter of a stored segment of kind 3 into one of kind 4, its answers and what it
//! writes: from the document's words alone, as naively as they read.
use crate::model;
use crate::table;
use crate::wire::{Input, Record, Sections, Seg};

/// How many elements of the two new lists are lent.
#[derive(Clone, Copy, Debug, Default, PartialEq, Eq)]
pub struct Space {
    pub ids: usize,
    pub offsets: usize,
}

/// One call: the segment as sections of one record, of which mode, required type and addresses are
/// not handed over, and the space.
pub struct Call<'a> {
    pub sections: &'a Sections,
    pub space: Space,
}

impl Call<'_> {
    /// To be asked only once check 2 has passed.
    pub fn segment(&self) -> Seg {
        self.sections.cut().segs.swap_remove(0)
    }
}

/// What an accepted call writes: "new ids and offsets", and the record.
#[derive(Clone, Debug, PartialEq, Eq)]
pub struct Converted {
    pub record: Record,
    pub ids: Vec<u32>,
    pub offsets: Vec<u32>,
}

#[derive(Clone, Debug, PartialEq, Eq)]
pub enum Outcome {
    Accepted(Converted),
    Refused(u32),
}

impl Outcome {
    pub fn number(&self) -> u32 {
        match self {
            Outcome::Accepted(_) => 0,
            Outcome::Refused(n) => *n,
        }
    }
}

pub type Check = fn(&Call) -> bool;

/// "The converter .. tests 2 to 6 and 11, and gives 3 for any other kind."
pub const CHECKS: [(u32, Check); 6] =
    [(2, lengths), (3, unknown), (4, runs), (5, contents), (6, alive_set), (11, space)];

/// The first check that fails, or 0.
fn answer_by(checks: &[(u32, Check)], call: &Call) -> u32 {
    checks.iter().find(|(_, fails)| fails(call)).map_or(0, |(number, _)| *number)
}

pub fn outcome(call: &Call) -> Outcome {
    outcome_by(&CHECKS, call)
}

pub fn outcome_by(checks: &[(u32, Check)], call: &Call) -> Outcome {
    match answer_by(checks, call) {
        0 => Outcome::Accepted(converted(call.sections.records[0], &call.segment())),
        number => Outcome::Refused(number),
    }
}

/// 2: a run's length differs from what the record says (only flag 1 adds alive words), or the term
/// bytes from the term lengths' sum
pub fn lengths(call: &Call) -> bool {
    table::section_lengths(&table::Call::new(call.sections, table::Lent::default()))
}

/// 3: unknown type or flag, no column, any kind but 3
pub fn unknown(call: &Call) -> bool {
    let [ty, kind, _rows, _ids, _offsets, _values, _terms, flag, _count] = call.sections.records[0].numbers();
    !table::known_type(ty) || ty == 255 || kind != 3 || flag > 1
}

/// 4: any id; not rows + 1 offsets; offsets not from 0, falling, or not up to the number of values
pub fn runs(call: &Call) -> bool {
    table::runs_of(&call.segment())
}

/// 5: as in the join
pub fn contents(call: &Call) -> bool {
    table::contents_of(&call.segment()) || pair(call)
}

/// An untrue pair.
pub fn pair(call: &Call) -> bool {
    table::untrue(call.sections.records[0].pair(), &call.segment())
}

/// 6: an alive bit past the rows, or a wrong number of alive rows; an alive set is no fault where no join
/// is stacked
pub fn alive_set(call: &Call) -> bool {
    alive_bits(call) || count(call)
}

/// 6 without the number.
pub fn alive_bits(call: &Call) -> bool {
    table::past_the_rows(&call.segment())
}

/// A wrong number of alive rows.
pub fn count(call: &Call) -> bool {
    table::wrong_count(call.sections.records[0][8], &call.segment())
}

/// 11: an output shorter than its list
pub fn space(call: &Call) -> bool {
    let needed = needed(&call.segment());
    call.space.ids < needed.ids || call.space.offsets < needed.offsets
}

/// What the outputs must hold.
pub fn needed(old: &Seg) -> Space {
    let new = new_lists(old);
    Space { ids: new.0.len(), offsets: new.1.len() }
}

/// "Each row has the same values in the same order afterwards, and rows without values lose their
/// repeated offset." The ids are the rows with a value; the offsets are 0, then the running total
/// after each such row.
fn new_lists(old: &Seg) -> (Vec<u32>, Vec<u32>) {
    let (mut ids, mut offsets) = (vec![], vec![0]);
    let mut total = 0;
    for (row, values) in model::filled(old) {
        total += values.len() as u32;
        ids.push(row);
        offsets.push(total);
    }
    (ids, offsets)
}

/// "Changes only the kind and their lengths in the record."
fn converted(record: Record, old: &Seg) -> Converted {
    let (ids, offsets) = new_lists(old);
    let [ty, _kind, rows, _ids, _offsets, values, terms, flag, count] = record.numbers();
    let numbers = [ty, 4, rows, ids.len() as u32, offsets.len() as u32, values, terms, flag, count];
    Converted { record: Record::new(numbers, record.pair()), ids, offsets }
}

/// A segment of kind 3 that passes the converter's checks, as it is handed to a join afterwards.
pub fn segment(old: &Seg) -> Seg {
    let (ids, offsets) = new_lists(old);
    Seg { kind: 4, ids, offsets, ..old.clone() }
}

/// All segments of kind 3 converted.
pub fn input(old: &Input) -> Input {
    let convert = |s: &Seg| if s.kind == 3 { segment(s) } else { s.clone() };
    Input { segs: old.segs.iter().map(convert).collect(), ..old.clone() }
}

/// One segment as a call's sections.
pub fn sections(segment: &Seg) -> Sections {
    Input { mode: 0, required: 255, segs: vec![segment.clone()], addresses: vec![] }.sections()
}
