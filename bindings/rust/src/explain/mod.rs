//! Says in words what is refused and where: a walk of its own over the sections, in the order of
//! the library's checks, beside the library's.
//!
//! Segments, rows and ordinals are counted from 0, as in the lists themselves; "the 2nd" is a place
//! in a list, counted from 1.
mod contents;
mod listed;
mod lists;
mod marked;
mod times;
mod types;
mod words;

use crate::codes::mode;
use crate::refusal::Refusal;
use crate::sections::{Cut, Sections};
use std::fmt;

/// What is refused, and where.
#[derive(Clone, Debug, PartialEq, Eq)]
pub struct Fault {
    pub refusal: Refusal,
    /// The place and what is wrong there, as in "segment 3, row 7, value 2 (the 5th): a Bool is 0
    /// or 1".
    pub text: String,
}

impl fmt::Display for Fault {
    fn fmt(&self, f: &mut fmt::Formatter<'_>) -> fmt::Result {
        f.write_str(&self.text)
    }
}

/// A check: what it finds, or nothing.
type Check<'a> = (Refusal, &'a dyn Fn() -> Option<String>);

/// What a join of the sections is refused for. Space is no matter here: it is always enough.
pub fn join(s: &Sections) -> Option<Fault> {
    if let Some(fault) = shape(s) {
        return Some(fault);
    }
    let segments = s.cut()?;
    let stacked = s.mode == mode::STACKED;
    first(&[
        (Refusal::UnknownCode, &|| {
            lists::call_codes(s).or_else(|| each(&segments, lists::codes))
        }),
        (Refusal::OldMultivalued, &|| each(&segments, lists::old)),
        (Refusal::RowLists, &|| each(&segments, lists::row_lists)),
        (Refusal::Contents, &|| {
            each(&segments, contents::values_and_terms)
        }),
        (Refusal::AliveSet, &|| {
            each(&segments, |cut| contents::alive_set(cut, stacked))
        }),
        (Refusal::TooLarge, &|| contents::totals(s)),
        (Refusal::Addresses, &|| listed::addresses(s, &segments)),
        (Refusal::Types, &|| types::types(s, &segments)),
    ])
}

/// What a time order of the sections is refused for.
pub fn time_order(s: &Sections) -> Option<Fault> {
    if let Some(fault) = shape(s) {
        return Some(fault);
    }
    let segments = s.cut()?;
    first(&[
        (Refusal::UnknownCode, &|| each(&segments, lists::codes)),
        (Refusal::OldMultivalued, &|| each(&segments, lists::old)),
        (Refusal::RowLists, &|| each(&segments, lists::row_lists)),
        (Refusal::Contents, &|| {
            each(&segments, contents::values_and_terms)
        }),
        (Refusal::AliveSet, &|| {
            each(&segments, |cut| contents::alive_set(cut, false))
        }),
        (Refusal::TooLarge, &|| contents::totals(s)),
        (Refusal::Times, &|| each(&segments, times::times)),
    ])
}

/// What a conversion of the sections' old segments is refused for: the first segment that can't be
/// converted.
pub fn convert(s: &Sections) -> Option<Fault> {
    if !s.has_old_segments() {
        return None;
    }
    if let Some(fault) = lengths(s) {
        return Some(fault);
    }
    let segments = s.cut()?;
    let mut old = (0..).zip(&segments).filter(|(_, cut)| cut.record.is_old());
    old.find_map(|(i, cut)| {
        let one = |check: fn(&Cut<'_>) -> Option<String>| check(cut).map(|text| at(i, &text));
        first(&[
            (Refusal::UnknownCode, &|| one(lists::codes)),
            (Refusal::RowLists, &|| one(lists::row_lists)),
            (Refusal::Contents, &|| one(contents::values_and_terms)),
            (Refusal::AliveSet, &|| {
                one(|cut| contents::alive_set(cut, false))
            }),
        ])
    })
}

/// What withdrawing or reinstating these rows of a segment is refused for. Panics if there is no
/// such segment.
pub fn mark_rows(s: &Sections, segment: usize, rows: &[u32]) -> Option<Fault> {
    let record = &s.records[segment];
    let words = s.alive_part(segment).map(|part| &s.alive[part]);
    let one = |found: Option<String>| found.map(|text| at(segment, &text));
    first(&[
        (Refusal::Lengths, &|| lists::alive_words(s)),
        (Refusal::UnknownCode, &|| one(lists::flag(record))),
        (Refusal::AliveSet, &|| {
            one(contents::alive_rows(record, words.unwrap_or_default()))
        }),
        (Refusal::AbsentRow, &|| one(marked::absent(record, rows))),
        (Refusal::NoAliveSet, &|| one(marked::no_alive_set(record))),
    ])
}

/// What answer 2 is given for: lists that don't fit the records.
pub(crate) fn lengths(s: &Sections) -> Option<Fault> {
    first(&[(Refusal::Lengths, &|| lists::lengths(s))])
}

/// Answers 1 and 2, before which the sections can't be cut into segments.
fn shape(s: &Sections) -> Option<Fault> {
    first(&[
        (Refusal::TooManySegments, &|| lists::segments(s)),
        (Refusal::Lengths, &|| lists::lengths(s)),
    ])
}

fn first(checks: &[Check<'_>]) -> Option<Fault> {
    checks.iter().find_map(|(refusal, check)| {
        check().map(|text| Fault {
            refusal: *refusal,
            text,
        })
    })
}

fn each(segments: &[Cut<'_>], check: impl Fn(&Cut<'_>) -> Option<String>) -> Option<String> {
    let fault = |(i, cut)| check(cut).map(|text| at(i, &text));
    segments.iter().enumerate().find_map(fault)
}

fn at(segment: usize, text: &str) -> String {
    format!("segment {segment}, {text}")
}

/// The first element that isn't above the one before it: its place.
fn not_above<T: PartialOrd>(list: &[T]) -> Option<usize> {
    list.windows(2)
        .position(|pair| pair[0] >= pair[1])
        .map(|before| before + 1)
}
