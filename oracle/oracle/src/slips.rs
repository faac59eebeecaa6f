//! Stand-ins for the joiner, made of the model: one that is right, and one for each slip below and in
//! slips/, which the comparison must find (oracle/compare SEED COUNT --slips). They are tests of the
//! comparison and of its inputs, of nothing else.
mod asked;
mod converter;
mod counts;
mod listeners;
mod pairs;
mod time_order;
mod withdraw;

use std::collections::BTreeSet;

use crate::compare::Part;
use crate::model;
use crate::ours::{Addresses, COPIED, Joiner, Lists, Marked, NewLists, PAIR, Run};
use crate::run;
use crate::table::{self, CHECKS, Call, Check};
use crate::wire::{Input, Listing, Outcome, Pair, Sections, Seg};
use crate::withdraw::Mark;

#[derive(Clone, Copy)]
pub enum How {
    /// The first check right before the second.
    Before(u32, u32),
    /// Without check k.
    Skip(u32),
    /// Another check k.
    Check(u32, Check),
    /// The records' numbers of alive rows tested right after check k.
    CountsAfter(u32),
    /// The records' pairs tested right after check k.
    PairsAfter(u32),
    /// Once checks 1 to 9 have passed, something else is read.
    Read(fn(&mut Input)),
    /// Another column.
    Column(fn(&Input, &mut Listing)),
    /// Another count of the term bytes copied.
    Count(fn(&Input, &Listing) -> usize),
    /// Another least and greatest value of the joined column.
    Pair(fn(&Input, &Listing) -> Pair),
    /// Something else is left in memory.
    Leave(fn(&Outcome, &mut Lists)),
    /// The first accepted call's column for every later one.
    First,
    /// Another listing, by the joining program.
    List(fn(&Listing) -> String),
    /// A slip of the converter.
    Converter(converter::How),
    /// A slip of the time order.
    TimeOrder(time_order::How),
    /// A slip of withdraw or reinstate.
    Withdraw(withdraw::How),
    /// A slip where a column's least and greatest value are asked for.
    Asked(asked::How),
}

pub struct Slip {
    pub name: &'static str,
    pub how: How,
}

const fn slip(name: &'static str, how: How) -> Slip {
    Slip { name, how }
}

impl Slip {
    /// What goes wrong.
    pub fn part(&self) -> Part {
        match self.how {
            How::Converter(_) => Part::Convert,
            How::TimeOrder(_) => Part::Order,
            How::Withdraw(_) => Part::Mark,
            How::Asked(_) => Part::Pair,
            _ => Part::Join,
        }
    }
}

/// All of them: the joiner's, the converter's, the time order's, those of withdraw and reinstate, and those of a
/// column's least and greatest value.
pub fn slips() -> impl Iterator<Item = &'static Slip> {
    let joiners = SLIPS.iter().chain(listeners::SLIPS).chain(counts::SLIPS).chain(pairs::SLIPS);
    joiners.chain(converter::SLIPS).chain(time_order::SLIPS).chain(withdraw::SLIPS).chain(asked::SLIPS)
}

const SLIPS: &[Slip] = &[
    slip("2 before 1", How::Before(2, 1)),
    slip("3 before 2", How::Before(3, 2)),
    slip("19 before 3", How::Before(19, 3)),
    slip("4 before 19", How::Before(4, 19)),
    slip("5 before 4", How::Before(5, 4)),
    slip("6 before 5", How::Before(6, 5)),
    slip("7 before 6", How::Before(7, 6)),
    slip("8 before 7", How::Before(8, 7)),
    slip("9 before 8", How::Before(9, 8)),
    slip("10 before 9", How::Before(10, 9)),
    slip("no 1", How::Skip(1)),
    slip("no 2", How::Skip(2)),
    slip("no 3", How::Skip(3)),
    slip("kind 3 joined as before", How::Skip(19)),
    slip("no 4", How::Skip(4)),
    slip("no 5", How::Skip(5)),
    slip("no 6", How::Skip(6)),
    slip("no 7", How::Skip(7)),
    slip("no 8", How::Skip(8)),
    slip("no 9", How::Skip(9)),
    slip("no 10", How::Skip(10)),
    slip("no 11", How::Skip(11)),
    slip("1 from 256 segments on", How::Check(1, |c| c.sections.records.len() > 255)),
    slip(
        "2 without the term bytes",
        How::Check(2, |c| {
            let lengths = c.sections.term_lengths.iter().map(|&n| n as u64).sum::<u64>();
            lengths == c.sections.term_bytes.len() as u64 && table::section_lengths(c)
        }),
    ),
    slip(
        "2 with alive words for flag 2",
        How::Check(2, |c| {
            let mut s = c.sections.clone();
            s.records.iter_mut().for_each(|r| r[7] = (r[7] != 0) as u32);
            table::section_lengths(&Call::new(&s, c.lent))
        }),
    ),
    slip(
        "3 for type 255 with an alive set",
        How::Check(3, |c| table::unknown(c) || c.sections.records.iter().any(|r| r[0] == 255 && r[7] == 1)),
    ),
    slip(
        "3 not for type 255 with lengths",
        How::Check(3, |c| {
            let mut s = c.sections.clone();
            s.records.iter_mut().filter(|r| r[0] == 255).for_each(|r| r[3..7].fill(0));
            table::unknown(&Call::new(&s, c.lent))
        }),
    ),
    slip(
        "3 for mode above 1 only if there are segments",
        How::Check(3, |c| {
            table::unknown(c) && !(c.sections.records.is_empty() && c.sections.required == 255)
        }),
    ),
    slip(
        "4 before 3 where no segment is of kind 3",
        How::Check(3, |c| table::unknown(c) && (table::old_multivalued(c) || !table::runs(c))),
    ),
    slip("3 for kind 3", How::Check(3, |c| table::unknown(c) || table::old_multivalued(c))),
    slip(
        "19 for the first segment alone",
        How::Check(19, |c| c.sections.records.first().is_some_and(|r| r[1] == 3)),
    ),
    slip(
        "19 not without values",
        How::Check(19, |c| c.sections.records.iter().any(|r| r[1] == 3 && r[5] > 0)),
    ),
    slip(
        "19 only where a row has no value",
        How::Check(19, |c| c.any_segment(|s| s.kind == 3 && s.offsets.windows(2).any(|w| w[0] == w[1]))),
    ),
    slip("19 only for right lists", How::Check(19, |c| c.any_segment(|s| s.kind == 3 && !table::runs_of(s)))),
    slip("19 in stacked joins alone", How::Check(19, |c| c.sections.mode == 0 && table::old_multivalued(c))),
    slip(
        "4 not for equal ids",
        How::Check(4, |c| {
            table::runs(c) && !c.input().segs.iter().any(|s| s.ids.windows(2).any(|w| w[0] == w[1]))
        }),
    ),
    slip(
        "4 not for equal offsets",
        How::Check(4, |c| {
            let equal = |s: &Seg| s.offsets.windows(2).any(|w| w[0] == w[1]);
            c.any_segment(|s| table::runs_of(s) && !(s.kind == 4 && equal(s)))
        }),
    ),
    slip(
        "4 for terms on kind 0",
        How::Check(4, |c| {
            table::runs(c) || c.input().segs.iter().any(|s| s.kind == 0 && !s.terms.is_empty())
        }),
    ),
    slip(
        "5 not for equal terms",
        How::Check(5, |c| {
            let mut input = c.input().clone();
            input.segs.iter_mut().for_each(|s| s.terms.dedup());
            table::contents(&Call::new(&input.sections(), c.lent))
        }),
    ),
    slip(
        "5 by length first",
        How::Check(5, |c| {
            table::contents(c)
                || c.input().segs.iter().any(|s| s.terms.windows(2).any(|w| w[0].len() > w[1].len()))
        }),
    ),
    slip(
        "6 not for an alive set of no words",
        How::Check(6, |c| table::counts(c) || !c.sections.alive.is_empty() && table::alive_bits(c)),
    ),
    slip(
        "7 from 4294967294 rows on",
        How::Check(7, |c| c.sections.records.iter().map(|r| r[2] as u64).sum::<u64>() >= 4294967294),
    ),
    slip(
        "7 from 4294967296 rows on",
        How::Check(7, |c| c.sections.records.iter().map(|r| r[2] as u64).sum::<u64>() > 4294967295),
    ),
    slip(
        "8 for the rows alone",
        How::Check(8, |c| {
            let rows: u64 = c.sections.records.iter().map(|r| r[2] as u64).sum();
            c.sections.mode == 1 && (c.lent.working as u64) < rows
        }),
    ),
    slip(
        "8 for the held columns' terms",
        How::Check(8, |c| {
            let rows: u64 = c.sections.records.iter().map(|r| r[2] as u64).sum();
            let segs = c.input().segs.iter();
            let terms: usize = segs.filter(|s| model::held(s)).map(|s| s.terms.len()).sum();
            c.sections.mode == 1 && (c.lent.working as u64) < rows + terms as u64
        }),
    ),
    slip(
        "8 in stacked joins too",
        How::Check(8, |c| {
            let rows: u64 = c.sections.records.iter().map(|r| r[2] as u64).sum();
            (c.lent.working as u64) < rows + c.sections.term_lengths.len() as u64
        }),
    ),
    slip(
        "9 not for a repeat, numbers being right",
        How::Check(9, |c| {
            let alive = |s: &Seg| (0..s.rows).filter(|&r| s.is_alive(r)).count();
            table::addresses(c)
                && (c.sections.mode == 0
                    || c.input().segs.iter().map(alive).sum::<usize>() != c.sections.addresses.len())
        }),
    ),
    slip("9 not for an address when stacked", How::Check(9, |c| c.sections.mode == 1 && table::addresses(c))),
    slip(
        "9 for a row not listed though withdrawn",
        How::Check(9, |c| {
            let rows: u64 = c.sections.records.iter().map(|r| r[2] as u64).sum();
            table::addresses(c) || c.sections.mode == 1 && rows != c.sections.addresses.len() as u64
        }),
    ),
    slip(
        "10 without dropped columns",
        How::Check(10, |c| {
            let mut input = c.input().clone();
            input.segs.iter_mut().for_each(|s| {
                if !model::held(s) {
                    s.ty = 255
                }
            });
            table::types(&Call::new(&input.sections(), c.lent))
        }),
    ),
    slip(
        "10 not for withdrawn values",
        How::Check(10, |c| {
            let mut input = c.input().clone();
            small_where_withdrawn(&mut input);
            table::types(&Call::new(&input.sections(), c.lent))
        }),
    ),
    slip(
        "10 for 9223372036854775807 as I64",
        How::Check(10, |c| {
            table::types(c)
                || c.sections.required == 0
                    && c.input()
                        .segs
                        .iter()
                        .any(|s| s.ty == 1 && model::held(s) && s.values.contains(&9223372036854775807))
        }),
    ),
    slip(
        "11 by the kept terms",
        How::Check(11, |c| {
            let (l, lent) = (c.joined(), c.lent);
            lent.ids < l.ids.len()
                || lent.offsets < l.offsets.len()
                || lent.values < l.words().len()
                || lent.term_lengths < l.terms.len()
                || lent.term_bytes < l.terms.concat().len()
                || lent.map < l.map.len()
        }),
    ),
    slip(
        "11 by the dropped columns' terms too",
        How::Check(11, |c| {
            let terms = c.sections.term_lengths.len();
            table::space(c) || c.lent.map < terms
        }),
    ),
    slip(
        "11 for ids though the class is 0",
        How::Check(11, |c| table::space(c) || c.lent.ids < c.joined().values.len()),
    ),
    slip(
        "an Optional segment full of values taken as Full",
        How::Read(|input| {
            for s in &mut input.segs {
                if s.kind == 2 && s.alive.is_none() && s.ids.len() as u64 == s.rows as u64 {
                    s.kind = 1;
                    s.ids.clear();
                }
            }
        }),
    ),
    slip("only alive values counted for the type", How::Read(small_where_withdrawn)),
    slip(
        "I64 also with 9223372036854775807",
        How::Read(|input| {
            let held = || input.segs.iter().filter(|s| model::held(s));
            let fits = held().all(|s| s.ty == 0 || s.ty == 1 && s.values.iter().all(|&v| v >> 63 == 0));
            if input.required == 255 && fits && held().any(|s| s.ty == 0) {
                input.required = 0;
            }
        }),
    ),
    slip(
        "U64 before I64",
        How::Read(|input| {
            let held = || input.segs.iter().filter(|s| model::held(s));
            let fits = held().all(|s| s.ty == 1 || s.ty == 0 && s.values.iter().all(|&v| v >> 63 == 0));
            if input.required == 255 && fits && held().any(|s| s.ty == 1) {
                input.required = 1;
            }
        }),
    ),
    slip(
        "dropped columns counted for the type",
        How::Read(|input| {
            if input.required == 255 && input.segs.iter().any(|s| s.ty == 2 && !model::held(s)) {
                input.required = 2;
            }
        }),
    ),
    slip("doubles rounded towards zero", How::Read(|input| round(input, |size, drop| size >> drop << drop))),
    slip(
        "ties away from zero",
        How::Read(|input| {
            round(input, |size, drop| {
                let tie = size & ((1 << drop) - 1) == 1 << (drop - 1);
                if tie { size.saturating_add(1) } else { size }
            })
        }),
    ),
    slip("rows in segment order", How::Read(|input| input.addresses.sort())),
    slip(
        "the last segment left out",
        How::Read(|input| {
            if input.mode == 0 {
                input.segs.pop();
            }
        }),
    ),
    slip(
        "the offset of a row without values kept",
        How::Column(|_, l| {
            if l.class == 2 && l.rows < 1_000_000 {
                let rows = |id: &u32| l.ids.partition_point(|other| other <= id);
                l.offsets = [0].into_iter().chain((0..l.rows).map(|row| l.offsets[rows(&row)])).collect();
            }
        }),
    ),
    slip(
        "NaN made one",
        How::Column(|_, l| {
            let nan = |v: &&mut u128| f64::from_bits(**v as u64).is_nan();
            if l.ty == 2 {
                l.values.iter_mut().filter(nan).for_each(|v| *v = 0x7FF8000000000000);
            }
        }),
    ),
    slip(
        "terms by length first",
        How::Column(|input, l| {
            let mut terms = l.terms.clone();
            terms.sort_by_key(|t| (t.len(), t.clone()));
            with_terms(input, l, terms);
        }),
    ),
    slip(
        "terms compared as signed bytes",
        How::Column(|input, l| {
            let mut terms = l.terms.clone();
            terms.sort_by_key(|t| t.iter().map(|&b| b as i8).collect::<Vec<_>>());
            with_terms(input, l, terms);
        }),
    ),
    slip(
        "a term and itself with zero bytes after it not told apart by their length",
        How::Column(|input, l| {
            let mut terms = l.terms.clone();
            terms.reverse();
            terms.sort_by_key(|t| (first_words(t), t.get(16..).map(<[u8]>::to_vec)));
            with_terms(input, l, terms);
        }),
    ),
    slip(
        "nothing compared after the first words",
        How::Column(|input, l| {
            let mut terms = l.terms.clone();
            terms.reverse();
            terms.sort_by_key(|t| (first_words(t), t.len().min(17)));
            with_terms(input, l, terms);
        }),
    ),
    slip(
        "a term copied from each segment that has it",
        How::Count(|input, l| {
            let held = input.segs.iter().filter(|s| model::held(s)).flat_map(|s| &s.terms);
            held.filter(|t| l.terms.contains(t)).map(|t| t.len()).sum()
        }),
    ),
    slip(
        "counted where its first segment keeps a term",
        How::Count(|input, l| {
            let first = |t: &Vec<u8>| input.segs.iter().find(|s| model::held(s) && s.terms.contains(t));
            let keeps = |s: &Seg, t: &Vec<u8>| {
                let used = |v: &u128| s.terms[*v as usize] == *t;
                let alive = |(row, range): &(u32, std::ops::Range<usize>)| {
                    s.is_alive(*row) && s.values[range.clone()].iter().any(used)
                };
                s.alive.is_none() || model::filled(s).iter().any(alive)
            };
            let counted = |t: &&Vec<u8>| first(t).is_some_and(|s| keeps(s, t));
            l.terms.iter().filter(counted).map(|t| t.len()).sum()
        }),
    ),
    slip(
        "the first segment's terms alone counted",
        How::Count(|input, l| {
            let first = input.segs.iter().find(|s| model::held(s));
            let has = |t: &&Vec<u8>| first.is_some_and(|s| s.terms.contains(t));
            l.terms.iter().filter(has).map(|t| t.len()).sum()
        }),
    ),
    slip(
        "unkept terms counted",
        How::Count(|input, _| {
            let held = input.segs.iter().filter(|s| model::held(s)).flat_map(|s| &s.terms);
            held.collect::<BTreeSet<_>>().iter().map(|t| t.len()).sum()
        }),
    ),
    slip("terms counted for their bytes", How::Count(|_, l| l.terms.len())),
    slip(
        "unkept terms kept",
        How::Column(|input, l| {
            if l.ty == 3 || l.ty == 4 {
                let held = input.segs.iter().filter(|s| model::held(s));
                let mut terms: Vec<Vec<u8>> = held.flat_map(|s| s.terms.clone()).collect();
                terms.sort();
                terms.dedup();
                with_terms(input, l, terms);
            }
        }),
    ),
    slip(
        "an unkept term mapped to the next kept one",
        How::Column(|input, l| {
            let held = input.segs.iter().filter(|s| model::held(s)).flat_map(|s| &s.terms);
            l.map = held.map(|t| l.terms.partition_point(|k| k < t) as u32).collect();
        }),
    ),
    slip(
        "the map without unkept terms",
        How::Column(|input, l| {
            let held = input.segs.iter().filter(|s| model::held(s)).flat_map(|s| &s.terms);
            let kept: Vec<bool> = held.map(|t| l.terms.contains(t)).collect();
            let mut kept = kept.into_iter();
            l.map.retain(|_| kept.next().unwrap());
        }),
    ),
    slip(
        "the map with dropped columns' terms",
        How::Column(|input, l| {
            let terms = input.segs.iter().filter(|s| !model::held(s)).map(|s| s.terms.len()).sum();
            l.map.extend(vec![0; terms]);
        }),
    ),
    slip(
        "class without dropped and absent columns",
        How::Column(|input, l| {
            let all_filled = |s: &Seg| {
                !model::held(s)
                    || s.alive.is_none() && s.kind == 1
                    || s.alive.is_some() && {
                        let filled = model::filled(s);
                        let alive = (0..s.rows).filter(|&r| s.is_alive(r)).count();
                        filled.iter().filter(|(r, _)| s.is_alive(*r)).count() == alive
                    }
            };
            if l.class == 1 && input.segs.iter().all(all_filled) {
                l.class = 0;
                l.ids.clear();
            }
        }),
    ),
    slip(
        "class by kind though an alive set is given",
        How::Column(|input, l| {
            let held = input.segs.iter().filter(|s| model::held(s));
            let class = held.map(|s| [0, 0, 1, 2, 2][s.kind as usize]).max().unwrap_or(0);
            if class > l.class && l.class == 0 {
                l.ids = (0..l.rows).collect();
            }
            if class > l.class && class == 2 {
                l.offsets = (0..=l.ids.len() as u32).collect();
            }
            l.class = l.class.max(class);
        }),
    ),
    slip(
        "withdrawn rows counted",
        How::Column(|input, l| {
            l.rows = input.segs.iter().map(|s| s.rows).sum();
        }),
    ),
    slip(
        "no rows where nothing is held",
        How::Column(|_, l| {
            if l.ty == 255 {
                l.rows = 0;
            }
        }),
    ),
    slip(
        "class 1 where nothing is held",
        How::Column(|_, l| {
            if l.ty == 255 && l.rows > 0 {
                l.class = 1;
            }
        }),
    ),
    slip(
        "type 255 where nothing is held though a type is required",
        How::Column(|input, l| {
            if !input.segs.iter().any(model::held) {
                *l = Listing { ty: 255, rows: l.rows, ..Listing::default() };
            }
        }),
    ),
    slip(
        "always type 255",
        How::Column(|_, l| {
            *l = Listing { ty: 255, rows: l.rows, ..Listing::default() };
        }),
    ),
    slip(
        "the first segment copied",
        How::Column(|input, l| {
            if let Some(s) = input.segs.first() {
                l.ids = s.ids.clone();
                l.offsets = s.offsets.clone();
                l.values = s.values.clone();
            }
        }),
    ),
    slip("the first column handed on", How::First),
    slip(
        "an element beyond the row ids",
        How::Leave(|outcome, lists| {
            if let Outcome::Accepted(l) = outcome
                && let Some(place) = lists.ids.lent().get_mut(l.ids.len())
            {
                *place = 0;
            }
        }),
    ),
    slip(
        "a byte beyond the term bytes",
        How::Leave(|outcome, lists| {
            if let Outcome::Accepted(l) = outcome
                && let Some(place) = lists.term_bytes.lent().get_mut(l.terms.concat().len())
            {
                *place = 0;
            }
        }),
    ),
    slip(
        "an offset where the class is not 2",
        How::Leave(|outcome, lists| {
            if let Outcome::Accepted(l) = outcome
                && l.class < 2
                && let Some(place) = lists.offsets.lent().first_mut()
            {
                *place = 0;
            }
        }),
    ),
    slip("a value past what was lent", How::Leave(|_, lists| lists.values.past_the_end(0))),
    slip(
        "working bytes left",
        How::Leave(|outcome, lists| {
            if let Outcome::Accepted(_) = outcome
                && let Some(byte) = lists.working.lent().last_mut()
            {
                *byte = 1;
            }
        }),
    ),
    slip(
        "working bytes left by a refusal",
        How::Leave(|outcome, lists| {
            if let Outcome::Refused(9) = outcome
                && let Some(byte) = lists.working.lent().first_mut()
            {
                *byte = 1;
            }
        }),
    ),
    slip(
        "a value written by a refusal",
        How::Leave(|outcome, lists| {
            if let Outcome::Refused(9..) = outcome
                && let Some(place) = lists.values.lent().first_mut()
            {
                *place = 0;
            }
        }),
    ),
    slip(
        "numbers written by a refusal",
        How::Leave(|outcome, lists| {
            if let Outcome::Refused(_) = outcome {
                lists.numbers.lent()[0] = 255;
            }
        }),
    ),
];

fn small_where_withdrawn(input: &mut Input) {
    for s in &mut input.segs {
        if s.ty <= 1 {
            for (row, range) in model::filled(s) {
                if !s.is_alive(row) {
                    s.values[range].fill(1);
                }
            }
        }
    }
}

/// Changes each integer that becomes a double and has more than 53 digits: `f` of its size and of
/// the number of digits to be dropped.
fn round(input: &mut Input, f: fn(u64, u32) -> u64) {
    if model::joined_type(input) != 2 {
        return;
    }
    for s in input.segs.iter_mut().filter(|s| s.ty < 2) {
        for v in &mut s.values {
            let word = *v as u64;
            let negative = s.ty == 0 && word >> 63 == 1;
            let size = if negative { word.wrapping_neg() } else { word };
            let drop = (64 - size.leading_zeros()).saturating_sub(53);
            if drop > 0 {
                let size = f(size, drop);
                *v = if negative { size.wrapping_neg() } else { size } as u128;
            }
        }
    }
}

/// The first 16 bytes, zeros after the last.
fn first_words(term: &[u8]) -> [u8; 16] {
    let mut words = [0; 16];
    let n = term.len().min(16);
    words[..n].copy_from_slice(&term[..n]);
    words
}

/// The same column over another list of terms that has all of its terms.
fn with_terms(input: &Input, l: &mut Listing, terms: Vec<Vec<u8>>) {
    let place = |t: &Vec<u8>| terms.iter().position(|u| u == t).unwrap_or(0) as u32;
    if l.ty == 3 || l.ty == 4 {
        let new: Vec<u32> = l.terms.iter().map(place).collect();
        l.values.iter_mut().for_each(|v| *v = new[*v as usize] as u128);
        let held = input.segs.iter().filter(|s| model::held(s)).flat_map(|s| &s.terms);
        l.map = held
            .map(|t| if l.terms.contains(t) || terms.len() > l.terms.len() { place(t) } else { 0 })
            .collect();
        l.terms = terms;
    }
}

fn place<C>(checks: &[(u32, C)], k: u32) -> usize {
    checks.iter().position(|&(number, _)| number == k).expect("a check of that number")
}

fn put_before<C>(checks: &mut Vec<(u32, C)>, k: u32, other: u32) {
    let check = checks.remove(place(checks, k));
    checks.insert(place(checks, other), check);
}

fn put_in_place<C>(checks: &mut [(u32, C)], k: u32, check: C) {
    checks[place(checks, k)].1 = check;
}

/// Splits a check: the rest of it in its place, a part of it right after check k.
fn split<C>(checks: &mut Vec<(u32, C)>, number: u32, k: u32, rest: C, part: C) {
    put_in_place(checks, number, rest);
    checks.insert(place(checks, k) + 1, (number, part));
}

/// The model as a joiner, with a slip or none.
pub struct Standin {
    how: Option<How>,
    first: Option<Listing>,
}

impl Standin {
    pub fn right() -> Standin {
        Standin { how: None, first: None }
    }
    pub fn wrong(slip: &Slip) -> Standin {
        Standin { how: Some(slip.how), first: None }
    }
    fn outcome(&mut self, sections: &Sections, lists: &Lists) -> Outcome {
        let mut checks = CHECKS.to_vec();
        let lent = lists.lengths();
        match self.how {
            Some(How::Before(k, other)) => put_before(&mut checks, k, other),
            Some(How::Skip(k)) => checks.retain(|&(number, _)| number != k),
            Some(How::Check(k, check)) => put_in_place(&mut checks, k, check),
            Some(How::CountsAfter(k)) => split(&mut checks, 6, k, table::alive_bits, table::counts),
            Some(How::PairsAfter(k)) => split(&mut checks, 5, k, pairs::without, table::pairs),
            Some(How::Read(f)) => {
                let call = Call::new(sections, lent);
                let (first, last) = checks.split_at(place(&checks, 10));
                if table::answer_by(first, &call) == 0 {
                    let mut other = call.input().clone();
                    f(&mut other);
                    return match table::answer_by(last, &Call::new(&other.sections(), lent)) {
                        0 => Outcome::Accepted(model::join(&other)),
                        number => Outcome::Refused(number),
                    };
                }
            }
            _ => {}
        }
        let call = Call::new(sections, lent);
        let number = table::answer_by(&checks, &call);
        if number != 0 {
            return Outcome::Refused(number);
        }
        let mut listing = call.joined().clone();
        match self.how {
            Some(How::Column(f)) => f(call.input(), &mut listing),
            Some(How::First) => listing = self.first.get_or_insert(listing).clone(),
            _ => {}
        }
        Outcome::Accepted(listing)
    }
}

impl Joiner for Standin {
    fn join(&mut self, sections: &Sections, lists: &mut Lists) -> u32 {
        // A wrong one may leave the model's paths: that is no answer.
        let outcome = run::caught(|| {
            let outcome = self.outcome(sections, lists);
            lists.working.lent().fill(0);
            if let Outcome::Accepted(l) = &outcome {
                lists.write(l);
                if let Some(How::Count(f)) = self.how {
                    let call = Call::new(sections, lists.lengths());
                    lists.numbers.lent()[COPIED] = f(call.input(), l) as u64;
                }
                if let Some(How::Pair(f)) = self.how {
                    let call = Call::new(sections, lists.lengths());
                    lists.numbers.lent()[PAIR..].copy_from_slice(&f(call.input(), l));
                }
            }
            if let Some(How::Leave(f)) = self.how {
                f(&outcome, lists);
            }
            outcome
        });
        outcome.map_or(u32::MAX, |outcome| outcome.number())
    }

    fn convert(&mut self, sections: &Sections, lists: &mut NewLists) -> u32 {
        let how = match self.how {
            Some(How::Converter(how)) => Some(how),
            _ => None,
        };
        run::caught(|| converter::convert(how, sections, lists)).unwrap_or(u32::MAX)
    }

    fn order(&mut self, sections: &Sections, lists: &mut Addresses) -> u32 {
        let how = match self.how {
            Some(How::TimeOrder(how)) => Some(how),
            _ => None,
        };
        run::caught(|| time_order::time_order(how, sections, lists)).unwrap_or(u32::MAX)
    }

    fn mark(&mut self, mark: &Mark, lent: &mut Marked) -> u32 {
        let how = match self.how {
            Some(How::Withdraw(how)) => Some(how),
            _ => None,
        };
        run::caught(|| withdraw::mark(how, mark, lent)).unwrap_or(u32::MAX)
    }

    fn pair(&mut self, ty: u32, words: &[u64], lent: &mut Run<u64>) {
        let how = match self.how {
            Some(How::Asked(how)) => Some(how),
            _ => None,
        };
        asked::pair(how, ty, words, lent);
    }
}
