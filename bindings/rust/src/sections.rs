//! The level of the library's own lists: what a call is lent, list by list.
use crate::alive::{alive_number, is_alive, words_for};
use crate::codes::{ColumnType, NO_TYPE, kind, mode, words_per_value};
use crate::joined::Joined;
use crate::pair::Pair;
use crate::refusal::Refusal;
use crate::{ffi, joined};
use std::ops::Range;

/// What is announced of one segment.
#[repr(C)]
#[derive(Clone, Copy, Debug, Default, PartialEq, Eq)]
pub struct Record {
    /// A [`ColumnType`]'s code, or 255 for no column.
    pub typ: u32,
    /// 0 Empty, 1 Full, 2 Optional, 3 old multivalued (for the converter alone), 4 new multivalued.
    pub kind: u32,
    pub rows: u32,
    /// How many row ids the segment has; the next three likewise.
    pub ids: u32,
    pub offsets: u32,
    /// An address counts once, although it has two words.
    pub values: u32,
    pub terms: u32,
    /// 1 if the segment has an alive set, else 0.
    pub flag: u32,
    /// How many rows are alive: as many as the alive set has set bits, or all rows if the segment
    /// has none. Every call refuses another number with [`Refusal::AliveSet`].
    pub alive_rows: u32,
    /// The least and the greatest stored value of a column of type I64 or U64 that has values, else
    /// 0 and 0. Every call that reads the values refuses another pair with [`Refusal::Contents`].
    pub pair: Pair,
}

impl Record {
    /// The record of its numbers in their order, of which only the pair's need more than 32 bits.
    pub(crate) fn of_numbers(numbers: [u64; 11]) -> Self {
        let [
            typ,
            kind,
            rows,
            ids,
            offsets,
            values,
            terms,
            flag,
            alive_rows,
            ..,
        ] = numbers.map(|number| number as u32);
        Record {
            typ,
            kind,
            rows,
            ids,
            offsets,
            values,
            terms,
            flag,
            alive_rows,
            pair: Pair::new(numbers[9], numbers[10]),
        }
    }

    pub(crate) fn numbers(&self) -> [u64; 11] {
        [
            self.typ.into(),
            self.kind.into(),
            self.rows.into(),
            self.ids.into(),
            self.offsets.into(),
            self.values.into(),
            self.terms.into(),
            self.flag.into(),
            self.alive_rows.into(),
            self.pair.least(),
            self.pair.greatest(),
        ]
    }

    pub(crate) fn words_per_value(&self) -> usize {
        words_per_value(ColumnType::from_code(self.typ))
    }

    /// How many words of values the record announces.
    pub(crate) fn value_words(&self) -> usize {
        self.values as usize * self.words_per_value()
    }

    /// How many alive words the record announces.
    pub(crate) fn alive_words(&self) -> usize {
        if self.flag == 1 {
            words_for(self.rows)
        } else {
            0
        }
    }

    /// The number of alive rows that is to stand in the record, if these are its alive words.
    pub(crate) fn alive_number(&self, words: &[u64]) -> u32 {
        alive_number(self.rows.into(), (self.flag == 1).then_some(words))
    }

    /// Whether the segment is one that only the converter takes.
    pub(crate) fn is_old(&self) -> bool {
        self.kind == kind::OLD_MULTIVALUED
    }
}

/// A row of a segment, both counted from 0.
#[repr(C)]
#[derive(Clone, Copy, Debug, Default, PartialEq, Eq, PartialOrd, Ord, Hash)]
pub struct Address {
    pub segment: u32,
    pub row: u32,
}

/// The segments of a call as the library takes them: all segments' lists of one sort in one run.
///
/// The fields may hold anything: what doesn't fit together is refused by number, as the library
/// refuses it. [`join`](crate::join) and [`time_order`](crate::time_order) make them for you.
#[derive(Clone, Debug, PartialEq, Eq)]
pub struct Sections {
    /// 0 stacked, 1 ordered.
    pub mode: u32,
    /// The required type's code, or 255 for none.
    pub required: u32,
    pub records: Vec<Record>,
    pub ids: Vec<u32>,
    pub offsets: Vec<u32>,
    /// The values' words: two for each IpAddr, the high word first, and one for any other value.
    pub values: Vec<u64>,
    pub term_lengths: Vec<u32>,
    pub term_bytes: Vec<u8>,
    pub alive: Vec<u64>,
    pub addresses: Vec<Address>,
}

/// A stacked join of no segments, without a required type. (The number 0 would require I64.)
impl Default for Sections {
    fn default() -> Sections {
        Sections {
            mode: mode::STACKED,
            required: NO_TYPE,
            records: Vec::new(),
            ids: Vec::new(),
            offsets: Vec::new(),
            values: Vec::new(),
            term_lengths: Vec::new(),
            term_bytes: Vec::new(),
            alive: Vec::new(),
            addresses: Vec::new(),
        }
    }
}

/// From that many addresses on, the time order is asked for its answer before they get space.
const MANY_ADDRESSES: u64 = 1 << 20;

impl Sections {
    /// Joins the segments. The space lent is always enough, so 8 and 11 are not among the answers.
    pub fn join(&self) -> Result<Joined, Refusal> {
        let all_listed = self.fit() && self.addresses.len() as u64 == self.alive_rows();
        let mut outputs = self.outputs(all_listed);
        match ffi::join(self, &mut outputs) {
            0 => Ok(joined::from_outputs(outputs, self)),
            // No working space was lent, because 9 is certain once the checks before 8 have passed.
            8 if !all_listed => Err(Refusal::Addresses),
            answer => Err(Refusal::from_answer(answer)),
        }
    }

    /// The alive rows sorted by time. Mode, required type and addresses play no part. If there is
    /// no memory for so many addresses, that is [`Refusal::OutputSpace`].
    pub fn time_order(&self) -> Result<Vec<Address>, Refusal> {
        let rows = self.alive_rows();
        if rows > MANY_ADDRESSES {
            // A refused call must not cost the space of a long order that few bytes can announce.
            self.ask_time_order()?;
        }
        let mut addresses = Vec::new();
        addresses
            .try_reserve_exact(rows as usize)
            .map_err(|_| Refusal::OutputSpace)?;
        addresses.resize(rows as usize, Address::default());
        let mut count = [0];
        match ffi::time_order(self, &mut addresses, &mut count) {
            0 => {
                addresses.truncate(count[0] as usize);
                Ok(addresses)
            }
            answer => Err(Refusal::from_answer(answer)),
        }
    }

    /// The time order's answers before 11, which comes next if no space is lent.
    fn ask_time_order(&self) -> Result<(), Refusal> {
        match ffi::time_order(self, &mut [], &mut [0]) {
            0 | 11 => Ok(()),
            answer => Err(Refusal::from_answer(answer)),
        }
    }

    /// Space for every result these sections can have. A row with a value has one of the values,
    /// so their words bound the row ids, however many rows are announced; terms and map are bounded
    /// by all terms.
    ///
    /// An ordered join that is accepted lists each alive row once. If the number of addresses is
    /// another one, or the sections don't fit, no working space is lent: the announced rows, which
    /// can be billions, then cost nothing.
    fn outputs(&self, all_listed: bool) -> ffi::Outputs {
        let working = match self.mode == mode::ORDERED && all_listed {
            true => self.all_rows() as usize + self.term_lengths.len(),
            false => 0,
        };
        let (values, terms) = (self.values.len(), self.term_lengths.len());
        ffi::Outputs {
            working: vec![0; working],
            ids: vec![0; values],
            offsets: vec![0; values + 1],
            values: vec![0; values],
            term_lengths: vec![0; terms],
            term_bytes: vec![0; self.term_bytes.len()],
            map: vec![0; terms],
            numbers: [0; 12],
        }
    }

    pub(crate) fn all_rows(&self) -> u64 {
        self.records.iter().map(|r| u64::from(r.rows)).sum()
    }

    pub(crate) fn all_values(&self) -> u64 {
        self.records.iter().map(|r| u64::from(r.values)).sum()
    }

    /// How many rows are not withdrawn, if the sections fit the records; else any number.
    /// They are counted: the records' own numbers may be wrong.
    pub(crate) fn alive_rows(&self) -> u64 {
        let mut words = &*self.alive;
        let alive_in = |r: &Record| {
            let number = r.alive_words().min(words.len());
            u64::from(r.alive_number(take(&mut words, number)))
        };
        self.records.iter().map(alive_in).sum()
    }

    /// Whether each section is as long as the records, or the term lengths, announce it.
    pub(crate) fn fit(&self) -> bool {
        let sum = |of: fn(&Record) -> usize| self.records.iter().map(|r| of(r) as u128).sum();
        let bytes: u128 = self.term_lengths.iter().map(|&n| u128::from(n)).sum();
        let announced: [u128; 6] = [
            sum(|r| r.ids as usize),
            sum(|r| r.offsets as usize),
            sum(Record::value_words),
            sum(|r| r.terms as usize),
            sum(Record::alive_words),
            bytes,
        ];
        let there = [
            self.ids.len(),
            self.offsets.len(),
            self.values.len(),
            self.term_lengths.len(),
            self.alive.len(),
            self.term_bytes.len(),
        ];
        announced == there.map(|n| n as u128)
    }

    /// The sections cut into segments, if they fit the records.
    pub(crate) fn cut(&self) -> Option<Vec<Cut<'_>>> {
        if !self.fit() {
            return None;
        }
        let (mut ids, mut offsets, mut values) = (&*self.ids, &*self.offsets, &*self.values);
        let (mut lengths, mut bytes, mut alive) =
            (&*self.term_lengths, &*self.term_bytes, &*self.alive);
        let cut = |r: &Record| {
            let term_lengths = take(&mut lengths, r.terms as usize);
            let term_bytes = term_lengths.iter().map(|&n| n as usize).sum();
            Cut {
                record: *r,
                ids: take(&mut ids, r.ids as usize),
                offsets: take(&mut offsets, r.offsets as usize),
                values: take(&mut values, r.value_words()),
                term_lengths,
                term_bytes: take(&mut bytes, term_bytes),
                alive: (r.flag == 1).then(|| take(&mut alive, r.alive_words())),
            }
        };
        Some(self.records.iter().map(cut).collect())
    }
}

/// The first elements of a run, which is left with the others.
fn take<'a, T>(run: &mut &'a [T], n: usize) -> &'a [T] {
    let (part, rest) = run.split_at(n);
    *run = rest;
    part
}

/// One segment's part of the sections.
pub(crate) struct Cut<'a> {
    pub record: Record,
    pub ids: &'a [u32],
    pub offsets: &'a [u32],
    /// The values' words.
    pub values: &'a [u64],
    pub term_lengths: &'a [u32],
    pub term_bytes: &'a [u8],
    pub alive: Option<&'a [u64]>,
}

impl<'a> Cut<'a> {
    pub fn typ(&self) -> Option<ColumnType> {
        ColumnType::from_code(self.record.typ)
    }

    pub fn terms(&self) -> impl Iterator<Item = &'a [u8]> + use<'a> {
        let mut bytes = self.term_bytes;
        self.term_lengths
            .iter()
            .map(move |&n| take(&mut bytes, n as usize))
    }

    /// The number of alive rows that is to stand in the record.
    pub fn alive_number(&self) -> u32 {
        self.record.alive_number(self.alive.unwrap_or_default())
    }

    pub fn is_alive(&self, row: u32) -> bool {
        self.alive.is_none_or(|words| is_alive(words, row))
    }

    /// The rows that can have values, ascending, each with its part of the values, which counts
    /// whole values. For a segment whose lists fit its kind (answer 4).
    pub fn cells(&self) -> impl Iterator<Item = (u32, Range<usize>)> + '_ {
        let ranks = match self.record.kind {
            kind::EMPTY => 0,
            kind::FULL | kind::OLD_MULTIVALUED => self.record.rows as usize,
            _ => self.ids.len(),
        };
        (0..ranks).map(|rank| {
            let row = self.ids.get(rank).map_or(rank as u32, |&id| id);
            let part = match self.offsets {
                [] => rank..rank + 1,
                offsets => offsets[rank] as usize..offsets[rank + 1] as usize,
            };
            (row, part)
        })
    }

    /// The row that has the value at that place. For a segment whose lists fit its kind.
    pub fn row_of(&self, place: usize) -> Option<u32> {
        let mut cells = self.cells();
        cells
            .find(|(_, part)| part.contains(&place))
            .map(|(row, _)| row)
    }

    /// Whether the column is held: it has values, and one in an alive row.
    pub fn is_held(&self) -> bool {
        let used = || {
            self.cells()
                .any(|(row, part)| !part.is_empty() && self.is_alive(row))
        };
        self.typ().is_some() && !self.values.is_empty() && (self.alive.is_none() || used())
    }
}
