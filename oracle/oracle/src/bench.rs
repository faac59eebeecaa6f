//! Times of the crate's merge and of the joiner on the same lists in one run, and of a plain copy of
//! what they make. Times are processor time of the one thread that works, where the system tells it
//! (hook::now). A round measures the crate, then the joiner, then the copy; the least of seven rounds
//! counts. Inputs of less than a million rows are joined several times in a round, and their mean
//! is taken. The clock's own time is subtracted.
//!
//! The crate: merge_columnar with the serializer replaced by loops that push row ids, offsets and
//! values into lists already touched (hook::Mode::Drain), less the opening of the stand-in storage.
//! It checks nothing of what it is handed. Its storage is not its own: values come from a list of
//! words instead of a bit packed codec, terms from memory instead of a compressed file, and which
//! rows have a value is looked up by the stand-in for its sets of 65,536 rows, so that these lookups
//! are not the crate's code. What its own storage would take has not been measured.
//! The row order, which merge_columnar takes and frees, is made before the clock starts. Freed
//! memory stays with the process (keep_memory), so that neither the freeing of storage and row order
//! nor the first touch of what the crate allocates is the system's work on its time.
//!
//! The joiner: the whole call, with all checks, into lists already touched, and with the zeroing of
//! the working bytes: all rows plus all terms are lent to an ordered join, none to a stacked one,
//! which needs none.
//!
//! The plain copy: the joined row ids (4 bytes each), offsets (4 bytes) and values (8 bytes, an
//! address 16), no more, each list by one copy_from_slice from where the joiner left it to a list of
//! the same length already touched. Terms and map are not copied.
//!
//! The time order, which the crate has not, is measured beside a sort of the same rows, in the same
//! rounds: the whole call, with all checks, into a list already touched; `sort_unstable` of a list of
//! key, segment and row that is made before the clock starts; and the whole by that sort, which makes
//! the list from the segments, sorts it and writes the addresses, both into lists already touched. The
//! list has elements of two forms, and the faster one counts.
//!
//! The converter, for which the crate has no counterpart either, is measured by itself, in the same rounds:
//! the whole call, with all checks, into lists already touched that have place for an id and an offset
//! of every row; and beside it a plain copy of the stored offsets, and of the values where they are read for
//! the pair.
//!
//! A column's least and greatest value, asked for, are measured beside a plain search in Rust and a plain copy of
//! the values.
//!
//! Withdraw and reinstate (withdraw.rs) are measured by themselves too, in the same rounds: whole calls of one
//! row that change it, calls that are refused with 15, and whole calls of a run of rows; and beside them, in
//! plain Rust, a count of the set bits and the same changes.
mod by_sort;
mod inputs;
mod plot;
mod report;
mod withdraw;

use std::time::Duration;

use hook::{Captured, Mode};
use tantivy_columnar::{ColumnarReader, ColumnarWriter, merge_columnar};

use crate::convert::{self, Space};
use crate::order;
use crate::ours::{Addresses, Joiner, Lists, NewLists, Run};
use crate::run::{merge_order, segment_file};
use crate::table::Lent;
use crate::wire::{IP, Input, Sections, width, words_of};
use by_sort::{BySort, timed};
use inputs::{LISTENERS, Line, OrderLine};

pub use plot::plot;
pub use report::{growth, segments, table};

const ROUNDS: usize = 7;

/// What was measured of a line: numbers of joined rows and values, ns per joined row, checksums of
/// the crate's lists and of the joiner's.
pub struct Measured {
    pub line: Line,
    pub rows: usize,
    pub values: usize,
    pub theirs: f64,
    pub ours: f64,
    pub copy: f64,
    pub sums: [u64; 2],
}

fn measure(line: Line, segs: usize, rows: u32) -> Measured {
    let input = line.input(segs, rows);
    let joined = match input.mode {
        0 => segs * rows as usize,
        _ => input.addresses.len(),
    };
    let repeats = repeats(joined);
    let mut theirs = Theirs::new(&input, line, joined);
    let mut ours = Ours::new(&input, joined);
    let mut copy = PlainCopy::default();
    let (clock, least) = rounds(|| [theirs.time(repeats), ours.time(repeats), copy.time(ours.lists())]);
    let looks = [theirs.looks(&clock), clock.look / repeats, clock.look / copy.copies];
    let per_row = |i: usize| least[i].saturating_sub(looks[i]).as_nanos() as f64 / joined as f64;
    ours.check_type(line);
    let values = ours.values();
    let (ids, offsets, words) = ours.lists();
    Measured {
        line,
        rows: joined,
        values,
        theirs: per_row(0),
        ours: per_row(1),
        copy: per_row(2),
        sums: [theirs.checksum(), checksum(ids, offsets, words)],
    }
}

/// How often a call is repeated in a round.
fn repeats(rows: usize) -> u32 {
    (1_000_000 / rows.max(1)).clamp(1, 100) as u32
}

/// The mean time of a call.
fn mean(repeats: u32, mut call: impl FnMut()) -> Duration {
    let t = hook::now();
    for _ in 0..repeats {
        call();
    }
    (hook::now() - t) / repeats
}

/// The least time of each side over all rounds, and what the clock takes.
fn rounds<const SIDES: usize>(mut round: impl FnMut() -> [Duration; SIDES]) -> (Clock, [Duration; SIDES]) {
    let mut clock = Clock { look: Duration::MAX, opening: Duration::MAX };
    let mut least = [Duration::MAX; SIDES];
    for _ in 0..ROUNDS {
        clock = clock.least(Clock::new());
        let times = round();
        least = std::array::from_fn(|i| least[i].min(times[i]));
    }
    (clock, least)
}

/// What was measured of the converter: numbers of rows, of rows with a value and of values, ns per
/// row, checksums of the model's new ids and offsets and of the converter's.
pub struct MeasuredConversion {
    pub rows: usize,
    pub ids: usize,
    pub values: usize,
    pub ours: f64,
    pub copy: f64,
    pub sums: [u64; 2],
}

fn measure_conversion(ty: u32, rows: u32) -> MeasuredConversion {
    let old = inputs::stored(ty, rows);
    let new = convert::segment(&old);
    let sections = convert::sections(&old);
    let rows = rows as usize;
    let mut lists = NewLists::new(Space { ids: rows, offsets: rows + 1 }, 1);
    let mut joiner = library();
    let repeats = repeats(rows);
    let mut copy = PlainCopy::default();
    let read: &[u64] = if ty <= 1 { &sections.values } else { &[] };
    let (Clock { look, .. }, least) = rounds(|| {
        let ours = mean(repeats, || assert_eq!(joiner.convert(&sections, &mut lists), 0));
        [ours, copy.time((&[], &old.offsets, read))]
    });
    let looks = [look / repeats, look / copy.copies];
    let per_row = |i: usize| least[i].saturating_sub(looks[i]).as_nanos() as f64 / rows as f64;
    let numbers: [usize; 2] = std::array::from_fn(|i| lists.record.lent()[3 + i] as usize);
    let ours = checksum(&lists.ids.lent()[..numbers[0]], &lists.offsets.lent()[..numbers[1]], &[]);
    MeasuredConversion {
        rows,
        ids: new.ids.len(),
        values: old.values.len(),
        ours: per_row(0),
        copy: per_row(1),
        sums: [checksum(&new.ids, &new.offsets, &[]), ours],
    }
}

/// What was measured of a column's least and greatest value: the number of values, ns per value of ours,
/// of a plain search and of a plain copy, and whether both found the same.
pub struct MeasuredPair {
    pub values: usize,
    pub ours: f64,
    pub plain: f64,
    pub copy: f64,
    pub same: bool,
}

fn measure_pair(ty: u32, rows: u32) -> MeasuredPair {
    let words = inputs::column(rows);
    let mut joiner = library();
    let repeats = repeats(words.len());
    let mut copy = PlainCopy::default();
    let mut lent = Run::new(2, 1);
    let mut found = [0; 2];
    let (Clock { look, .. }, least) = rounds(|| {
        let ours = mean(repeats, || joiner.pair(ty, &words, &mut lent));
        let plain = mean(repeats, || found = std::hint::black_box(plain_pair(ty, &words)));
        [ours, plain, copy.time((&[], &[], &words))]
    });
    let looks = [look / repeats, look / repeats, look / copy.copies];
    let per_value = |i: usize| least[i].saturating_sub(looks[i]).as_nanos() as f64 / words.len() as f64;
    let same = lent.lent()[..] == found;
    MeasuredPair { values: words.len(), ours: per_value(0), plain: per_value(1), copy: per_value(2), same }
}

/// In one loop, of I64 or U64.
fn plain_pair(ty: u32, words: &[u64]) -> [u64; 2] {
    let first = words[0];
    if ty == 0 {
        let both = |[least, most]: [i64; 2], &word: &u64| [least.min(word as i64), most.max(word as i64)];
        return words.iter().fold([first as i64; 2], both).map(|word| word as u64);
    }
    words.iter().fold([first; 2], |[least, most], &word| [least.min(word), most.max(word)])
}

/// What was measured of the time order: the number of alive rows, ns per such row of ours, of the sort
/// alone and of the whole by sort, checksums of the sorted addresses and of ours.
pub struct MeasuredOrder {
    pub line: OrderLine,
    pub rows: usize,
    pub ours: f64,
    pub sort: f64,
    pub whole: f64,
    pub sums: [u64; 2],
}

fn measure_order(line: OrderLine, segs: usize, rows: u32) -> MeasuredOrder {
    let segs = line.segments(segs, rows);
    let sections = order::sections(&segs);
    let rows = order::alive_rows(&segs) as usize;
    let mut joiner = library();
    let mut lists = Addresses::new(rows, 1);
    let timed = timed(&segs);
    let (mut by_sort, mut by_words) = (BySort::<(i64, u32, u32)>::new(&timed), BySort::<u128>::new(&timed));
    let repeats = repeats(rows);
    let (Clock { look, .. }, least) = rounds(|| {
        let ours = mean(repeats, || assert_eq!(joiner.order(&sections, &mut lists), 0));
        let ([sort, whole], other) = (by_sort.times(&timed), by_words.times(&timed));
        [ours, sort.min(other[0]), whole.min(other[1])]
    });
    let looks = [look / repeats, look, look];
    let per_row = |i: usize| least[i].saturating_sub(looks[i]).as_nanos() as f64 / rows as f64;
    let words = |list: &[[u32; 2]]| checksum(list.as_flattened(), &[], &[]);
    let count = lists.count.lent()[0] as usize;
    MeasuredOrder {
        line,
        rows,
        ours: per_row(0),
        sort: per_row(1),
        whole: per_row(2),
        sums: [words(by_sort.addresses()), words(&lists.addresses.lent()[..count])],
    }
}

/// Freed memory is kept for the next allocation and not handed back to the system, by the C
/// library's M_MMAP_MAX 0 and M_TRIM_THRESHOLD -1.
#[cfg(all(target_os = "linux", target_env = "gnu"))]
fn keep_memory() {
    unsafe extern "C" {
        fn mallopt(parameter: i32, value: i32) -> i32;
    }
    // Two settings of the allocator, before its lists are made.
    unsafe {
        mallopt(-4, 0);
        mallopt(-1, -1);
    }
}

#[cfg(not(all(target_os = "linux", target_env = "gnu")))]
fn keep_memory() {}

/// h = (h ^ x) * 0x100000001B3 mod 2^64 over ids, offsets and values (words), from
/// 0xCBF29CE484222325.
fn checksum(ids: &[u32], offsets: &[u32], values: &[u64]) -> u64 {
    let words = ids.iter().chain(offsets).map(|&x| x as u64).chain(values.iter().copied());
    words.fold(0xCBF29CE484222325, |h, x| (h ^ x).wrapping_mul(0x100000001B3))
}

fn touched<T: Clone>(n: usize, el: T) -> Vec<T> {
    let mut list = vec![el; n];
    list.clear();
    list
}

/// What the clock itself takes. The least of all rounds is subtracted from the least times.
struct Clock {
    /// One look at it.
    look: Duration,
    /// What one hook::opening adds beyond the time that it records.
    opening: Duration,
}

impl Clock {
    /// Means of some looks and openings.
    fn new() -> Clock {
        const LOOKS: u32 = 50;
        let t = hook::now();
        for _ in 1..LOOKS {
            hook::now();
        }
        let look = (hook::now() - t) / LOOKS;
        hook::start(Mode::Drain);
        let t = hook::now();
        for _ in 0..LOOKS {
            hook::opening(|| ());
        }
        let all = hook::now() - t;
        let opening = all.saturating_sub(hook::take().opening + look) / LOOKS;
        Clock { look, opening }
    }

    fn least(self, other: Clock) -> Clock {
        Clock { look: self.look.min(other.look), opening: self.opening.min(other.opening) }
    }
}

/// The crate's side: the opened segments, and the lists and the file that each merge fills again.
struct Theirs<'a> {
    input: &'a Input,
    line: Line,
    readers: Vec<ColumnarReader>,
    column: Captured,
    spare32: Vec<Vec<u32>>,
    spare64: Vec<Vec<u64>>,
    spare128: Vec<Vec<u128>>,
    file: Vec<u8>,
}

impl<'a> Theirs<'a> {
    fn new(input: &'a Input, line: Line, joined: usize) -> Theirs<'a> {
        hook::start(Mode::Off);
        let values = input.segs.iter().map(|s| s.values.len()).sum();
        let (words, addresses) = if line.column == LISTENERS { (0, values) } else { (values, 0) };
        Theirs {
            input,
            line,
            readers: input.segs.iter().map(|s| ColumnarReader::open(segment_file(s)).unwrap()).collect(),
            column: Captured::default(),
            spare32: vec![touched(joined + 1, 1), touched(joined + 1, 1)],
            spare64: vec![touched(words, 1)],
            spare128: vec![touched(addresses, 1)],
            file: touched(64 << 20, 1),
        }
    }

    /// The mean of the repeats.
    fn time(&mut self, repeats: u32) -> Duration {
        (0..repeats).map(|_| self.merge()).sum::<Duration>() / repeats
    }

    fn merge(&mut self) -> Duration {
        self.lend();
        let readers: Vec<&ColumnarReader> = self.readers.iter().collect();
        let order = merge_order(self.input, &readers);
        let t = hook::now();
        merge_columnar(&readers, &[], order, &mut self.file).unwrap();
        let total = hook::now() - t;
        let state = hook::take();
        self.column = state.columns.into_iter().next().unwrap();
        self.spare32 = state.pool32;
        self.spare64 = state.pool64;
        self.spare128 = state.pool128;
        total.saturating_sub(state.opening)
    }

    /// The clock's part of a merge: its own look, three of the serializer's wrapper, the openings.
    fn looks(&self, clock: &Clock) -> Duration {
        let openings = self.readers.len() as u32 * self.line.openings();
        clock.opening * openings + clock.look * 4
    }

    /// Hands the lists of the last merge to the next one, empty.
    fn lend(&mut self) {
        let Captured { ids, offsets, values, values128, .. } = std::mem::take(&mut self.column);
        self.spare32.extend([ids, offsets].into_iter().filter(|list| list.capacity() > 0));
        self.spare64.extend([values].into_iter().filter(|list| list.capacity() > 0));
        self.spare128.extend([values128].into_iter().filter(|list| list.capacity() > 0));
        self.spare32.iter_mut().for_each(Vec::clear);
        self.spare64.iter_mut().for_each(Vec::clear);
        self.spare128.iter_mut().for_each(Vec::clear);
        self.file.clear();
        hook::start(Mode::Drain);
        hook::with(|s| {
            s.pool32 = std::mem::take(&mut self.spare32);
            s.pool64 = std::mem::take(&mut self.spare64);
            s.pool128 = std::mem::take(&mut self.spare128);
        });
    }

    /// Of the last merge's lists in document 01's form: values as words.
    fn checksum(mut self) -> u64 {
        let ty = self.line.joined_type();
        for value in &mut self.column.values {
            *value = ColumnarWriter::internal_to_word(ty, *value);
        }
        if self.line.column == LISTENERS {
            self.column.values = words_of(IP, &self.column.values128);
        }
        checksum(&self.column.ids, &self.column.offsets, &self.column.values)
    }
}

/// The joiner's side: the sections and what is lent.
struct Ours {
    joiner: Box<dyn Joiner>,
    sections: Sections,
    lent: Lists,
}

impl Ours {
    fn new(input: &Input, joined: usize) -> Ours {
        let sections = input.sections();
        let rows: usize = input.segs.iter().map(|s| s.rows as usize).sum();
        let terms = sections.term_lengths.len();
        let lent = Lent {
            working: if input.mode == 0 { 0 } else { rows + terms },
            ids: joined,
            offsets: joined + 1,
            values: sections.values.len(),
            term_lengths: terms,
            term_bytes: sections.term_bytes.len(),
            map: terms,
        };
        Ours { joiner: library(), sections, lent: Lists::new(lent, 1) }
    }

    /// The mean of the repeats.
    fn time(&mut self, repeats: u32) -> Duration {
        mean(repeats, || assert_eq!(self.joiner.join(&self.sections, &mut self.lent), 0))
    }

    fn check_type(&mut self, line: Line) {
        assert_eq!(self.lent.numbers.lent()[0], line.joined_type().to_code() as u64);
    }

    /// How many values were joined.
    fn values(&mut self) -> usize {
        self.lent.numbers.lent()[5] as usize
    }

    /// Joined row ids, offsets and values, these as words.
    fn lists(&mut self) -> (&[u32], &[u32], &[u64]) {
        let Lists { ids, offsets, values, numbers, .. } = &mut self.lent;
        let [ty, _, _, n_ids, n_offsets, n_values] = std::array::from_fn(|i| numbers.lent()[i] as usize);
        let words = n_values * width(ty as u32);
        (&ids.lent()[..n_ids], &offsets.lent()[..n_offsets], &values.lent()[..words])
    }
}

#[cfg(library)]
fn library() -> Box<dyn Joiner> {
    Box::new(crate::library::Library)
}

#[cfg(not(library))]
fn library() -> Box<dyn Joiner> {
    panic!("built without the library")
}

/// The plain copy: lists to copy to, and how often, as many as make 8 million bytes, at most 1000.
#[derive(Default)]
struct PlainCopy {
    to: Captured,
    copies: u32,
}

impl PlainCopy {
    /// The mean of the copies. The first call makes the lists, and touches them.
    fn time(&mut self, (ids, offsets, values): (&[u32], &[u32], &[u64])) -> Duration {
        let bytes = 4 * (ids.len() + offsets.len()) + 8 * values.len();
        self.copies = (8_000_000 / bytes.max(1)).clamp(1, 1000) as u32;
        self.to.ids.resize(ids.len(), 1);
        self.to.offsets.resize(offsets.len(), 1);
        self.to.values.resize(values.len(), 1);
        mean(self.copies, || {
            self.to.ids.copy_from_slice(ids);
            self.to.offsets.copy_from_slice(offsets);
            self.to.values.copy_from_slice(values);
            std::hint::black_box(&mut self.to);
        })
    }
}
