//! The joiner's side of the comparison: one call with lent outputs, of the join, of the converter, of the
//! time order, of withdraw and reinstate, or for a column's least and greatest value.
//! Back ends: the static library (library.rs), and stand-ins made of the model, right and wrong
//! (slips.rs). The joining program is compared by its listings instead (compare.rs).
use crate::convert::{self, Converted, Space};
use crate::order;
use crate::table::Lent;
use crate::wire::{Listing, Outcome, ROW, Record, Sections};
use crate::withdraw::{self, AliveSet, Mark};

pub trait Element: Copy + PartialEq + std::fmt::Debug {
    fn from_word(word: u64) -> Self;
}
impl Element for u8 {
    fn from_word(word: u64) -> u8 {
        word as u8
    }
}
impl Element for u32 {
    fn from_word(word: u64) -> u32 {
        word as u32
    }
}
impl Element for u64 {
    fn from_word(word: u64) -> u64 {
        word
    }
}
impl Element for [u32; 2] {
    fn from_word(word: u64) -> [u32; 2] {
        [word as u32, (word >> 32) as u32]
    }
}

const GUARD: usize = 4;

/// A lent run of elements between guards, all filled with a pattern before the call.
pub struct Run<T> {
    all: Vec<T>,
    salt: u64,
}

impl<T: Element> Run<T> {
    pub fn new(length: usize, salt: u64) -> Run<T> {
        let mut run = Run { all: Vec::with_capacity(length + 2 * GUARD), salt };
        for i in 0..length + 2 * GUARD {
            run.all.push(run.pattern(i));
        }
        run
    }
    /// With these elements in it.
    pub fn with(elements: &[T], salt: u64) -> Run<T> {
        let mut run = Run::new(elements.len(), salt);
        run.lent().copy_from_slice(elements);
        run
    }
    fn pattern(&self, i: usize) -> T {
        let word = (i as u64).wrapping_add(self.salt).wrapping_mul(0x9E3779B97F4A7C15);
        T::from_word(word ^ word >> 29)
    }
    pub fn lent(&mut self) -> &mut [T] {
        let end = self.all.len() - GUARD;
        &mut self.all[GUARD..end]
    }
    /// A slip of slips.rs.
    pub fn past_the_end(&mut self, element: T) {
        let end = self.all.len() - GUARD;
        self.all[end] = element;
    }
    pub fn len(&self) -> usize {
        self.all.len() - 2 * GUARD
    }
    /// What is wrong, if the run must begin with `list` and be as before beyond it.
    pub fn fault(&self, name: &str, list: &[T]) -> Option<String> {
        for i in 0..self.all.len() {
            let place = i.wrapping_sub(GUARD);
            let (expected, what) = match list.get(place) {
                Some(&element) => (element, "is"),
                None if place < self.len() => (self.pattern(i), "beyond the list, is"),
                None => (self.pattern(i), "outside what was lent, is"),
            };
            if self.all[i] != expected {
                let (place, is) = (place as isize, self.all[i]);
                return Some(format!("{name}[{place}] {what} {is:?}, must be {expected:?}"));
            }
        }
        None
    }
}

/// All that a call is lent to write to.
pub struct Lists {
    pub working: Run<u8>,
    pub ids: Run<u32>,
    pub offsets: Run<u32>,
    /// words
    pub values: Run<u64>,
    pub term_lengths: Run<u32>,
    pub term_bytes: Run<u8>,
    pub map: Run<u32>,
    /// Type, class, rows, then how many row ids, offsets, values, terms, term bytes and map
    /// entries, how many term bytes were copied, and the least and greatest joined value.
    pub numbers: Run<u64>,
}

impl Lists {
    pub fn new(lent: Lent, salt: u64) -> Lists {
        Lists {
            working: Run::new(lent.working, salt),
            ids: Run::new(lent.ids, salt + 1),
            offsets: Run::new(lent.offsets, salt + 2),
            values: Run::new(lent.values, salt + 3),
            term_lengths: Run::new(lent.term_lengths, salt + 4),
            term_bytes: Run::new(lent.term_bytes, salt + 5),
            map: Run::new(lent.map, salt + 6),
            numbers: Run::new(12, salt + 7),
        }
    }

    /// How many elements are lent.
    pub fn lengths(&self) -> Lent {
        Lent {
            working: self.working.len(),
            ids: self.ids.len(),
            offsets: self.offsets.len(),
            values: self.values.len(),
            term_lengths: self.term_lengths.len(),
            term_bytes: self.term_bytes.len(),
            map: self.map.len(),
        }
    }

    /// Writes a column as an accepted join does.
    pub fn write(&mut self, l: &Listing) {
        self.ids.lent()[..l.ids.len()].copy_from_slice(&l.ids);
        self.offsets.lent()[..l.offsets.len()].copy_from_slice(&l.offsets);
        let words = l.words();
        self.values.lent()[..words.len()].copy_from_slice(&words);
        let bytes = l.terms.concat();
        self.term_bytes.lent()[..bytes.len()].copy_from_slice(&bytes);
        for (length, term) in self.term_lengths.lent().iter_mut().zip(&l.terms) {
            *length = term.len() as u32;
        }
        self.map.lent()[..l.map.len()].copy_from_slice(&l.map);
        self.numbers.lent().copy_from_slice(&numbers(l));
    }

    /// What is wrong, if the call must have had this outcome. A refusal changes no output, the
    /// numbers among them; output beyond the lists keeps its bytes; the working bytes are zero.
    pub fn fault(&self, outcome: &Outcome) -> Option<String> {
        let nothing = Listing::default();
        let (l, numbers) = match outcome {
            Outcome::Accepted(l) => (l, numbers(l).to_vec()),
            Outcome::Refused(_) => (&nothing, vec![]),
        };
        let lengths: Vec<u32> = l.terms.iter().map(|t| t.len() as u32).collect();
        None.or_else(|| self.numbers.fault("numbers", &numbers))
            .or_else(|| self.ids.fault("ids", &l.ids))
            .or_else(|| self.offsets.fault("offsets", &l.offsets))
            .or_else(|| self.values.fault("values", &l.words()))
            .or_else(|| self.term_lengths.fault("term lengths", &lengths))
            .or_else(|| self.term_bytes.fault("term bytes", &l.terms.concat()))
            .or_else(|| self.map.fault("map", &l.map))
            .or_else(|| self.working.fault("working bytes", &vec![0; self.working.len()]))
    }
}

/// The place of the count of term bytes copied among the numbers.
pub const COPIED: usize = 9;
/// The place of the least value, before the greatest.
pub const PAIR: usize = 10;

/// Last come "a count of the term bytes copied, proved equal to the joined terms' bytes" (02, (d)) and the
/// pair that "the joined column carries" (02, (j)).
pub fn numbers(l: &Listing) -> [u64; 12] {
    let term_bytes = l.terms.iter().map(|t| t.len() as u64).sum();
    [
        l.ty as u64,
        l.class as u64,
        l.rows as u64,
        l.ids.len() as u64,
        l.offsets.len() as u64,
        l.values.len() as u64,
        l.terms.len() as u64,
        term_bytes,
        l.map.len() as u64,
        term_bytes,
        l.pair[0],
        l.pair[1],
    ]
}

/// All that a call of the converter is lent to write to.
pub struct NewLists {
    pub ids: Run<u32>,
    pub offsets: Run<u32>,
    pub record: Run<u32>,
}

impl NewLists {
    pub fn new(space: Space, salt: u64) -> NewLists {
        NewLists {
            ids: Run::new(space.ids, salt),
            offsets: Run::new(space.offsets, salt + 1),
            record: Run::new(ROW, salt + 2),
        }
    }

    /// How many elements are lent.
    pub fn space(&self) -> Space {
        Space { ids: self.ids.len(), offsets: self.offsets.len() }
    }

    /// Writes as an accepted conversion does.
    pub fn write(&mut self, c: &Converted) {
        self.ids.lent()[..c.ids.len()].copy_from_slice(&c.ids);
        self.offsets.lent()[..c.offsets.len()].copy_from_slice(&c.offsets);
        self.record.lent().copy_from_slice(&c.record.0);
    }

    /// What is wrong, if the call must have had this outcome. A refusal writes nothing; output
    /// beyond the lists keeps its elements.
    pub fn fault(&self, outcome: &convert::Outcome) -> Option<String> {
        let (ids, offsets, record): (&[u32], &[u32], &[u32]) = match outcome {
            convert::Outcome::Accepted(c) => (&c.ids, &c.offsets, &c.record.0),
            convert::Outcome::Refused(_) => (&[], &[], &[]),
        };
        None.or_else(|| self.record.fault("the record", record))
            .or_else(|| self.ids.fault("new ids", ids))
            .or_else(|| self.offsets.fault("new offsets", offsets))
    }
}

/// All that a call of the time order is lent to write to.
pub struct Addresses {
    pub addresses: Run<[u32; 2]>,
    pub count: Run<u64>,
}

impl Addresses {
    pub fn new(space: usize, salt: u64) -> Addresses {
        Addresses { addresses: Run::new(space, salt), count: Run::new(1, salt + 1) }
    }

    /// Writes as an accepted time order does.
    pub fn write(&mut self, list: &[[u32; 2]]) {
        self.addresses.lent()[..list.len()].copy_from_slice(list);
        self.count.lent()[0] = list.len() as u64;
    }

    /// What is wrong, if the call must have had this outcome. A refusal writes nothing; output
    /// beyond the addresses keeps its elements.
    pub fn fault(&self, outcome: &order::Outcome) -> Option<String> {
        let (addresses, count): (&[[u32; 2]], &[u64]) = match outcome {
            order::Outcome::Sorted(list) => (list, &[list.len() as u64]),
            order::Outcome::Refused(_) => (&[], &[]),
        };
        None.or_else(|| self.count.fault("the count", count))
            .or_else(|| self.addresses.fault("addresses", addresses))
    }
}

/// All that withdraw and reinstate are lent to change: the record, its alive words, and the number of rows
/// that changed.
pub struct Marked {
    pub record: Run<u32>,
    pub words: Run<u64>,
    pub changed: Run<u64>,
    salt: u64,
}

impl Marked {
    pub fn new(set: &AliveSet, salt: u64) -> Marked {
        Marked {
            record: Run::with(&set.record.0, salt),
            words: Run::with(&set.words, salt + 1),
            changed: Run::new(1, salt + 2),
            salt,
        }
    }

    /// As before a call: the number of rows that changed is not written.
    pub fn unwritten(&mut self) {
        self.changed = Run::new(1, self.salt + 2);
    }

    /// The record and its alive words as they are.
    pub fn set(&mut self) -> AliveSet {
        let record = Record(std::array::from_fn(|i| self.record.lent()[i]));
        AliveSet { record, words: self.words.lent().to_vec() }
    }

    /// Writes as a call that is not refused does.
    pub fn write(&mut self, changed: u64, left: &AliveSet) {
        self.record.lent().copy_from_slice(&left.record.0);
        self.words.lent().copy_from_slice(&left.words);
        self.changed.lent()[0] = changed;
    }

    /// What is wrong, if the call must have had this outcome. A refusal changes nothing.
    pub fn fault(&self, outcome: &withdraw::Outcome, before: &AliveSet) -> Option<String> {
        let (left, changed): (&AliveSet, &[u64]) = match outcome {
            withdraw::Outcome::Changed(n, left) => (left, &[*n]),
            withdraw::Outcome::Refused(_) => (before, &[]),
        };
        None.or_else(|| self.record.fault("the record", &left.record.0))
            .or_else(|| self.words.fault("alive words", &left.words))
            .or_else(|| self.changed.fault("changed rows", changed))
    }
}

/// A joiner, its converter, its time order, and its withdraw and reinstate: the answer's number; what is
/// written goes to the lists. And its least and greatest value, which has no answer.
pub trait Joiner {
    fn join(&mut self, sections: &Sections, lists: &mut Lists) -> u32;
    /// Of the sections' one record and its runs.
    fn convert(&mut self, sections: &Sections, lists: &mut NewLists) -> u32;
    /// Of the sections' segments.
    fn order(&mut self, sections: &Sections, lists: &mut Addresses) -> u32;
    fn mark(&mut self, mark: &Mark, lent: &mut Marked) -> u32;
    /// Of a column's type and words, into two elements.
    fn pair(&mut self, ty: u32, words: &[u64], lent: &mut Run<u64>);
}
