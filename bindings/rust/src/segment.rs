use crate::alive::{AliveSet, alive_number, words_for};
use crate::codes::{ColumnType, code_of, kind, words_per_value};
use crate::ip;
use crate::pair::Pair;
use crate::refusal::Refusal;
use crate::sections::{Record, Sections};
use crate::terms::Terms;
use std::collections::BTreeMap;
use std::net::IpAddr;

/// Which rows of a segment have values, and how many.
#[derive(Clone, Debug, PartialEq, Eq)]
pub enum Index {
    /// No row has a value.
    Empty,
    /// Each row has one value.
    Full,
    /// The rows of the ids have one value each.
    Optional { ids: Vec<u32> },
    /// A row of the ids has the values between the offset at its place and the next: one offset
    /// more than ids.
    NewMultivalued { ids: Vec<u32>, offsets: Vec<u32> },
}

impl Index {
    fn kind(&self) -> u32 {
        match self {
            Index::Empty => kind::EMPTY,
            Index::Full => kind::FULL,
            Index::Optional { .. } => kind::OPTIONAL,
            Index::NewMultivalued { .. } => kind::NEW_MULTIVALUED,
        }
    }

    fn lists(&self) -> (&[u32], &[u32]) {
        match self {
            Index::Empty | Index::Full => (&[], &[]),
            Index::Optional { ids } => (ids, &[]),
            Index::NewMultivalued { ids, offsets } => (ids, offsets),
        }
    }
}

/// One column of one segment.
///
/// The constructors check nothing: a join refuses, by number, whatever doesn't fit together.
/// Values are 64-bit words: two's complement for I64 and DateTime, IEEE bits for F64, 0 or 1 for
/// Bool, ordinals of the terms for Bytes and Str. An IpAddr has two, which
/// [`ip_words`](crate::ip_words) makes of addresses. The constructors that take rows make the
/// words, the terms and the lists themselves. All of them count the alive rows and find the least
/// and the greatest value, which a segment keeps as its record does.
#[derive(Clone, Debug, PartialEq, Eq)]
pub struct Segment {
    typ: Option<ColumnType>,
    index: Index,
    /// Wider than the library's 32 bits, so that too many rows are seen and not cut.
    rows: u64,
    values: Vec<u64>,
    terms: Terms,
    alive: Option<AliveSet>,
    alive_rows: u32,
    pair: Pair,
}

/// Constructors by lists.
impl Segment {
    /// A segment that lacks the column.
    pub fn no_column(rows: u32) -> Segment {
        let rows = rows.into();
        Segment::from_parts(None, Index::Empty, rows, Vec::new(), Terms::default())
    }

    /// A column without values.
    pub fn empty(typ: ColumnType, rows: u32) -> Segment {
        Segment::new(typ, Index::Empty, rows.into(), Vec::new())
    }

    /// One value in each row.
    pub fn full(typ: ColumnType, values: Vec<u64>) -> Segment {
        let rows = values.len() / typ.words_per_value();
        Segment::new(typ, Index::Full, rows as u64, values)
    }

    /// One value in each row of the ids.
    pub fn optional(typ: ColumnType, rows: u32, ids: Vec<u32>, values: Vec<u64>) -> Segment {
        Segment::new(typ, Index::Optional { ids }, rows.into(), values)
    }

    /// Any number of values in each row; see [`Index::NewMultivalued`].
    pub fn new_multivalued(
        typ: ColumnType,
        rows: u32,
        ids: Vec<u32>,
        offsets: Vec<u32>,
        values: Vec<u64>,
    ) -> Segment {
        let index = Index::NewMultivalued { ids, offsets };
        Segment::new(typ, index, rows.into(), values)
    }

    /// The segment with these terms, for values that are ordinals.
    pub fn with_terms<T: AsRef<[u8]>>(mut self, terms: impl IntoIterator<Item = T>) -> Segment {
        self.terms = terms.into_iter().collect();
        self
    }

    /// The segment with an alive set, for an ordered join or a time order, and with the set's
    /// number of alive rows.
    pub fn with_alive(mut self, alive: AliveSet) -> Segment {
        self.alive_rows = alive_number(self.rows, Some(alive.words()));
        self.alive = Some(alive);
        self
    }

    /// The segment with the number of alive rows that was stored with it. Every call refuses a
    /// wrong one with [`Refusal::AliveSet`]; the constructors and [`with_alive`] count for you.
    ///
    /// [`with_alive`]: Segment::with_alive
    pub fn with_alive_rows(mut self, number: u32) -> Segment {
        self.alive_rows = number;
        self
    }

    /// The segment with the least and the greatest value that were stored with it. Joins and time
    /// orders refuse an untrue pair with [`Refusal::Contents`]; the constructors find the true one
    /// for you.
    pub fn with_pair(mut self, pair: Pair) -> Segment {
        self.pair = pair;
        self
    }

    /// The segment with these rows withdrawn, and those that were withdrawn before. It has an alive
    /// set then, even if no row is named. A row that the segment doesn't have is passed over.
    pub fn without_rows(mut self, withdrawn: impl IntoIterator<Item = u32>) -> Segment {
        let rows = u32::try_from(self.rows).unwrap_or(u32::MAX);
        let mut alive = self.alive.take().unwrap_or_else(|| AliveSet::all(rows));
        withdrawn.into_iter().for_each(|row| alive.withdraw(row));
        self.with_alive(alive)
    }

    fn new(typ: ColumnType, index: Index, rows: u64, values: Vec<u64>) -> Segment {
        let pair = Pair::of(typ, &values);
        Segment::from_parts(Some(typ), index, rows, values, Terms::default()).with_pair(pair)
    }

    /// A segment with the pair 0 and 0, which the caller may have to replace.
    pub(crate) fn from_parts(
        typ: Option<ColumnType>,
        index: Index,
        rows: u64,
        values: Vec<u64>,
        terms: Terms,
    ) -> Segment {
        Segment {
            typ,
            index,
            rows,
            values,
            terms,
            alive: None,
            alive_rows: alive_number(rows, None),
            pair: Pair::default(),
        }
    }
}

/// What the segment holds.
impl Segment {
    /// The column's type; none if the segment lacks the column.
    pub fn column_type(&self) -> Option<ColumnType> {
        self.typ
    }

    pub fn index(&self) -> &Index {
        &self.index
    }

    /// More than 4294967294 are refused by every call.
    pub fn rows(&self) -> u64 {
        self.rows
    }

    /// The values' words: two for each IpAddr, which [`ip_addrs`](crate::ip_addrs) reads.
    pub fn values(&self) -> &[u64] {
        &self.values
    }

    pub fn terms(&self) -> &Terms {
        &self.terms
    }

    pub fn alive(&self) -> Option<&AliveSet> {
        self.alive.as_ref()
    }

    /// The number of alive rows, which the segment keeps: all rows if it has no alive set.
    pub fn alive_rows(&self) -> u32 {
        self.alive_rows
    }

    /// The least and the greatest stored value, also of withdrawn rows, which the segment keeps.
    pub fn pair(&self) -> Pair {
        self.pair
    }

    /// What a call that withdraws or reinstates rows is lent: of the record, the library looks at
    /// these numbers alone. The segment has the call's number of alive rows then.
    pub(crate) fn lend_alive<T>(
        &mut self,
        call: impl FnOnce(&mut Record, &mut [u64]) -> Result<T, Refusal>,
    ) -> Result<T, Refusal> {
        let mut record = Record {
            rows: u32::try_from(self.rows).map_err(|_| Refusal::TooLarge)?,
            flag: u32::from(self.alive.is_some()),
            alive_rows: self.alive_rows,
            ..Record::default()
        };
        let words = self.alive.as_mut().map(AliveSet::words_mut);
        let result = call(&mut record, words.unwrap_or_default());
        self.alive_rows = record.alive_rows;
        result
    }
}

/// Constructors by rows: each row gives its values, as an `Option`, an array, a `Vec`. The index
/// becomes Full if every row has one value, Optional if none has more, else new multivalued.
impl Segment {
    pub fn i64s<R: IntoIterator<Item = i64>>(rows: impl IntoIterator<Item = R>) -> Segment {
        Segment::from_rows(ColumnType::I64, rows, |v| [v as u64])
    }

    pub fn u64s<R: IntoIterator<Item = u64>>(rows: impl IntoIterator<Item = R>) -> Segment {
        Segment::from_rows(ColumnType::U64, rows, |v| [v])
    }

    pub fn f64s<R: IntoIterator<Item = f64>>(rows: impl IntoIterator<Item = R>) -> Segment {
        Segment::from_rows(ColumnType::F64, rows, |v| [v.to_bits()])
    }

    pub fn bools<R: IntoIterator<Item = bool>>(rows: impl IntoIterator<Item = R>) -> Segment {
        Segment::from_rows(ColumnType::Bool, rows, |v| [v.into()])
    }

    pub fn date_times<R: IntoIterator<Item = i64>>(rows: impl IntoIterator<Item = R>) -> Segment {
        Segment::from_rows(ColumnType::DateTime, rows, |v| [v as u64])
    }

    /// Of `Ipv6Addr`, `Ipv4Addr` or `IpAddr`. An IPv4 address becomes the IPv6 address that it is
    /// mapped to.
    ///
    /// ```
    /// use jadmirus::{Order, Refusal, Segment, Value, join};
    /// use std::net::{Ipv4Addr, Ipv6Addr};
    ///
    /// # fn main() -> Result<(), Refusal> {
    /// let by_day = [
    ///     Segment::ip_addrs([vec![Ipv6Addr::LOCALHOST, Ipv6Addr::UNSPECIFIED], vec![]]),
    ///     Segment::ip_addrs([Some(Ipv4Addr::new(192, 0, 2, 7))]),
    /// ];
    /// let listeners = join(&by_day, Order::Stacked, None)?;
    /// let mapped: Ipv6Addr = "::ffff:192.0.2.7".parse().unwrap();
    /// assert_eq!(listeners.row(2).collect::<Vec<_>>(), [Value::IpAddr(mapped)]);
    /// # Ok(())
    /// # }
    /// ```
    pub fn ip_addrs<A: Into<IpAddr>, R: IntoIterator<Item = A>>(
        rows: impl IntoIterator<Item = R>,
    ) -> Segment {
        Segment::from_rows(ColumnType::IpAddr, rows, ip::words_of)
    }

    pub fn strs<'a, R: IntoIterator<Item = &'a str>>(rows: impl IntoIterator<Item = R>) -> Segment {
        let rows = rows
            .into_iter()
            .map(|row| row.into_iter().map(str::as_bytes));
        Segment::from_term_rows(ColumnType::Str, rows)
    }

    pub fn byte_strings<'a, R: IntoIterator<Item = &'a [u8]>>(
        rows: impl IntoIterator<Item = R>,
    ) -> Segment {
        Segment::from_term_rows(ColumnType::Bytes, rows)
    }

    fn from_term_rows<'a, R: IntoIterator<Item = &'a [u8]>>(
        typ: ColumnType,
        rows: impl IntoIterator<Item = R>,
    ) -> Segment {
        let mut numbers: BTreeMap<&[u8], u64> = BTreeMap::new();
        let mut segment = Segment::from_rows(typ, rows, |term| {
            let next = numbers.len() as u64;
            [*numbers.entry(term).or_insert(next)]
        });
        // The terms were numbered as they came; their ordinals go by their order.
        let mut ordinals = vec![0; numbers.len()];
        for (ordinal, (term, number)) in numbers.into_iter().enumerate() {
            ordinals[number as usize] = ordinal as u64;
            segment.terms.push(term);
        }
        segment
            .values
            .iter_mut()
            .for_each(|value| *value = ordinals[*value as usize]);
        segment
    }

    /// A value of the type has so many words, `WORDS`.
    fn from_rows<V, R: IntoIterator<Item = V>, const WORDS: usize>(
        typ: ColumnType,
        rows: impl IntoIterator<Item = R>,
        mut words: impl FnMut(V) -> [u64; WORDS],
    ) -> Segment {
        let (mut ids, mut offsets, mut values) = (Vec::new(), vec![0], Vec::new());
        let mut count = 0;
        for row in rows {
            let before = values.len();
            values.extend(row.into_iter().map(&mut words));
            if values.len() > before {
                // Cut numbers are never handed on: so many rows or values are refused as such.
                ids.push(count as u32);
                offsets.push(values.len() as u32);
            }
            count += 1;
        }
        let index = match (ids.len(), values.len()) {
            (rows, all) if rows < all => Index::NewMultivalued { ids, offsets },
            (rows, _) if rows as u64 == count => Index::Full,
            _ => Index::Optional { ids },
        };
        Segment::new(typ, index, count, values.into_flattened())
    }
}

impl Sections {
    /// The sections of a stacked join of the segments without a required type.
    pub fn of(segments: &[Segment]) -> Result<Sections, Refusal> {
        let mut sections = Sections::default();
        segments
            .iter()
            .try_for_each(|segment| sections.push(segment))?;
        Ok(sections)
    }

    /// Adds a segment's record and lists. A number that 32 bits can't hold is refused here, and so
    /// is an alive set of another number of words than the rows need: the library compares sums
    /// only, and could take such words for the next segment's.
    fn push(&mut self, segment: &Segment) -> Result<(), Refusal> {
        let (ids, offsets) = segment.index.lists();
        let rows = u32::try_from(segment.rows).map_err(|_| Refusal::TooLarge)?;
        let record = Record {
            typ: code_of(segment.typ),
            kind: segment.index.kind(),
            rows,
            ids: length(ids)?,
            offsets: length(offsets)?,
            values: value_count(segment.typ, &segment.values)?,
            terms: count(segment.terms.len())?,
            flag: u32::from(segment.alive.is_some()),
            alive_rows: segment.alive_rows,
            pair: segment.pair,
        };
        if let Some(alive) = &segment.alive {
            if alive.words().len() != words_for(rows) {
                return Err(Refusal::Lengths);
            }
            self.alive.extend_from_slice(alive.words());
        }
        for term in segment.terms.iter() {
            self.term_lengths.push(length(term)?);
        }
        self.records.push(record);
        self.ids.extend_from_slice(ids);
        self.offsets.extend_from_slice(offsets);
        self.values.extend_from_slice(&segment.values);
        self.term_bytes.extend_from_slice(segment.terms.bytes());
        Ok(())
    }
}

/// How many values have these words. Half an address doesn't count, so that the library finds a
/// word too many (answer 2).
pub(crate) fn value_count(typ: Option<ColumnType>, words: &[u64]) -> Result<u32, Refusal> {
    count(words.len() / words_per_value(typ))
}

pub(crate) fn length<T>(list: &[T]) -> Result<u32, Refusal> {
    count(list.len())
}

pub(crate) fn count(elements: usize) -> Result<u32, Refusal> {
    u32::try_from(elements).map_err(|_| Refusal::Lengths)
}

#[cfg(test)]
mod tests {
    use super::*;

    /// What 32 bits can't count is not cut.
    #[test]
    fn too_many_rows() {
        let mut segment = Segment {
            rows: 1 << 32,
            ..Segment::no_column(0)
        };
        assert_eq!(segment.withdraw(0), Err(Refusal::TooLarge));
        assert_eq!(Sections::of(&[segment]), Err(Refusal::TooLarge));
    }

    #[test]
    fn rows_withdrawn_in_turn() {
        let segment = Segment::no_column(65).without_rows([1, 64, 65, 200]);
        let words = |segment: &Segment| segment.alive.as_ref().unwrap().words().to_vec();
        assert_eq!((words(&segment), segment.alive_rows), (vec![!2, 0], 63));
        let again = segment.without_rows([0]);
        assert_eq!((words(&again), again.alive_rows), (vec![!3, 0], 62));
    }

    #[test]
    fn indexes_of_rows() {
        let index = |rows: &[&[u64]]| {
            let rows = rows.iter().map(|row| row.iter().copied());
            Segment::u64s(rows).index
        };
        assert_eq!(index(&[]), Index::Full);
        assert_eq!(index(&[&[7], &[8]]), Index::Full);
        assert_eq!(index(&[&[], &[8]]), Index::Optional { ids: vec![1] });
        assert_eq!(index(&[&[], &[]]), Index::Optional { ids: vec![] });
        let (ids, offsets) = (vec![1, 2], vec![0, 2, 3]);
        let several = index(&[&[], &[7, 8], &[9]]);
        assert_eq!(several, Index::NewMultivalued { ids, offsets });
    }
}
