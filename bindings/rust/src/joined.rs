use crate::codes::{Class, ColumnType, code_of, words_per_value};
use crate::ffi::Outputs;
use crate::ip::ip_addr;
use crate::pair::Pair;
use crate::sections::{Cut, Sections};
use crate::segment::{Index, Segment};
use crate::sheet::term_text;
use crate::terms::Terms;
use std::fmt;
use std::net::Ipv6Addr;
use std::ops::Range;

/// A joined column.
#[derive(Clone, Debug, PartialEq, Eq)]
pub struct Joined {
    typ: Option<ColumnType>,
    class: Class,
    rows: u32,
    ids: Vec<u32>,
    offsets: Vec<u32>,
    /// The values' words.
    values: Vec<u64>,
    terms: Terms,
    map: Vec<u32>,
    /// Each segment's part of the map; none if its column is not held.
    map_parts: Vec<Option<Range<usize>>>,
    copied: u64,
    pair: Pair,
}

/// One value of a row.
#[derive(Clone, Copy, Debug, PartialEq)]
pub enum Value<'a> {
    I64(i64),
    U64(u64),
    F64(f64),
    Bool(bool),
    /// An IPv4 address is the one that it is mapped to; `to_ipv4_mapped` gives it back.
    IpAddr(Ipv6Addr),
    DateTime(i64),
    Str(&'a str),
    /// A term of a Bytes column, or one of a Str column that is not UTF-8.
    Bytes(&'a [u8]),
}

/// As in a sheet, a term as it stands among the terms: a text is quoted, bytes that are none are in
/// hexadecimal. But a NaN is `NaN`, whatever its bits are.
impl fmt::Display for Value<'_> {
    fn fmt(&self, f: &mut fmt::Formatter<'_>) -> fmt::Result {
        match self {
            Value::I64(value) | Value::DateTime(value) => write!(f, "{value}"),
            Value::U64(value) => write!(f, "{value}"),
            Value::F64(value) => write!(f, "{value:?}"),
            Value::Bool(value) => write!(f, "{value}"),
            Value::IpAddr(address) => write!(f, "{address}"),
            Value::Str(text) => f.write_str(&term_text(text.as_bytes())),
            Value::Bytes(bytes) => f.write_str(&term_text(bytes)),
        }
    }
}

impl Joined {
    /// The joined type; none if no column is held and none was required.
    pub fn column_type(&self) -> Option<ColumnType> {
        self.typ
    }

    pub fn class(&self) -> Class {
        self.class
    }

    pub fn rows(&self) -> u32 {
        self.rows
    }

    /// The rows with a value, for a class other than Full.
    pub fn ids(&self) -> &[u32] {
        &self.ids
    }

    /// For class Multivalued: 0, and then the running total of values after each row with a value.
    pub fn offsets(&self) -> &[u32] {
        &self.offsets
    }

    /// The values in row order as words: two's complement for I64 and DateTime, IEEE bits for F64,
    /// ordinals for Bytes and Str. An IpAddr has two, which [`ip_addrs`](crate::ip_addrs) reads.
    pub fn values(&self) -> &[u64] {
        &self.values
    }

    /// How many values there are: as many as words, or half as many if they are of type IpAddr.
    pub fn value_count(&self) -> usize {
        self.values.len() / words_per_value(self.typ)
    }

    pub fn terms(&self) -> &Terms {
        &self.terms
    }

    /// The new ordinal of each old one, held segment after held segment; 0 for a term not kept.
    pub fn map(&self) -> &[u32] {
        &self.map
    }

    /// One segment's part of the map; none if its column is not held.
    pub fn map_of(&self, segment: usize) -> Option<&[u32]> {
        let part = self.map_parts.get(segment)?.clone()?;
        Some(&self.map[part])
    }

    /// How many term bytes the join copied, counted where they are copied. It is proved that they
    /// are as many as the joined terms have.
    pub fn term_bytes_copied(&self) -> u64 {
        self.copied
    }

    /// The least and the greatest of the joined values, as words; 0 and 0 unless the type is I64 or
    /// U64 and there are values. Values of withdrawn rows are none of them.
    pub fn pair(&self) -> Pair {
        self.pair
    }

    /// The least value of a column of type I64 or U64; none for other types, and without values.
    pub fn least(&self) -> Option<Value<'_>> {
        self.of_pair(self.pair.least())
    }

    /// The greatest value, as [`least`](Joined::least) gives the least one.
    pub fn greatest(&self) -> Option<Value<'_>> {
        self.of_pair(self.pair.greatest())
    }

    fn of_pair(&self, word: u64) -> Option<Value<'_>> {
        let has_pair = self.typ.is_some_and(ColumnType::has_pair) && !self.values.is_empty();
        has_pair.then(|| self.value(&[word]))
    }

    /// A row's values; none for a row past the last.
    pub fn row(&self, row: u32) -> impl ExactSizeIterator<Item = Value<'_>> {
        self.values_in(self.part_of(row))
    }

    /// The rows that have values, each with them, in row order.
    pub fn filled_rows(
        &self,
    ) -> impl Iterator<Item = (u32, impl ExactSizeIterator<Item = Value<'_>>)> {
        let filled = match (self.typ, self.class) {
            (None, _) => 0,
            (_, Class::Full) => self.rows as usize,
            _ => self.ids.len(),
        };
        (0..filled).map(|rank| {
            let row = self.ids.get(rank).map_or(rank as u32, |&id| id);
            (row, self.values_in(self.part_at(rank)))
        })
    }

    /// The values of a part, which counts whole values.
    fn values_in(&self, part: Range<usize>) -> impl ExactSizeIterator<Item = Value<'_>> {
        let words = words_per_value(self.typ);
        self.values[part.start * words..part.end * words]
            .chunks_exact(words)
            .map(|words| self.value(words))
    }

    /// The part of the values that a row has.
    fn part_of(&self, row: u32) -> Range<usize> {
        if self.typ.is_none() || row >= self.rows {
            return 0..0;
        }
        match self.class {
            Class::Full => self.part_at(row as usize),
            _ => self
                .ids
                .binary_search(&row)
                .map_or(0..0, |rank| self.part_at(rank)),
        }
    }

    /// The part of the values of the row that is so many-th among those with values.
    fn part_at(&self, rank: usize) -> Range<usize> {
        match self.class {
            Class::Multivalued => self.offsets[rank] as usize..self.offsets[rank + 1] as usize,
            _ => rank..rank + 1,
        }
    }

    fn value(&self, words: &[u64]) -> Value<'_> {
        let word = words[0];
        let term = || self.terms.get(word as usize).unwrap_or_default();
        match self.typ {
            Some(ColumnType::I64) => Value::I64(word as i64),
            Some(ColumnType::F64) => Value::F64(f64::from_bits(word)),
            Some(ColumnType::Bool) => Value::Bool(word != 0),
            Some(ColumnType::IpAddr) => Value::IpAddr(ip_addr(word, words[1])),
            Some(ColumnType::DateTime) => Value::DateTime(word as i64),
            Some(ColumnType::Str) => {
                str::from_utf8(term()).map_or(Value::Bytes(term()), Value::Str)
            }
            Some(ColumnType::Bytes) => Value::Bytes(term()),
            Some(ColumnType::U64) | None => Value::U64(word),
        }
    }
}

/// A joined column serves as a segment again, with its lists, its pair and no alive set: all its
/// rows are alive. The map is no part of the column.
impl From<Joined> for Segment {
    fn from(joined: Joined) -> Segment {
        let index = match (joined.typ, joined.class) {
            (None, _) => Index::Empty,
            (_, Class::Full) => Index::Full,
            (_, Class::Optional) => Index::Optional { ids: joined.ids },
            (_, Class::Multivalued) => Index::NewMultivalued {
                ids: joined.ids,
                offsets: joined.offsets,
            },
        };
        let (typ, rows, values) = (joined.typ, joined.rows.into(), joined.values);
        debug_assert_eq!(joined.pair, Pair::of_code(code_of(typ), &values));
        Segment::from_parts(typ, index, rows, values, joined.terms).with_pair(joined.pair)
    }
}

/// The column in the outputs of an accepted join.
pub(crate) fn from_outputs(outputs: Outputs, sections: &Sections) -> Joined {
    let [
        typ,
        class,
        rows,
        ids,
        offsets,
        values,
        terms,
        bytes,
        map,
        copied,
        least,
        greatest,
    ] = outputs.numbers;
    let typ = ColumnType::from_code(typ as u32);
    let words = values * words_per_value(typ) as u64;
    let lengths = first(outputs.term_lengths, terms);
    Joined {
        typ,
        class: Class::from_code(class).expect("the library's classes are 0, 1 and 2"),
        rows: rows as u32,
        ids: first(outputs.ids, ids),
        offsets: first(outputs.offsets, offsets),
        values: first(outputs.values, words),
        terms: Terms::from_lengths(&lengths, first(outputs.term_bytes, bytes)),
        map: first(outputs.map, map),
        map_parts: map_parts(&sections.cut().unwrap_or_default()),
        copied,
        pair: Pair::new(least, greatest),
    }
}

/// The list at the start of a lent run, without the space behind it.
fn first<T>(mut run: Vec<T>, count: u64) -> Vec<T> {
    run.truncate(count as usize);
    run.shrink_to_fit();
    run
}

fn map_parts(segments: &[Cut<'_>]) -> Vec<Option<Range<usize>>> {
    let mut end = 0;
    let part = |segment: &Cut<'_>| {
        segment.is_held().then(|| {
            let start = end;
            end += segment.term_lengths.len();
            start..end
        })
    };
    segments.iter().map(part).collect()
}
