//! The converter: segments of kind 3, old multivalued, become segments of kind 4.
use crate::alive::{AliveSet, alive_number};
use crate::codes::{ColumnType, kind};
use crate::ffi;
use crate::pair::Pair;
use crate::refusal::Refusal;
use crate::sections::{Cut, Record, Sections};
use crate::segment::{Index, Segment, count, length, value_count};
use crate::terms::Terms;

/// One column of one segment as it was stored before: of kind 3, old multivalued. Only
/// [`convert`](crate::convert) takes it.
///
/// A row has the values between the offset at its number and the next, so there is one offset more
/// than rows. As for a [`Segment`], nothing is checked here, and values are 64-bit words, two for
/// each IpAddr.
#[derive(Clone, Debug, PartialEq, Eq)]
pub struct OldSegment {
    typ: ColumnType,
    rows: u32,
    offsets: Vec<u32>,
    values: Vec<u64>,
    terms: Terms,
    alive: Option<AliveSet>,
    alive_rows: u32,
    pair: Pair,
}

impl OldSegment {
    pub fn new(typ: ColumnType, rows: u32, offsets: Vec<u32>, values: Vec<u64>) -> OldSegment {
        let pair = Pair::of(typ, &values);
        OldSegment {
            typ,
            rows,
            offsets,
            values,
            terms: Terms::default(),
            alive: None,
            alive_rows: rows,
            pair,
        }
    }

    /// The segment with these terms, for values that are ordinals.
    pub fn with_terms<T: AsRef<[u8]>>(mut self, terms: impl IntoIterator<Item = T>) -> OldSegment {
        self.terms = terms.into_iter().collect();
        self
    }

    /// The segment with an alive set, which it keeps, and its number of alive rows.
    pub fn with_alive(mut self, alive: AliveSet) -> OldSegment {
        self.alive_rows = alive_number(self.rows.into(), Some(alive.words()));
        self.alive = Some(alive);
        self
    }

    /// The segment with the number of alive rows that was stored with it; a wrong one is refused.
    pub fn with_alive_rows(mut self, number: u32) -> OldSegment {
        self.alive_rows = number;
        self
    }

    /// The segment with the least and the greatest value that were stored with it; an untrue pair is
    /// refused.
    pub fn with_pair(mut self, pair: Pair) -> OldSegment {
        self.pair = pair;
        self
    }

    pub(crate) fn convert(self) -> Result<Segment, Refusal> {
        let term_lengths: Result<Vec<u32>, Refusal> = self.terms.iter().map(length).collect();
        let old = Cut {
            record: Record {
                typ: self.typ.code(),
                kind: kind::OLD_MULTIVALUED,
                rows: self.rows,
                ids: 0,
                offsets: length(&self.offsets)?,
                values: value_count(Some(self.typ), &self.values)?,
                terms: count(self.terms.len())?,
                flag: u32::from(self.alive.is_some()),
                alive_rows: self.alive_rows,
                pair: self.pair,
            },
            ids: &[],
            offsets: &self.offsets,
            values: &self.values,
            term_lengths: &term_lengths?,
            term_bytes: self.terms.bytes(),
            alive: self.alive.as_ref().map(AliveSet::words),
        };
        let Converted {
            record,
            ids,
            offsets,
        } = old.convert()?;
        let index = Index::NewMultivalued { ids, offsets };
        let rows = self.rows.into();
        let new = Segment::from_parts(Some(self.typ), index, rows, self.values, self.terms)
            .with_pair(record.pair);
        Ok(match self.alive {
            Some(alive) => new.with_alive(alive),
            None => new,
        })
    }
}

/// What is new in a converted segment.
struct Converted {
    record: Record,
    ids: Vec<u32>,
    offsets: Vec<u32>,
}

impl Cut<'_> {
    /// The space lent is always enough: a row with a value has one of the values.
    fn convert(&self) -> Result<Converted, Refusal> {
        let most = self.values.len().min(self.record.rows as usize);
        let (mut ids, mut offsets) = (vec![0; most], vec![0; most + 1]);
        let mut record = Record::default();
        match ffi::convert(self, &mut ids, &mut offsets, &mut record) {
            0 => {
                ids.truncate(record.ids as usize);
                offsets.truncate(record.offsets as usize);
                Ok(Converted {
                    record,
                    ids,
                    offsets,
                })
            }
            answer => Err(Refusal::from_answer(answer)),
        }
    }
}

impl Sections {
    /// Whether there is a segment of kind 3, old multivalued.
    pub fn has_old_segments(&self) -> bool {
        self.records.iter().any(Record::is_old)
    }

    /// Converts every segment of kind 3, old multivalued, to kind 4; all else stays as it is. The
    /// refusal is that of the first segment that can't be converted, or [`Refusal::Lengths`] if the
    /// lists don't fit the records; then nothing is changed.
    pub fn convert(&mut self) -> Result<(), Refusal> {
        if !self.has_old_segments() {
            return Ok(());
        }
        let (mut records, mut ids, mut offsets) = (Vec::new(), Vec::new(), Vec::new());
        for cut in self.cut().ok_or(Refusal::Lengths)? {
            if cut.record.is_old() {
                let new = cut.convert()?;
                records.push(new.record);
                ids.extend(new.ids);
                offsets.extend(new.offsets);
            } else {
                records.push(cut.record);
                ids.extend_from_slice(cut.ids);
                offsets.extend_from_slice(cut.offsets);
            }
        }
        (self.records, self.ids, self.offsets) = (records, ids, offsets);
        Ok(())
    }
}
