/// Byte strings one after another: a dictionary's terms, each known by its ordinal.
#[derive(Clone, Debug, Default, PartialEq, Eq)]
pub struct Terms {
    bytes: Vec<u8>,
    /// Where each term ends in the bytes.
    ends: Vec<usize>,
}

impl Terms {
    pub fn len(&self) -> usize {
        self.ends.len()
    }

    pub fn is_empty(&self) -> bool {
        self.ends.is_empty()
    }

    /// The term of an ordinal.
    pub fn get(&self, ordinal: usize) -> Option<&[u8]> {
        let end = *self.ends.get(ordinal)?;
        let start = ordinal.checked_sub(1).map_or(0, |before| self.ends[before]);
        Some(&self.bytes[start..end])
    }

    pub fn iter(&self) -> impl ExactSizeIterator<Item = &[u8]> {
        (0..self.len()).map(|ordinal| self.get(ordinal).unwrap_or_default())
    }

    /// All terms' bytes, one after another.
    pub fn bytes(&self) -> &[u8] {
        &self.bytes
    }

    pub fn push(&mut self, term: &[u8]) {
        self.bytes.extend_from_slice(term);
        self.ends.push(self.bytes.len());
    }

    /// The terms of these lengths, which sum up to the number of bytes.
    pub(crate) fn from_lengths(lengths: &[u32], bytes: Vec<u8>) -> Terms {
        let mut end = 0;
        let ends = lengths.iter().map(|&length| {
            end += length as usize;
            end
        });
        Terms {
            ends: ends.collect(),
            bytes,
        }
    }
}

impl<T: AsRef<[u8]>> FromIterator<T> for Terms {
    fn from_iter<I: IntoIterator<Item = T>>(terms: I) -> Terms {
        let mut all = Terms::default();
        terms.into_iter().for_each(|term| all.push(term.as_ref()));
        all
    }
}
