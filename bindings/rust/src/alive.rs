/// Which rows of a segment are alive, that is, not withdrawn: one bit for each row.
#[derive(Clone, Debug, PartialEq, Eq)]
pub struct AliveSet {
    words: Vec<u64>,
}

impl AliveSet {
    /// All of that many rows.
    pub fn all(rows: u32) -> AliveSet {
        let mut words = vec![u64::MAX; words_for(rows)];
        if let (Some(last), used @ 1..) = (words.last_mut(), rows % 64) {
            *last >>= 64 - used;
        }
        AliveSet { words }
    }

    /// One word for each 64 rows or part of them, row 0 in the lowest bit of the first.
    pub fn from_words(words: Vec<u64>) -> AliveSet {
        AliveSet { words }
    }

    pub fn words(&self) -> &[u64] {
        &self.words
    }

    pub(crate) fn words_mut(&mut self) -> &mut [u64] {
        &mut self.words
    }

    pub fn is_alive(&self, row: u32) -> bool {
        is_alive(&self.words, row)
    }

    /// Withdraws a row of a set that is no segment's yet; [`Segment::withdraw`] changes a segment's
    /// own. A row past the set's words is none of its rows.
    ///
    /// [`Segment::withdraw`]: crate::Segment::withdraw
    pub fn withdraw(&mut self, row: u32) {
        if let Some(word) = self.words.get_mut(row as usize / 64) {
            *word &= !(1 << (row % 64));
        }
    }
}

/// How many words an alive set of that many rows has.
pub(crate) fn words_for(rows: u32) -> usize {
    rows.div_ceil(64) as usize
}

/// The number of alive rows that a record of so many rows holds: that of the set bits, or of all
/// rows where there is no alive set. What 32 bits can't count is refused, whatever stands there.
pub(crate) fn alive_number(rows: u64, alive: Option<&[u64]>) -> u32 {
    let set_bits = |words: &[u64]| words.iter().map(|w| u64::from(w.count_ones())).sum();
    u32::try_from(alive.map_or(rows, set_bits)).unwrap_or(u32::MAX)
}

pub(crate) fn is_alive(words: &[u64], row: u32) -> bool {
    words
        .get(row as usize / 64)
        .is_some_and(|word| word >> (row % 64) & 1 == 1)
}
