//! The time order without the joiner: a list of key, segment and row made from the segments, sorted, and
//! the addresses written. As fast as it can be had: no branch of the list's making depends on whether a
//! row has a time or is alive, and the element is one of two, whichever is faster.
use std::time::Duration;

use super::mean;
use crate::wire::{Seg, words_of};

/// A segment and its times as words.
pub struct Timed<'a> {
    segment: &'a Seg,
    times: Vec<u64>,
}

pub fn timed(segs: &[Seg]) -> Vec<Timed<'_>> {
    segs.iter().map(|segment| Timed { segment, times: words_of(segment.ty, &segment.values) }).collect()
}

/// An element of the list.
pub trait Element: Copy + Ord {
    fn new(time: u64, segment: u32, row: u32) -> Self;
    fn address(self) -> [u32; 2];
}

impl Element for (i64, u32, u32) {
    fn new(time: u64, segment: u32, row: u32) -> Self {
        (time as i64, segment, row)
    }
    fn address(self) -> [u32; 2] {
        [self.1, self.2]
    }
}

/// The three in one number, the time's sign bit turned.
impl Element for u128 {
    fn new(time: u64, segment: u32, row: u32) -> Self {
        ((time ^ 1 << 63) as u128) << 64 | (segment as u128) << 32 | row as u128
    }
    fn address(self) -> [u32; 2] {
        [(self >> 32) as u32, self as u32]
    }
}

/// The list, which is in use up to `rows`, and the addresses.
pub struct BySort<E> {
    list: Vec<E>,
    rows: usize,
    addresses: Vec<[u32; 2]>,
}

impl<E: Element> BySort<E> {
    /// With both lists already touched.
    pub fn new(segs: &[Timed]) -> BySort<E> {
        let rows: usize = segs.iter().map(|s| s.segment.rows as usize).sum();
        BySort { list: vec![E::new(1, 1, 1); rows + 1], rows: 0, addresses: vec![[1; 2]; rows] }
    }

    /// Of the sort alone, and of the whole.
    pub fn times(&mut self, segs: &[Timed]) -> [Duration; 2] {
        self.fill(segs);
        [mean(1, || self.sort()), mean(1, || self.whole(segs))]
    }

    fn whole(&mut self, segs: &[Timed]) {
        self.fill(segs);
        self.sort();
        for (address, element) in self.addresses.iter_mut().zip(&self.list[..self.rows]) {
            *address = element.address();
        }
        std::hint::black_box(&mut self.addresses);
    }

    /// Puts the alive rows into the list, in segment and row order. Each segment has a time.
    fn fill(&mut self, segs: &[Timed]) {
        self.rows = 0;
        for (segment, Timed { segment: s, times }) in (0..).zip(segs) {
            let full = |row: u32| times[row as usize];
            let mut before = 0;
            let optional = |row: u32| {
                before += (before < s.ids.len() && s.ids[before] == row) as usize;
                times[before.saturating_sub(1)]
            };
            match (s.kind, &s.alive) {
                (1, None) => self.append(segment, s.rows, full, |_| 1),
                (1, Some(set)) => {
                    self.append(segment, s.rows, full, |row| set[row as usize / 64] >> (row % 64))
                }
                (2, None) => self.append(segment, s.rows, optional, |_| 1),
                (kind, _) => panic!("not measured: kind {kind}"),
            }
        }
    }

    /// A withdrawn row's place is taken by the next row.
    fn append(
        &mut self,
        segment: u32,
        rows: u32,
        mut time: impl FnMut(u32) -> u64,
        alive: impl Fn(u32) -> u64,
    ) {
        let (list, mut place) = (&mut self.list[self.rows..], 0);
        for row in 0..rows {
            list[place] = E::new(time(row), segment, row);
            place += (alive(row) & 1) as usize;
        }
        self.rows += place;
    }

    fn sort(&mut self) {
        self.list[..self.rows].sort_unstable();
    }

    pub fn addresses(&self) -> &[[u32; 2]] {
        &self.addresses[..self.rows]
    }
}

#[cfg(test)]
mod tests {
    use super::super::inputs::order_lines;
    use super::*;
    use crate::order;

    #[test]
    fn is_the_time_order() {
        fn addresses<E: Element>(segs: &[Seg]) -> Vec<[u32; 2]> {
            let timed = timed(segs);
            let mut by_sort = BySort::<E>::new(&timed);
            by_sort.whole(&timed);
            by_sort.addresses().to_vec()
        }
        for line in order_lines("") {
            let segs = line.segments(3, 1_000);
            let expected = order::addresses(&segs);
            assert_eq!(addresses::<(i64, u32, u32)>(&segs), expected, "{}", line.name());
            assert_eq!(addresses::<u128>(&segs), expected, "{}", line.name());
        }
    }
}
