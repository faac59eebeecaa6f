//! Plays withdrawn and reinstated: a row's bit in the alive set, and the number of alive rows.
use crate::ffi::{self, Mark};
use crate::refusal::Refusal;
use crate::sections::{Record, Sections};
use crate::segment::Segment;
use std::ops::Range;

/// What withdrawing or reinstating a row did.
#[derive(Clone, Copy, Debug, PartialEq, Eq, Hash)]
pub enum Marked {
    /// The row is now what it was to be, and the number of alive rows is one less or one more.
    Changed,
    /// The row was so already, and nothing changed.
    Unchanged,
}

/// Plays withdrawn and reinstated.
///
/// The calls are refused, the first that applies, with [`Refusal::Lengths`] for an alive set that
/// has not one word for each 64 rows or part of them, [`Refusal::AliveSet`] for one that marks a
/// row past the last and for a wrong number of alive rows, [`Refusal::AbsentRow`] for a row that
/// the segment doesn't have, and [`Refusal::NoAliveSet`]. Then nothing is changed. (A segment of so
/// many rows that 32 bits can't count them is refused with [`Refusal::TooLarge`], as everywhere.)
///
/// A segment without an alive set gets one in which all rows are alive by
/// [`without_rows([])`](Segment::without_rows). It may then join otherwise than before, since the
/// class of a column with an alive set goes by its alive rows.
///
/// Each call reads the whole alive set once, so many rows are better handed over in one call.
///
/// ```
/// use jadmirus::{Address, Marked, Order, Refusal, Segment, Value, join};
///
/// # fn main() -> Result<(), Refusal> {
/// let mut artists = Segment::strs([["Can"], ["Air"], ["Moondog"]]).without_rows([]);
/// assert_eq!(artists.alive_rows(), 3);
/// assert_eq!(artists.withdraw(1)?, Marked::Changed);
/// assert_eq!(artists.withdraw(1)?, Marked::Unchanged);
/// assert_eq!(artists.alive_rows(), 2);
/// assert_eq!(artists.withdraw(3), Err(Refusal::AbsentRow));
///
/// let rows = |rows: &[u32]| -> Vec<Address> {
///     rows.iter().map(|&row| Address { segment: 0, row }).collect()
/// };
/// let month = join(&[artists.clone()], Order::Ordered(&rows(&[0, 2])), None)?;
/// assert_eq!(month.row(1).next(), Some(Value::Str("Moondog")));
///
/// assert_eq!(artists.reinstate(1)?, Marked::Changed);
/// let month = join(&[artists.clone()], Order::Ordered(&rows(&[0, 1, 2])), None)?;
/// assert_eq!(month.row(1).next(), Some(Value::Str("Air")));
///
/// // Several rows at once, of which some may be withdrawn already.
/// assert_eq!(artists.withdraw_rows(&[0, 1])?, 2);
/// assert_eq!(artists.withdraw_rows(&[1, 2])?, 1);
/// assert_eq!(artists.alive_rows(), 0);
/// # Ok(())
/// # }
/// ```
impl Segment {
    /// Withdraws a row: ordered joins and time orders leave it out, until it is reinstated.
    pub fn withdraw(&mut self, row: u32) -> Result<Marked, Refusal> {
        self.lend_alive(|record, alive| one(Mark::Withdrawn, record, alive, row))
    }

    /// Reinstates a row that was withdrawn.
    pub fn reinstate(&mut self, row: u32) -> Result<Marked, Refusal> {
        self.lend_alive(|record, alive| one(Mark::Alive, record, alive, row))
    }

    /// Withdraws all these rows, or none of them if the call is refused. A row may be named twice.
    /// Gives the number of rows that changed.
    pub fn withdraw_rows(&mut self, rows: &[u32]) -> Result<u32, Refusal> {
        self.lend_alive(|record, alive| several(Mark::Withdrawn, record, alive, rows))
    }

    /// Reinstates all these rows, or none of them, as [`withdraw_rows`](Segment::withdraw_rows)
    /// withdraws them.
    pub fn reinstate_rows(&mut self, rows: &[u32]) -> Result<u32, Refusal> {
        self.lend_alive(|record, alive| several(Mark::Alive, record, alive, rows))
    }
}

/// Plays of one segment withdrawn and reinstated.
///
/// The calls are refused as [a segment's](Segment::withdraw) are, and with
/// [`Refusal::UnknownCode`] for an unknown flag, after [`Refusal::Lengths`]. If all alive words
/// together are not as many as the records announce, it can't be told whose they are, and that is
/// [`Refusal::Lengths`] too. Other lists and other segments play no part.
///
/// # Panics
///
/// If there is no such segment.
impl Sections {
    /// Withdraws all these rows of a segment, or none of them if the call is refused. Gives the
    /// number of rows that changed.
    pub fn withdraw_rows(&mut self, segment: usize, rows: &[u32]) -> Result<u32, Refusal> {
        self.mark_rows(Mark::Withdrawn, segment, rows)
    }

    /// Reinstates all these rows of a segment, or none of them if the call is refused.
    pub fn reinstate_rows(&mut self, segment: usize, rows: &[u32]) -> Result<u32, Refusal> {
        self.mark_rows(Mark::Alive, segment, rows)
    }

    fn mark_rows(&mut self, mark: Mark, segment: usize, rows: &[u32]) -> Result<u32, Refusal> {
        let part = self.alive_part(segment).ok_or(Refusal::Lengths)?;
        let alive = &mut self.alive[part];
        several(mark, &mut self.records[segment], alive, rows)
    }

    /// Where a segment's alive words stand, if there are as many as the records announce.
    pub(crate) fn alive_part(&self, segment: usize) -> Option<Range<usize>> {
        let words = |records: &[Record]| records.iter().map(Record::alive_words).sum();
        let (start, end) = (
            words(&self.records[..segment]),
            words(&self.records[..=segment]),
        );
        let all: usize = words(&self.records);
        (all == self.alive.len()).then_some(start..end)
    }
}

fn one(mark: Mark, record: &mut Record, alive: &mut [u64], row: u32) -> Result<Marked, Refusal> {
    let mut changed = [0];
    let answer = ffi::mark_row(mark, record, alive, row, &mut changed);
    match (answer, changed) {
        (0, [0]) => Ok(Marked::Unchanged),
        (0, _) => Ok(Marked::Changed),
        (answer, _) => Err(Refusal::from_answer(answer)),
    }
}

fn several(
    mark: Mark,
    record: &mut Record,
    alive: &mut [u64],
    rows: &[u32],
) -> Result<u32, Refusal> {
    let mut changed = [0];
    match ffi::mark_rows(mark, record, alive, rows, &mut changed) {
        // No more rows than the segment has.
        0 => Ok(changed[0] as u32),
        answer => Err(Refusal::from_answer(answer)),
    }
}
