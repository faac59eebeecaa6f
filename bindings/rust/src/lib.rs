//! Joins the segments of one play-log column by the proved library of Jadmirus.
//!
//! A column is kept in segments. [`join`] makes them one: stacked, segment after segment, or in
//! the order of a list of addresses, from which withdrawn rows are left out. [`time_order`] gives
//! that list for a column of times. [`convert`] makes an old stored segment one that can be joined.
//! [`Segment::withdraw`] and [`Segment::reinstate`] change which rows of a segment are alive, that
//! is, not withdrawn. What can't be done is refused with a [`Refusal`], by its number.
//!
//! ```
//! use jadmirus::{Class, Order, Refusal, Segment, Value, join, time_order};
//!
//! # fn main() -> Result<(), Refusal> {
//! // Seven days of artists, a play a row. A jingle has no artist.
//! let days = [
//!     Segment::strs([Some("Nina Simone"), None, Some("Air")]),
//!     Segment::strs([Some("Björk")]),
//!     Segment::strs([Some("Air"), Some("Portishead")]),
//!     Segment::no_column(2), // two jingles: that day's log has no artists at all
//!     Segment::strs([Some("Portishead"), None]),
//!     Segment::strs([Some("Nina Simone")]),
//!     Segment::strs([None, Some("Can")]),
//! ];
//! let week = join(&days, Order::Stacked, None)?;
//! assert_eq!(week.rows(), 13);
//! assert_eq!(week.class(), Class::Optional);
//! assert_eq!(week.ids(), [0, 2, 3, 4, 5, 8, 10, 12]);
//! assert_eq!(week.terms().len(), 5); // each artist once
//! assert_eq!(week.row(3).collect::<Vec<_>>(), [Value::Str("Björk")]);
//!
//! // A month: that week and a long segment of another studio, in which a play was withdrawn.
//! let other = Segment::strs([Some("Can"), Some("Moondog"), Some("Air")]).without_rows([1]);
//! let artists = [Segment::from(week), other];
//!
//! // Both have a column of times. Rows without a time follow the play before them; at the start
//! // of a segment they go with the play after them.
//! let times = [
//!     Segment::date_times((0..13).map(|row| (row % 2 == 0).then_some(100 * row))),
//!     Segment::date_times([Some(150), Some(400), Some(1250)]).without_rows([1]),
//! ];
//! let order = time_order(&times)?;
//! let month = join(&artists, Order::Ordered(&order), None)?;
//! assert_eq!(month.rows(), 15);
//! assert_eq!(month.row(2).collect::<Vec<_>>(), [Value::Str("Can")]);
//! assert_eq!(month.row(14).collect::<Vec<_>>(), [Value::Str("Air")]);
//! // Moondog's only play is withdrawn, so the name is no longer kept.
//! assert!(month.terms().iter().all(|term| term != b"Moondog"));
//!
//! // It was broadcast after all: reinstated in both columns, it is in the month again.
//! let (mut artists, mut times) = (artists, times);
//! artists[1].reinstate(1)?;
//! times[1].reinstate(1)?;
//! let month = join(&artists, Order::Ordered(&time_order(&times)?), None)?;
//! assert_eq!((month.rows(), times[1].alive_rows()), (16, 3));
//! assert_eq!(month.row(7).collect::<Vec<_>>(), [Value::Str("Moondog")]);
//! # Ok(())
//! # }
//! ```
mod alive;
mod codes;
mod convert;
pub mod explain;
mod ffi;
mod ip;
mod joined;
mod listing;
mod pair;
mod refusal;
mod sections;
mod segment;
pub mod sheet;
mod terms;
mod wire;
mod withdraw;

pub use alive::AliveSet;
pub use codes::{Class, ColumnType};
pub use convert::OldSegment;
pub use ip::{ip_addrs, ip_words};
pub use joined::{Joined, Value};
pub use pair::Pair;
pub use refusal::Refusal;
pub use sections::{Address, Record, Sections};
pub use segment::{Index, Segment};
pub use terms::Terms;
pub use wire::{WireError, WireFault};
pub use withdraw::Marked;

/// In which order the rows of a joined column stand.
#[derive(Clone, Copy, Debug, PartialEq, Eq)]
pub enum Order<'a> {
    /// Segment after segment.
    Stacked,
    /// As the addresses say: each alive row once.
    Ordered(&'a [Address]),
}

/// Joins the segments of one column, to the required type if one is given.
///
/// The space for the result is taken here, by what the segments hold. A number of rows or a list
/// that 32 bits can't count is refused with [`Refusal::TooLarge`] or [`Refusal::Lengths`] before
/// the library is called, and so is an alive set of a wrong length.
pub fn join(
    segments: &[Segment],
    order: Order<'_>,
    required: Option<ColumnType>,
) -> Result<Joined, Refusal> {
    let mut sections = Sections::of(segments)?;
    sections.required = codes::code_of(required);
    if let Order::Ordered(addresses) = order {
        sections.mode = codes::mode::ORDERED;
        sections.addresses = addresses.to_vec();
    }
    sections.join()
}

/// The alive rows of columns of times (or of none) sorted by key, then segment, then row. A row's
/// key is its time, else the last time before it in its segment, else the first time after it in
/// its segment. The rows of a segment without any time stand before all times. Times of withdrawn
/// rows count in this.
///
/// [`Refusal::OutputSpace`] means that there is no memory for so many addresses.
///
/// ```
/// use jadmirus::{Refusal, Segment, time_order};
///
/// # fn main() -> Result<(), Refusal> {
/// let times = [
///     Segment::date_times([Some(10), None, Some(30)]), // a jingle after the first play
///     Segment::date_times([None, Some(20)]), // a jingle before the clock was set
///     Segment::no_column(1), // no times at all
/// ];
/// let order = time_order(&times)?.into_iter().map(|a| (a.segment, a.row));
/// assert!(order.eq([(2, 0), (0, 0), (0, 1), (1, 0), (1, 1), (0, 2)]));
/// # Ok(())
/// # }
/// ```
pub fn time_order(segments: &[Segment]) -> Result<Vec<Address>, Refusal> {
    Sections::of(segments)?.time_order()
}

/// Converts a stored segment of kind 3, old multivalued, to kind 4, which can be joined. Each row
/// has the same values in the same order afterwards, and terms, alive set, number of alive rows and
/// pair are kept.
///
/// It is refused with [`Refusal::Lengths`], [`Refusal::RowLists`], [`Refusal::Contents`] or
/// [`Refusal::AliveSet`], the first of them that applies.
///
/// ```
/// use jadmirus::{ColumnType, Index, OldSegment, Order, Refusal, convert, join};
///
/// # fn main() -> Result<(), Refusal> {
/// // Three plays: one with two artists, a jingle, one with one artist.
/// let stored = OldSegment::new(ColumnType::U64, 3, vec![0, 2, 2, 3], vec![7, 8, 9]);
/// let segment = convert(stored)?;
/// let (ids, offsets) = (vec![0, 2], vec![0, 2, 3]);
/// assert_eq!(segment.index(), &Index::NewMultivalued { ids, offsets });
/// assert_eq!(segment.values(), [7, 8, 9]);
/// assert_eq!(join(&[segment], Order::Stacked, None)?.rows(), 3);
/// # Ok(())
/// # }
/// ```
pub fn convert(segment: OldSegment) -> Result<Segment, Refusal> {
    segment.convert()
}
