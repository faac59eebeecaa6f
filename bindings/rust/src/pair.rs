use crate::codes::ColumnType;
use crate::ffi;
use std::fmt;

/// The least and the greatest value that a record holds, as 64-bit words.
///
/// They are those of all stored values, also of withdrawn rows, of a column of type I64, whose
/// words are compared as signed numbers, or U64. For other types and for columns without values
/// both are 0. Every call that reads the values refuses another pair with
/// [`Refusal::Contents`](crate::Refusal::Contents).
///
/// ```
/// use jadmirus::{ColumnType, Pair};
///
/// let votes = [3, -7, 5].map(|vote: i64| vote as u64);
/// let pair = Pair::of(ColumnType::I64, &votes);
/// assert_eq!((pair.least() as i64, pair.greatest()), (-7, 5));
/// assert_eq!(Pair::of(ColumnType::DateTime, &votes), Pair::default());
/// ```
#[repr(C)]
#[derive(Clone, Copy, Default, PartialEq, Eq)]
pub struct Pair {
    /// In halves, the low one first, since a record in memory is of 32-bit numbers.
    least: [u32; 2],
    greatest: [u32; 2],
}

impl Pair {
    /// Any two words: what a log has stored.
    pub const fn new(least: u64, greatest: u64) -> Pair {
        Pair {
            least: halves(least),
            greatest: halves(greatest),
        }
    }

    /// The pair of a column's values, which are all stored ones, as words.
    pub fn of(typ: ColumnType, values: &[u64]) -> Pair {
        Pair::of_code(typ.code(), values)
    }

    /// For a type by its number, which may be that of no column, or unknown.
    pub(crate) fn of_code(typ: u32, values: &[u64]) -> Pair {
        let [least, greatest] = ffi::pair(typ, values);
        Pair::new(least, greatest)
    }

    pub fn least(self) -> u64 {
        word(self.least)
    }

    pub fn greatest(self) -> u64 {
        word(self.greatest)
    }
}

impl fmt::Debug for Pair {
    fn fmt(&self, f: &mut fmt::Formatter<'_>) -> fmt::Result {
        f.debug_struct("Pair")
            .field("least", &self.least())
            .field("greatest", &self.greatest())
            .finish()
    }
}

const fn halves(word: u64) -> [u32; 2] {
    [word as u32, (word >> 32) as u32]
}

fn word([low, high]: [u32; 2]) -> u64 {
    u64::from(low) | u64::from(high) << 32
}

#[cfg(test)]
mod tests {
    use super::*;

    const WORDS: [u64; 8] = [
        0,
        1,
        u32::MAX as u64,
        1 << 32,
        0x1234_5678_9abc_def0,
        i64::MAX as u64,
        1 << 63,
        u64::MAX,
    ];

    #[test]
    fn words_come_back() {
        for least in WORDS {
            for greatest in WORDS {
                let pair = Pair::new(least, greatest);
                assert_eq!((pair.least(), pair.greatest()), (least, greatest));
            }
        }
        let pair = Pair::new(1, 2 << 32 | 3);
        assert_eq!((pair.least, pair.greatest), ([1, 0], [3, 2]));
        let text = "Pair { least: 1, greatest: 8589934595 }";
        assert_eq!(format!("{pair:?}"), text);
    }

    /// The library's search beside a plain one, for columns of up to nine values.
    #[test]
    fn pairs_of_values() {
        for start in 0..WORDS.len() {
            for number in 0..10 {
                let words = WORDS.into_iter().cycle().skip(start).step_by(3);
                let values: Vec<u64> = words.take(number).collect();
                let signed = || values.iter().map(|&word| word as i64);
                let plain = || values.iter().copied();
                let of = |typ| Pair::of(typ, &values);
                let ends = |least: Option<u64>, greatest: Option<u64>| {
                    Pair::new(least.unwrap_or(0), greatest.unwrap_or(0))
                };
                let i64s = ends(
                    signed().min().map(|value| value as u64),
                    signed().max().map(|value| value as u64),
                );
                assert_eq!(of(ColumnType::I64), i64s, "{values:?}");
                let u64s = ends(plain().min(), plain().max());
                assert_eq!(of(ColumnType::U64), u64s, "{values:?}");
                for typ in (2..9).chain([255, 1 << 31, u32::MAX]) {
                    assert_eq!(Pair::of_code(typ, &values), Pair::default(), "{typ}");
                }
            }
        }
    }
}
