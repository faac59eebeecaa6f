//! Least and greatest values of a column, asked for, that are wrong on purpose.
use super::pairs::{self, PairOf};
use super::{Slip, slip};
use crate::model;
use crate::ours::Run;
use crate::table;
use crate::wire::{Pair, values_of};

#[derive(Clone, Copy)]
pub enum How {
    /// Another pair of type and values.
    Of(PairOf),
    /// Something else is left in memory, by the type and the words.
    Leave(fn(u32, &[u64], &mut Run<u64>)),
}

const fn wrong(name: &'static str, how: How) -> Slip {
    slip(name, super::How::Asked(how))
}

pub const SLIPS: &[Slip] = &[
    wrong("pair: from 0", How::Of(pairs::from_zero)),
    wrong(
        "pair: the least value from 0",
        How::Of(|ty, v| [pairs::from_zero(ty, v)[0], model::pair(ty, v)[1]]),
    ),
    wrong(
        "pair: the greatest value from 0",
        How::Of(|ty, v| [model::pair(ty, v)[0], pairs::from_zero(ty, v)[1]]),
    ),
    wrong("pair: the unsigned order for I64", How::Of(pairs::unsigned)),
    wrong("pair: the signed order for U64", How::Of(pairs::signed)),
    wrong("pair: by the sign of the difference", How::Of(pairs::by_difference)),
    wrong("pair: negative numbers by their size", How::Of(pairs::by_size)),
    wrong("pair: as doubles", How::Of(pairs::as_doubles)),
    wrong("pair: by the high halves", How::Of(pairs::by_high_halves)),
    wrong("pair: by the low halves", How::Of(pairs::by_low_halves)),
    wrong("pair: without the first value", How::Of(pairs::but_first)),
    wrong("pair: without the last value", How::Of(pairs::but_last)),
    wrong("pair: without the values after the last four", How::Of(pairs::whole_fours)),
    wrong("pair: of each fourth value", How::Of(pairs::each_fourth)),
    wrong("pair: of the first and the last value", How::Of(pairs::outer)),
    wrong("pair: the first value twice", How::Of(|ty, v| model::pair(ty, &v[..v.len().min(1)]))),
    wrong("pair: the least value twice", How::Of(|ty, v| [model::pair(ty, v)[0]; 2])),
    wrong("pair: the greatest value twice", How::Of(|ty, v| [model::pair(ty, v)[1]; 2])),
    wrong("pair: the greatest value first", How::Of(pairs::exchanged)),
    wrong("pair: low halves", How::Of(|ty, v| model::pair(ty, v).map(|word| word as u32 as u64))),
    wrong("pair: without values where the search begins", How::Of(pairs::beginning)),
    wrong("pair: of times", How::Of(pairs::of_times)),
    wrong("pair: of doubles", How::Of(pairs::of_doubles)),
    wrong("pair: of ordinals", How::Of(pairs::of_ordinals)),
    wrong("pair: of Bool", How::Of(pairs::of_bools)),
    wrong("pair: of addresses", How::Of(pairs::of_addresses)),
    wrong("pair: of no column", How::Of(|ty, v| pairs::of_type(255, ty, v))),
    wrong(
        "pair: of unknown types",
        How::Of(|ty, v| if table::known_type(ty) { model::pair(ty, v) } else { model::pair(1, v) }),
    ),
    wrong("pair: by the type's low byte", How::Of(|ty, v| model::pair(ty as u8 as u32, v))),
    wrong("pair: by the type's low half", How::Of(|ty, v| model::pair(ty as u16 as u32, v))),
    wrong("pair: a number past the two", How::Leave(|_, _, lent| lent.past_the_end(0))),
    wrong(
        "pair: the greatest value not written where there are no values",
        How::Leave(|_, words, lent| {
            if words.is_empty() {
                lent.lent()[1] = 1;
            }
        }),
    ),
];

/// The model's pair of a type and words, with a slip or none.
pub fn pair(how: Option<How>, ty: u32, words: &[u64], lent: &mut Run<u64>) {
    let values = values_of(ty, words);
    let pair: Pair = match how {
        Some(How::Of(of)) => of(ty, &values),
        _ => model::pair(ty, &values),
    };
    lent.lent().copy_from_slice(&pair);
    if let Some(How::Leave(f)) = how {
        f(ty, words, lent);
    }
}
