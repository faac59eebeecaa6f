//! Joiners that go wrong with least and greatest values: the records' own, what is decided by them, and the
//! joined column's.
use super::{How, Slip, slip};
use crate::model;
use crate::ours::PAIR;
use crate::table::{self, Call};
use crate::wire::{IP, Input, Listing, Outcome, Pair, Seg};

/// A pair of a type and values.
pub type PairOf = fn(u32, &[u128]) -> Pair;

pub const SLIPS: &[Slip] = &[
    slip("5 without the pairs", How::Check(5, without)),
    slip("5 by the least values alone", How::Check(5, |c| by(c, |p, s| p[0] != right(s)[0]))),
    slip("5 by the greatest values alone", How::Check(5, |c| by(c, |p, s| p[1] != right(s)[1]))),
    slip(
        "5 by the pairs of integers alone",
        How::Check(5, |c| by(c, |p, s| table::untrue(p, s) && s.ty <= 1)),
    ),
    slip(
        "5 by the pairs of other types alone",
        How::Check(5, |c| by(c, |p, s| table::untrue(p, s) && s.ty > 1)),
    ),
    slip("5 by the pairs not for I64", How::Check(5, |c| by(c, |p, s| table::untrue(p, s) && s.ty != 0))),
    slip(
        "5 by the pairs not for no column",
        How::Check(5, |c| by(c, |p, s| table::untrue(p, s) && s.ty != 255)),
    ),
    slip(
        "5 by the pairs not without values",
        How::Check(5, |c| by(c, |p, s| table::untrue(p, s) && !s.values.is_empty())),
    ),
    slip(
        "5 by the pairs not for dropped columns",
        How::Check(5, |c| by(c, |p, s| table::untrue(p, s) && (model::held(s) || s.ty == 255))),
    ),
    slip(
        "5 by the pairs not with an alive set",
        How::Check(5, |c| by(c, |p, s| table::untrue(p, s) && s.alive.is_none())),
    ),
    slip(
        "5 by the pairs not without an alive set",
        How::Check(5, |c| by(c, |p, s| table::untrue(p, s) && s.alive.is_some())),
    ),
    slip(
        "5 by the pairs in stacked joins alone",
        How::Check(5, |c| without(c) || c.sections.mode == 0 && table::pairs(c)),
    ),
    slip(
        "5 by the pairs in ordered joins alone",
        How::Check(5, |c| without(c) || c.sections.mode == 1 && table::pairs(c)),
    ),
    slip(
        "5 by the first segment's pair alone",
        How::Check(5, |c| without(c) || table::paired(c).take(1).any(|(p, s)| table::untrue(p, s))),
    ),
    slip(
        "5 by the last segment's pair alone",
        How::Check(5, |c| without(c) || table::paired(c).last().is_some_and(|(p, s)| table::untrue(p, s))),
    ),
    slip("5 by the pairs put together", How::Check(5, |c| without(c) || together_untrue(c))),
    slip(
        "5 by the pairs' low halves",
        How::Check(5, |c| by(c, |p, s| p.map(|w| w as u32) != right(s).map(|w| w as u32))),
    ),
    slip(
        "5 by the pairs' high halves",
        How::Check(5, |c| by(c, |p, s| p.map(|w| w >> 32) != right(s).map(|w| w >> 32))),
    ),
    slip("5 not for 0 and 0", How::Check(5, |c| by(c, |p, s| table::untrue(p, s) && p != [0, 0]))),
    slip(
        "5 not for the two exchanged",
        How::Check(5, |c| by(c, |p, s| table::untrue(p, s) && [p[1], p[0]] != right(s))),
    ),
    slip(
        "5 not for bounds that no value reaches",
        How::Check(5, |c| by(c, |p, s| model::pair(s.ty, &with(s, p)) != p)),
    ),
    slip(
        "5 not for a pair inside the values",
        How::Check(5, |c| by(c, |p, s| model::pair(s.ty, &with(s, p)) != right(s))),
    ),
    slip("5 by the pair of the alive rows' values", How::Check(5, |c| by(c, |p, s| p != alive(s)))),
    slip("5 by the pair of the rows' first values", How::Check(5, |c| by(c, |p, s| p != first_values(s)))),
    slip("5 by pairs from 0", How::Check(5, |c| by_pair(c, from_zero))),
    slip("5 by the unsigned order for I64", How::Check(5, |c| by_pair(c, unsigned))),
    slip("5 by the signed order for U64", How::Check(5, |c| by_pair(c, signed))),
    slip("5 by the sign of the difference", How::Check(5, |c| by_pair(c, by_difference))),
    slip("5 by negative numbers' sizes", How::Check(5, |c| by_pair(c, by_size))),
    slip("5 by pairs found as doubles", How::Check(5, |c| by_pair(c, as_doubles))),
    slip("5 by the order of the high halves", How::Check(5, |c| by_pair(c, by_high_halves))),
    slip("5 by the order of the low halves", How::Check(5, |c| by_pair(c, by_low_halves))),
    slip("5 by pairs without the first value", How::Check(5, |c| by_pair(c, but_first))),
    slip("5 by pairs without the last value", How::Check(5, |c| by_pair(c, but_last))),
    slip("5 by pairs without the values after the last four", How::Check(5, |c| by_pair(c, whole_fours))),
    slip("5 by pairs of each fourth value", How::Check(5, |c| by_pair(c, each_fourth))),
    slip("5 by the first and the last value", How::Check(5, |c| by_pair(c, outer))),
    slip("5 by pairs where the search begins", How::Check(5, |c| by_pair(c, beginning))),
    slip("5 by pairs of times", How::Check(5, |c| by_pair(c, of_times))),
    slip("5 by pairs of doubles", How::Check(5, |c| by_pair(c, of_doubles))),
    slip("5 by pairs of ordinals", How::Check(5, |c| by_pair(c, of_ordinals))),
    slip("5 by pairs of Bool", How::Check(5, |c| by_pair(c, of_bools))),
    slip("5 by pairs of addresses", How::Check(5, |c| by_pair(c, of_addresses))),
    slip(
        "3 for type 255 with a pair",
        How::Check(3, |c| {
            table::unknown(c) || c.sections.records.iter().any(|r| r[0] == 255 && r.pair() != [0, 0])
        }),
    ),
    slip("the pairs tested before 3", How::PairsAfter(2)),
    slip("the pairs tested before 19", How::PairsAfter(3)),
    slip("the pairs tested before 4", How::PairsAfter(19)),
    slip("the pairs tested after 6", How::PairsAfter(6)),
    slip("the pairs tested after 7", How::PairsAfter(7)),
    slip("the pairs tested after 8", How::PairsAfter(8)),
    slip("the pairs tested after 9", How::PairsAfter(9)),
    slip("the pairs tested after 10", How::PairsAfter(10)),
    slip("the pairs tested after 11", How::PairsAfter(11)),
    slip("the type by the alive rows' pairs", How::Read(|input| decide(input, model::held, alive))),
    slip(
        "the type by the dropped columns' pairs too",
        How::Read(|input| decide(input, |s| s.ty != 255, right)),
    ),
    slip(
        "the type by the greatest I64 value",
        How::Read(|input| decide(input, model::held, |s| [right(s)[1]; 2])),
    ),
    slip(
        "the type by the least U64 value",
        How::Read(|input| decide(input, model::held, |s| [right(s)[0]; 2])),
    ),
    slip(
        "the type by the unsigned least value",
        How::Read(|input| decide(input, model::held, |s| unsigned(s.ty, &s.values))),
    ),
    slip("10 by the alive rows' pairs", How::Check(10, |c| types_by(c, alive))),
    slip("10 by the other end", How::Check(10, |c| types_by(c, |s| exchanged(s.ty, &s.values)))),
    slip("10 by the unsigned least value", How::Check(10, |c| types_by(c, |s| unsigned(s.ty, &s.values)))),
    slip(
        "joined pair: the held columns' put together",
        How::Pair(|input, l| together(input, l, model::held)),
    ),
    slip(
        "joined pair: the held columns' put together when ordered",
        How::Pair(|input, l| if input.mode == 1 { together(input, l, model::held) } else { l.pair }),
    ),
    slip(
        "joined pair: the put together ones of columns with an alive set of all rows",
        How::Pair(|input, l| {
            let thinned = |s: &Seg| (0..s.rows).any(|row| !s.is_alive(row));
            let all = || input.segs.iter().filter(|s| model::held(s)).all(|s| s.rows <= 64 || !thinned(s));
            if all() { together(input, l, model::held) } else { l.pair }
        }),
    ),
    slip("joined pair: with the dropped columns'", How::Pair(|input, l| together(input, l, |s| s.ty != 255))),
    slip(
        "joined pair: with 0 and 0 of columns without values",
        How::Pair(|input, l| match l.ty {
            0 | 1 if input.segs.iter().any(|s| s.values.is_empty()) => from_zero(l.ty, &l.values),
            _ => l.pair,
        }),
    ),
    slip("joined pair: the first held column's", How::Pair(|input, l| of_held(input, l, 0))),
    slip(
        "joined pair: the last held column's",
        How::Pair(|input, l| {
            of_held(input, l, input.segs.iter().filter(|s| model::held(s)).count().wrapping_sub(1))
        }),
    ),
    slip("joined pair: 0 and 0", How::Pair(|_, _| [0, 0])),
    slip(
        "joined pair: 0 and 0 when ordered",
        How::Pair(|input, l| if input.mode == 1 { [0, 0] } else { l.pair }),
    ),
    slip(
        "joined pair: 0 and 0 when stacked",
        How::Pair(|input, l| if input.mode == 0 { [0, 0] } else { l.pair }),
    ),
    slip(
        "joined pair: 0 and 0 of coerced columns",
        How::Pair(|input, l| {
            let coerced = input.segs.iter().any(|s| model::held(s) && s.ty != l.ty);
            if coerced { [0, 0] } else { l.pair }
        }),
    ),
    slip(
        "joined pair: 0 and 0 with an alive set",
        How::Pair(|input, l| if input.segs.iter().any(|s| s.alive.is_some()) { [0, 0] } else { l.pair }),
    ),
    slip("joined pair: from 0", How::Pair(|_, l| from_zero(l.ty, &l.values))),
    slip("joined pair: the unsigned order for I64", How::Pair(|_, l| unsigned(l.ty, &l.values))),
    slip("joined pair: the signed order for U64", How::Pair(|_, l| signed(l.ty, &l.values))),
    slip(
        "joined pair: the signed order where a column is I64",
        How::Pair(|input, l| {
            let any = input.segs.iter().any(|s| model::held(s) && s.ty == 0);
            if any { signed(l.ty, &l.values) } else { l.pair }
        }),
    ),
    slip("joined pair: the least value twice", How::Pair(|_, l| [l.pair[0]; 2])),
    slip("joined pair: the greatest value twice", How::Pair(|_, l| [l.pair[1]; 2])),
    slip("joined pair: the greatest value first", How::Pair(|_, l| exchanged(l.ty, &l.values))),
    slip("joined pair: low halves", How::Pair(|_, l| l.pair.map(|word| word as u32 as u64))),
    slip("joined pair: the high half first", How::Pair(|_, l| l.pair.map(|word| word.rotate_left(32)))),
    slip("joined pair: without the first value", How::Pair(|_, l| but_first(l.ty, &l.values))),
    slip("joined pair: without the last value", How::Pair(|_, l| but_last(l.ty, &l.values))),
    slip(
        "joined pair: without the values after the last four",
        How::Pair(|_, l| whole_fours(l.ty, &l.values)),
    ),
    slip("joined pair: of each fourth value", How::Pair(|_, l| each_fourth(l.ty, &l.values))),
    slip("joined pair: of the first and the last value", How::Pair(|_, l| outer(l.ty, &l.values))),
    slip("joined pair: where the search begins", How::Pair(|_, l| beginning(l.ty, &l.values))),
    slip("joined pair: of times", How::Pair(|_, l| of_times(l.ty, &l.values))),
    slip("joined pair: of doubles", How::Pair(|_, l| of_doubles(l.ty, &l.values))),
    slip(
        "joined pair: of the integers that became doubles",
        How::Pair(|input, l| {
            let integers = || input.segs.iter().filter(|s| model::held(s) && s.ty < 2).flat_map(right);
            match l.ty {
                2 => model::pair(0, &integers().map(u128::from).collect::<Vec<_>>()),
                _ => l.pair,
            }
        }),
    ),
    slip("joined pair: of ordinals", How::Pair(|_, l| of_ordinals(l.ty, &l.values))),
    slip("joined pair: of Bool", How::Pair(|_, l| of_bools(l.ty, &l.values))),
    slip("joined pair: of addresses", How::Pair(|_, l| of_addresses(l.ty, &l.values))),
    slip(
        "joined pair: written by a refusal",
        How::Leave(|outcome, lists| {
            if matches!(outcome, Outcome::Refused(_)) {
                lists.numbers.lent()[PAIR..].fill(0);
            }
        }),
    ),
];

// ---- the records' pairs

pub fn right(s: &Seg) -> Pair {
    model::pair(s.ty, &s.values)
}

/// Of the values of alive rows alone.
pub fn alive(s: &Seg) -> Pair {
    of_rows(s, |s, row| s.is_alive(row), usize::MAX)
}

/// Of each row's first value alone.
pub fn first_values(s: &Seg) -> Pair {
    of_rows(s, |_, _| true, 1)
}

fn of_rows(s: &Seg, of: fn(&Seg, u32) -> bool, most: usize) -> Pair {
    let rows = model::filled(s).into_iter().filter(|(row, _)| of(s, *row));
    let values: Vec<u128> = rows.flat_map(|(_, range)| range.take(most)).map(|i| s.values[i]).collect();
    model::pair(s.ty, &values)
}

/// The values and the two words of a pair.
fn with(s: &Seg, pair: Pair) -> Vec<u128> {
    let mut values = s.values.clone();
    if !values.is_empty() {
        values.extend(pair.map(u128::from));
    }
    values
}

/// 5 but for the pairs.
pub fn without(call: &Call) -> bool {
    call.any_segment(table::contents_of)
}

/// 5 by another test of the pairs.
pub fn by(call: &Call, fails: fn(Pair, &Seg) -> bool) -> bool {
    without(call) || table::paired(call).any(|(pair, s)| fails(pair, s))
}

/// 5 by another pair of type and values.
pub fn by_pair(call: &Call, of: PairOf) -> bool {
    without(call) || table::paired(call).any(|(pair, s)| pair != of(s.ty, &s.values))
}

/// The stored pairs of the columns of a type, put together, are not that of all their values.
fn together_untrue(call: &Call) -> bool {
    let untrue = |ty: u32| {
        let of_type = || table::paired(call).filter(|(_, s)| s.ty == ty && !s.values.is_empty());
        let ends: Vec<u128> = of_type().flat_map(|(pair, _)| pair).map(u128::from).collect();
        let values: Vec<u128> = of_type().flat_map(|(_, s)| s.values.clone()).collect();
        model::pair(ty, &ends) != model::pair(ty, &values)
    };
    let rest = |(pair, s): (Pair, &Seg)| (s.ty > 1 || s.values.is_empty()) && pair != [0, 0];
    untrue(0) || untrue(1) || table::paired(call).any(rest)
}

// ---- what is decided by them

/// The type by other pairs of other columns, where the held columns are of several types and none is required.
fn decide(input: &mut Input, of: fn(&Seg) -> bool, pair: fn(&Seg) -> Pair) {
    let held: Vec<u32> = input.segs.iter().filter(|s| model::held(s)).map(|s| s.ty).collect();
    if input.required != 255 || held.iter().any(|&ty| ty > 1) || held.iter().all(|&ty| ty == held[0]) {
        return;
    }
    let every = |ty: u32, ok: fn(Pair) -> bool| {
        input.segs.iter().filter(|s| s.ty == ty && of(s) && !s.values.is_empty()).all(|s| ok(pair(s)))
    };
    input.required = match () {
        _ if every(1, |[_, greatest]| greatest < i64::MAX as u64) => 0,
        _ if every(0, |[least, _]| least >> 63 == 0) => 1,
        _ => 2,
    };
}

/// 10 by other pairs.
fn types_by(call: &Call, pair: fn(&Seg) -> Pair) -> bool {
    let input = call.input();
    let to = model::joined_type(input);
    let fails = |s: &Seg| model::held(s) && !model::coercible_by_pair(s.ty, to, pair(s));
    table::two_categories(input) || call.any_segment(fails)
}

// ---- the joined column's

/// Pairs of columns put together, where the joined column has one.
fn together(input: &Input, l: &Listing, of: fn(&Seg) -> bool) -> Pair {
    let ends = input.segs.iter().filter(|s| of(s) && !s.values.is_empty()).flat_map(right);
    model::pair(l.ty, &ends.map(u128::from).collect::<Vec<_>>())
}

/// A held column's, where the joined column has one.
fn of_held(input: &Input, l: &Listing, place: usize) -> Pair {
    match input.segs.iter().filter(|s| model::held(s)).nth(place) {
        Some(s) if l.ty <= 1 => right(s),
        _ => l.pair,
    }
}

// ---- other pairs of a type and values

/// The first and the last by another order, of types 0 and 1.
fn ordered<K: PartialOrd>(ty: u32, values: &[u128], key: fn(u64) -> K) -> Pair {
    let mut words = values.iter().map(|&v| v as u64);
    let first = match words.next() {
        Some(first) if ty <= 1 => first,
        _ => return [0, 0],
    };
    words.fold([first; 2], |[least, greatest], word| {
        let least = if key(word) < key(least) { word } else { least };
        let greatest = if key(word) > key(greatest) { word } else { greatest };
        [least, greatest]
    })
}

pub fn from_zero(ty: u32, values: &[u128]) -> Pair {
    model::pair(ty, &[values, &[0]].concat())
}

pub fn unsigned(ty: u32, values: &[u128]) -> Pair {
    ordered(ty, values, |word| word)
}

pub fn signed(ty: u32, values: &[u128]) -> Pair {
    ordered(ty, values, |word| word as i64)
}

/// A value is below another one if their difference, which may wrap, is negative.
pub fn by_difference(ty: u32, values: &[u128]) -> Pair {
    let mut words = values.iter().map(|&v| v as u64);
    let first = match words.next() {
        Some(first) if ty <= 1 => first,
        _ => return [0, 0],
    };
    let below = |a: u64, b: u64| (a.wrapping_sub(b) as i64) < 0;
    words.fold([first; 2], |[least, greatest], word| {
        [if below(word, least) { word } else { least }, if below(greatest, word) { word } else { greatest }]
    })
}

/// Negative numbers stand below the others, and among themselves by their size.
pub fn by_size(ty: u32, values: &[u128]) -> Pair {
    match ty {
        0 => ordered(ty, values, |word| (word >> 63 == 0, (word as i64).unsigned_abs())),
        _ => model::pair(ty, values),
    }
}

pub fn as_doubles(ty: u32, values: &[u128]) -> Pair {
    match ty {
        0 => ordered(ty, values, |word| word as i64 as f64),
        _ => ordered(ty, values, |word| word as f64),
    }
}

pub fn by_high_halves(ty: u32, values: &[u128]) -> Pair {
    match ty {
        0 => ordered(ty, values, |word| word as i64 >> 32),
        _ => ordered(ty, values, |word| word >> 32),
    }
}

pub fn by_low_halves(ty: u32, values: &[u128]) -> Pair {
    ordered(ty, values, |word| word as u32)
}

pub fn but_first(ty: u32, values: &[u128]) -> Pair {
    model::pair(ty, values.get(1..).unwrap_or(&[]))
}

pub fn but_last(ty: u32, values: &[u128]) -> Pair {
    model::pair(ty, &values[..values.len().saturating_sub(1)])
}

/// Without what is left over where values are taken four at a time, but for the first one.
pub fn whole_fours(ty: u32, values: &[u128]) -> Pair {
    let whole = values.len() - values.len() % 4;
    model::pair(ty, &values[..whole.max(1).min(values.len())])
}

pub fn each_fourth(ty: u32, values: &[u128]) -> Pair {
    model::pair(ty, &values.iter().copied().step_by(4).collect::<Vec<_>>())
}

pub fn outer(ty: u32, values: &[u128]) -> Pair {
    match values {
        [first, .., last] => model::pair(ty, &[*first, *last]),
        _ => model::pair(ty, values),
    }
}

pub fn exchanged(ty: u32, values: &[u128]) -> Pair {
    let [least, greatest] = model::pair(ty, values);
    [greatest, least]
}

/// Without values the least is the greatest number that there is, and the greatest the least.
pub fn beginning(ty: u32, values: &[u128]) -> Pair {
    match ty {
        0 if values.is_empty() => [i64::MAX as u64, i64::MIN as u64],
        1 if values.is_empty() => [u64::MAX, 0],
        _ => model::pair(ty, values),
    }
}

/// A pair of one type's values too, by the words' unsigned order.
pub fn of_type(of: u32, ty: u32, values: &[u128]) -> Pair {
    model::pair(if ty == of { 1 } else { ty }, values)
}

pub fn of_times(ty: u32, values: &[u128]) -> Pair {
    model::pair(if ty == 7 { 0 } else { ty }, values)
}

pub fn of_doubles(ty: u32, values: &[u128]) -> Pair {
    of_type(2, ty, values)
}

pub fn of_ordinals(ty: u32, values: &[u128]) -> Pair {
    model::pair(if matches!(ty, 3 | 4) { 1 } else { ty }, values)
}

pub fn of_bools(ty: u32, values: &[u128]) -> Pair {
    of_type(5, ty, values)
}

/// By the low words.
pub fn of_addresses(ty: u32, values: &[u128]) -> Pair {
    of_type(IP, ty, values)
}
