//! Document 01's join ("The join") with document 02's addresses and its least and greatest value, as naively
//! as it reads, for an input that passes its checks 1 to 10. Nothing here comes from the crate or from the
//! joiner.
use std::collections::BTreeMap;
use std::ops::Range;

use crate::wire::{Input, Listing, Pair, Seg};

/// "A row's values: Empty none; Full the one at its number; Optional the one at its rank among the
/// ids; kind 3 those between offsets row and row + 1; kind 4 the same by rank." The rows that have
/// values, ascending, each with its part of the values.
pub fn filled(s: &Seg) -> Vec<(u32, Range<usize>)> {
    let between = |w: &[u32]| w[0] as usize..w[1] as usize;
    let mut rows: Vec<(u32, Range<usize>)> = match s.kind {
        0 => vec![],
        1 => (0..s.rows).map(|r| (r, r as usize..r as usize + 1)).collect(),
        2 => s.ids.iter().enumerate().map(|(rank, &id)| (id, rank..rank + 1)).collect(),
        3 => (0..s.rows).zip(s.offsets.windows(2).map(between)).collect(),
        4 => s.ids.iter().copied().zip(s.offsets.windows(2).map(between)).collect(),
        kind => panic!("kind {kind}"),
    };
    rows.retain(|(_, range)| !range.is_empty());
    rows
}

fn at(filled: &[(u32, Range<usize>)], row: u32) -> Range<usize> {
    match filled.binary_search_by_key(&row, |(r, _)| *r) {
        Ok(i) => filled[i].1.clone(),
        Err(_) => 0..0,
    }
}

/// "A column is present if its type is not 255. A present column is dropped if it has no values,
/// or if its alive set is given and no alive row has a value; else it is held."
pub fn held(s: &Seg) -> bool {
    s.ty != 255
        && !s.values.is_empty()
        && (s.alive.is_none() || filled(s).iter().any(|(r, _)| s.is_alive(*r)))
}

/// The type. Where nothing is held and none is required: 255.
pub fn joined_type(input: &Input) -> u32 {
    let held: Vec<&Seg> = input.segs.iter().filter(|s| held(s)).collect();
    let exists = |ty: u32| held.iter().any(|s| s.ty == ty);
    let every = |ty: u32, ok: fn(u128) -> bool| {
        held.iter().filter(|s| s.ty == ty).all(|s| s.values.iter().all(|&v| ok(v)))
    };
    if input.required != 255 {
        return input.required;
    }
    match held.first() {
        None => 255,
        Some(first) if held.iter().all(|s| s.ty == first.ty) => first.ty,
        _ if !exists(2) && every(1, |v| v < 9223372036854775807) => 0,
        _ if !exists(2) && every(0, |v| v as i64 >= 0) => 1,
        _ => 2,
    }
}

/// "The least and greatest stored value for types 0 and 1, withdrawn rows included; other types and columns
/// without values hold 0 and 0." I64 is two's complement.
pub fn pair(ty: u32, values: &[u128]) -> Pair {
    let mut numbers: Vec<i128> = match ty {
        0 => values.iter().map(|&v| v as u64 as i64 as i128).collect(),
        1 => values.iter().map(|&v| v as i128).collect(),
        _ => vec![],
    };
    numbers.sort();
    match numbers[..] {
        [] => [0, 0],
        [only] => [only as u64; 2],
        [least, .., greatest] => [least as u64, greatest as u64],
    }
}

/// "The type rule reads the pair and decides as before": the type by the records' pairs alone. Where they are
/// true it is `joined_type`.
pub fn type_by_pairs(input: &Input) -> u32 {
    let held: Vec<(u32, Pair)> = input.segs.iter().filter(|s| held(s)).map(|s| (s.ty, s.pair())).collect();
    let every = |ty: u32, ok: fn(Pair) -> bool| held.iter().filter(|h| h.0 == ty).all(|h| ok(h.1));
    if input.required != 255 {
        return input.required;
    }
    match held.first() {
        None => 255,
        Some(first) if held.iter().all(|h| h.0 == first.0) => first.0,
        _ if held.iter().any(|h| h.0 == 2) => 2,
        _ if every(1, |[_, greatest]| greatest < 9223372036854775807) => 0,
        _ if every(0, |[least, _]| least as i64 >= 0) => 1,
        _ => 2,
    }
}

/// Whether a column with values can be had as another type, by its pair. Where that is true, this is
/// `coercible`.
pub fn coercible_by_pair(from: u32, to: u32, [least, greatest]: Pair) -> bool {
    match (from, to) {
        _ if from == to => true,
        (1, 0) => greatest <= 9223372036854775807,
        (0, 1) => least as i64 >= 0,
        (0 | 1, 2) => true,
        _ => false,
    }
}

/// Whether each value of a column can be had as another type.
pub fn coercible(s: &Seg, to: u32) -> bool {
    s.values.iter().all(|&v| coerced(s.ty, to, v).is_some())
}

/// A stored value of one type as a value of another; None if it can't be had. An address "is never
/// coerced".
pub fn coerced(from: u32, to: u32, v: u128) -> Option<u128> {
    match (from, to) {
        _ if from == to => Some(v),
        (1, 0) if v <= 9223372036854775807 => Some(v),
        (0, 1) if v as i64 >= 0 => Some(v),
        (0, 2) => Some((v as i64 as f64).to_bits() as u128),
        (1, 2) => Some((v as u64 as f64).to_bits() as u128),
        _ => None,
    }
}

/// The class of a segment that is held, or counts as Empty with its rows.
fn class(s: &Seg, held: bool, filled: &[(u32, Range<usize>)]) -> u32 {
    if s.alive.is_none() {
        return match s.kind {
            _ if !held => (s.rows > 0) as u32,
            1 => 0,
            2 => 1,
            _ => 2,
        };
    }
    let of_row = |r: u32| match at(filled, r).len() {
        0 => 1,
        1 => 0,
        _ => 2,
    };
    (0..s.rows).filter(|&r| s.is_alive(r)).map(of_row).max().unwrap_or(0)
}

pub fn join(input: &Input) -> Listing {
    let segs = &input.segs;
    let ty = joined_type(input);
    // "A dropped one counts as Empty with its rows."
    let is_held: Vec<bool> = segs.iter().map(held).collect();
    let cells: Vec<_> =
        segs.iter().zip(&is_held).map(|(s, &held)| if held { filled(s) } else { vec![] }).collect();
    let rows = match input.mode {
        0 => segs.iter().map(|s| s.rows).sum(),
        _ => input.addresses.len() as u32,
    };
    let mut out = Listing { ty, rows, ..Listing::default() };
    if ty == 255 {
        return out;
    }
    out.class = (0..segs.len()).map(|i| class(&segs[i], is_held[i], &cells[i])).max().unwrap_or(0);

    // "Terms: those of held columns, bytewise ascending, each once. A term is kept if a held
    // segment that has it lacks an alive set, or an alive row uses it."
    let held_segs = || (0..segs.len()).filter(|&i| is_held[i]);
    let mut kept: BTreeMap<&[u8], u32> = BTreeMap::new();
    for i in held_segs() {
        let s = &segs[i];
        let mut used = vec![s.alive.is_none(); s.terms.len()];
        if ty == 3 || ty == 4 {
            for (row, range) in &cells[i] {
                if s.is_alive(*row) {
                    s.values[range.clone()].iter().for_each(|&v| used[v as usize] = true);
                }
            }
        }
        kept.extend(s.terms.iter().zip(used).filter(|(_, u)| *u).map(|(t, _)| (&t[..], 0)));
    }
    for (i, (term, ordinal)) in kept.iter_mut().enumerate() {
        *ordinal = i as u32;
        out.terms.push(term.to_vec());
    }
    let new_ordinal = |term: &Vec<u8>| kept.get(&term[..]).copied().unwrap_or(0);
    for i in held_segs() {
        out.map.extend(segs[i].terms.iter().map(new_ordinal));
    }

    // The new rows that have values, in row order: new row, segment, the row's part of the values.
    let mut new_rows: Vec<(u32, usize, Range<usize>)> = Vec::new();
    if input.mode == 0 {
        let mut start = 0;
        for (i, s) in segs.iter().enumerate() {
            new_rows.extend(cells[i].iter().map(|(r, range)| (start + r, i, range.clone())));
            start += s.rows;
        }
    } else {
        for (new_row, &[seg, row]) in input.addresses.iter().enumerate() {
            let range = at(&cells[seg as usize], row);
            if !range.is_empty() {
                new_rows.push((new_row as u32, seg as usize, range));
            }
        }
    }

    // "Row ids (class 1, 2) are new rows with a value. Offsets (class 2) are 0 and then the running
    // total after each such row. Values follow in row order."
    if out.class == 2 {
        out.offsets.push(0);
    }
    for (new_row, seg, range) in new_rows {
        let s = &segs[seg];
        for &v in &s.values[range] {
            out.values.push(match ty {
                3 | 4 => new_ordinal(&s.terms[v as usize]) as u128,
                _ => coerced(s.ty, ty, v).expect("check 10 passed"),
            });
        }
        if out.class >= 1 {
            out.ids.push(new_row);
        }
        if out.class == 2 {
            out.offsets.push(out.values.len() as u32);
        }
    }
    // "The joined column carries its own pair, taken over the joined values."
    out.pair = pair(ty, &out.values);
    out
}

#[cfg(test)]
mod tests {
    use super::*;
    use crate::generate::{self, Kinds, Shape, Types};
    use crate::rng::Rng;
    use crate::wire::IP;

    /// A join of addresses is two joins of numbers, of the high words and of the low ones.
    #[test]
    fn addresses_are_two_words() {
        let mut all = 0;
        for case in 0..2_000 {
            let rng = &mut Rng::of_case(1, case);
            let input = generate::input(rng, Shape::Small, Kinds::Joined, Types::Listeners);
            let types = || input.segs.iter().map(|s| s.ty).chain([input.required]);
            if types().any(|ty| ty != IP && ty != 255) {
                continue;
            }
            let half = |half: fn(u128) -> u128| {
                let mut input = input.clone();
                input.required = if input.required == IP { 1 } else { 255 };
                for s in input.segs.iter_mut().filter(|s| s.ty == IP) {
                    s.ty = 1;
                    s.values.iter_mut().for_each(|v| *v = half(*v));
                }
                join(&input)
            };
            let (high, low) = (half(|v| v >> 64), half(|v| v as u64 as u128));
            let pairs = high.values.iter().zip(&low.values);
            let values: Vec<u128> = pairs.map(|(high, low)| high << 64 | low).collect();
            let ty = if low.ty == 1 { IP } else { 255 };
            all += values.len();
            for half in [high, low] {
                let column = Listing { ty, values: values.clone(), pair: [0, 0], ..half };
                assert_eq!(join(&input), column, "case {case}");
            }
        }
        assert!(all > 10_000);
    }
}
