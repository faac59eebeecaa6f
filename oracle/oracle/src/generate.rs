//! Random inputs that document 01 accepts, or (a few) refuses with 10; and the same with segments of
//! kind 3 among the others, which go through the converter first.
pub mod times;
pub mod turns;

use crate::model;
use crate::rng::Rng;
use crate::wire::{IP, Input, Seg, words_of};

#[derive(Clone, Copy, Debug, PartialEq, Eq)]
pub enum Shape {
    /// A few segments of a few rows.
    Small,
    /// Dictionaries of hundreds or thousands of terms.
    Terms,
    /// Up to 256 segments.
    Segments,
    /// Thousands of rows.
    Rows,
    /// Tens to hundreds of thousands of rows.
    Large,
    /// Stacked, up to 4294967294 rows, few of them with values.
    Huge,
}

/// Which kinds the segments have.
#[derive(Clone, Copy, Debug, PartialEq, Eq)]
pub enum Kinds {
    /// Those that a join takes.
    Joined,
    /// Kind 3 for the most part.
    Stored,
}

/// Which types most segments have.
#[derive(Clone, Copy, Debug, PartialEq, Eq)]
pub enum Types {
    Any,
    /// Addresses alone.
    Listeners,
}

/// Which shape a case has. The joining program takes 65,536 bytes, so no Large one.
pub fn shape(rng: &mut Rng, program: bool) -> Shape {
    match rng.below(10_000) {
        0..200 => Shape::Terms,
        200..320 => Shape::Segments,
        320..470 => Shape::Rows,
        470..480 if !program => Shape::Large,
        480..510 => Shape::Huge,
        _ => Shape::Small,
    }
}

/// The same for stored segments: kind 3 has an offset for each row, so no Huge one.
pub fn stored_shape(rng: &mut Rng) -> Shape {
    match shape(rng, false) {
        Shape::Huge => Shape::Small,
        shape => shape,
    }
}

#[rustfmt::skip]
const WORDS: &[u64] = &[
    0, 1, 2, 7, 100,
    (1 << 53) - 1, 1 << 53, (1 << 53) + 1, (1 << 53) + 3, (1 << 62) + 255,
    9223372036854775806, 9223372036854775807, 9223372036854775808, 9223372036854775809,
    18446744073709550591, 18446744073709550592, 18446744073709550593, u64::MAX - 99, u64::MAX - 1, u64::MAX,
];
const SMALL: &[u64] = &[0, 1, 2, 3, 1 << 53, (1 << 53) + 1, 9223372036854775806];
/// 0, -0, 1, -1, the infinities, quiet and signalling NaNs, the least above 0, 2^63.
#[rustfmt::skip]
const DOUBLES: &[u64] = &[
    0, 0x8000000000000000, 0x3FF0000000000000, 0xBFF0000000000000, 0x7FF0000000000000, 0xFFF0000000000000,
    0x7FF8000000000000, 0xFFF8000000000001, 0x7FF0000000000001, 1, 0x43E0000000000000,
];
#[rustfmt::skip]
const TERMS: &[&[u8]] = &[
    b"", b"a", b"aa", b"ab", b"b", b"ba", b"bb", b"c", b"ca", b"\x00", b"\x00\x00", b"a\x00",
    b"\xff", b"\xff\x00", b"z", b"zzzzzzzz", b"zzzzzzzzz", b"\x80", b"\x7f", b"aaaaaaaaaaaaaaaab",
    // equal in their first 8, 16 or 24 bytes, or but for zero bytes at the end
    b"a\x00\x00", b"zzzzzzz", b"zzzzzzzz\x00", b"zzzzzzzzzzzzzzzz", b"zzzzzzzzzzzzzzzz\x00", b"zzzzzzzzzzzzzzzzz",
    b"zzzzzzzz\x00zzzzzzzz", b"aaaaaaaaaaaaaaaa", b"aaaaaaaaaaaaaaaaaaaaaaaa", b"aaaaaaaaaaaaaaaaaaaaaaaab",
];

/// An integer halfway between two doubles, or next to such a one.
fn near_tie(rng: &mut Rng) -> u64 {
    let drop = rng.between(1, 11);
    let top = 1 << 52 | rng.next() >> 12;
    let tie = top << drop | 1 << (drop - 1);
    tie.wrapping_add(rng.below(3)).wrapping_sub(1) >> rng.below(2)
}

/// A listener's address: one half the same in all, corners in both halves, IPv4 in its mapped form
/// (::ffff:a.b.c.d), any.
fn listener(rng: &mut Rng, flavour: u64) -> u128 {
    let (high, low) = match if rng.one_in(4) { rng.below(7) } else { flavour } {
        0 => (0x20010DB8_00000000, rng.below(4)),
        1 => (rng.below(4), 1),
        2 => (0, 0xFFFF << 32 | rng.next() >> 32),
        3 => (rng.pick(&[0, u64::MAX]), rng.pick(&[0, u64::MAX])),
        4 => (rng.pick(SMALL), rng.pick(SMALL)),
        5 => (rng.pick(WORDS), rng.pick(WORDS)),
        _ => (rng.next(), rng.next()),
    };
    (high as u128) << 64 | low as u128
}

fn value(rng: &mut Rng, ty: u32, flavour: u64, terms: usize) -> u128 {
    match ty {
        IP => listener(rng, flavour),
        _ => word(rng, ty, flavour, terms) as u128,
    }
}

fn word(rng: &mut Rng, ty: u32, flavour: u64, terms: usize) -> u64 {
    match (ty, flavour) {
        (0 | 1, 0) => rng.pick(SMALL),
        (0, 1) => rng.below(10).wrapping_sub(5),
        (1, 1) => rng.below(10),
        (0, 3) => rng.pick(&[1, 9223372036854775807]),
        (1, 3) => rng.pick(&[1, 9223372036854775806, 9223372036854775807]),
        (0, 4) => rng.pick(&[1, 1, 1, u64::MAX]),
        (1, 4) => rng.pick(&[1, 1, 9223372036854775806]),
        (0, 5) if rng.one_in(2) => near_tie(rng).wrapping_neg(),
        (0 | 1, 5) => near_tie(rng),
        (0 | 1, 6) => rng.next() >> rng.below(64),
        (0 | 1, _) => rng.pick(WORDS),
        (2, _) if rng.one_in(3) => rng.next(),
        (2, _) => rng.pick(DOUBLES),
        (3 | 4, _) => rng.below(terms as u64),
        (5, _) => rng.below(2),
        _ if rng.one_in(3) => rng.next(),
        _ => rng.pick(WORDS),
    }
}

/// Numbers that others are close to, or less or greater in either order.
const MIDDLES: &[u64] = &[0, 5, 100, 1 << 32, 1 << 62, (1 << 63) - 2, 1 << 63, u64::MAX - 4];

/// Makes the least or the greatest value of a column of integers stand alone, or both. The others are what they
/// were, or close together.
fn ends_apart(rng: &mut Rng, s: &mut Seg) {
    if s.ty > 1 || s.values.is_empty() {
        return;
    }
    let middle = rng.pick(MIDDLES);
    if rng.one_in(2) {
        s.values.iter_mut().for_each(|v| *v = middle.wrapping_add(rng.below(3)) as u128);
    }
    for _ in 0..rng.between(1, 2) {
        let place = place(rng, s);
        s.values[place] = end(rng, middle) as u128;
    }
}

/// The ends of both types, one less or more, another bit, another half.
fn end(rng: &mut Rng, middle: u64) -> u64 {
    match rng.below(6) {
        0 => rng.pick(&[0, (1 << 63) - 1, 1 << 63, (1 << 63) + 1, u64::MAX]),
        1 => middle.wrapping_sub(1),
        2 => middle.wrapping_add(3),
        3 => middle ^ 1 << rng.below(64),
        4 => middle >> 32 << 32 | rng.next() >> 32,
        _ => middle as u32 as u64 | rng.next() << 32,
    }
}

/// A value's place: the first, the last, that of a withdrawn row, any.
fn place(rng: &mut Rng, s: &Seg) -> usize {
    let n = s.values.len();
    match rng.below(5) {
        0 => 0,
        1 => n - 1,
        2 | 3 => {
            let withdrawn = model::filled(s).into_iter().filter(|(row, _)| !s.is_alive(*row));
            let places: Vec<usize> = withdrawn.flat_map(|(_, range)| range).collect();
            if places.is_empty() { rng.index(n) } else { rng.pick(&places) }
        }
        _ => rng.index(n),
    }
}

/// A column's type, which may be one that nobody knows, and its words: for its least and greatest value.
pub fn column(rng: &mut Rng) -> (u32, Vec<u64>) {
    let n = match rng.below(40) {
        0 => rng.below(5_000),
        1..5 => rng.below(200),
        _ => rng.below(24),
    };
    let (ty, flavour) = (rng.below(2) as u32, rng.below(7));
    let mut s = Seg { ty, kind: 1, rows: n as u32, ..Seg::default() };
    s.values = (0..n).map(|_| value(rng, ty, flavour, 0)).collect();
    if rng.one_in(2) {
        ends_apart(rng, &mut s);
    }
    let words = words_of(ty, &s.values);
    let others = [2, 3, 4, 5, IP, 7, 7, 8, 9, 254, 255, 256, 257, 1 << 16, 1 << 31, u32::MAX];
    (if rng.one_in(4) { rng.pick(&others) } else { ty }, words)
}

/// The terms that an input's segments choose from, ascending.
fn vocabulary(rng: &mut Rng, shape: Shape) -> Vec<Vec<u8>> {
    if shape != Shape::Terms {
        let mut terms: Vec<Vec<u8>> = TERMS.iter().map(|t| t.to_vec()).collect();
        terms.sort();
        return terms;
    }
    let count = match rng.below(10) {
        0 => 5_000,
        1..4 => 1_000,
        _ => 200,
    };
    let letters: &[u8] = if rng.one_in(2) { b"\x00a\xff" } else { b"abcdefgh" };
    let prefix: Vec<u8> = (0..rng.index(40)).map(|_| rng.pick(letters)).collect();
    let mut terms: Vec<Vec<u8>> = (0..count)
        .map(|_| {
            let mut term = if rng.one_in(2) { prefix.clone() } else { vec![] };
            term.extend((0..rng.below(9)).map(|_| rng.pick(letters)));
            term
        })
        .collect();
    terms.sort();
    terms.dedup();
    terms
}

fn rows(rng: &mut Rng, shape: Shape) -> u32 {
    let n = match (shape, rng.below(40)) {
        (_, 0..3) => 0,
        (Shape::Small | Shape::Segments, 3..8) => 1,
        (Shape::Small | Shape::Segments, 8..35) => rng.below(7),
        (Shape::Small, 35..39) => 60 + rng.below(80),
        (Shape::Small | Shape::Segments, _) => rng.below(20),
        (Shape::Terms, _) => rng.below(400),
        (Shape::Rows, _) => rng.below(3_000),
        (Shape::Large, _) => rng.below(150_000),
        (Shape::Huge, _) => rng.pick(&[65_535, 65_536, 65_537, 1 << 20, 1 << 31, 4_294_901_760]),
    };
    n as u32
}

/// Which rows have how many values.
fn counts(rng: &mut Rng, kind: u32, rows: u32, shape: Shape) -> Vec<(u32, u32)> {
    let many = rng.below(6);
    let count = |rng: &mut Rng| match (kind, many) {
        (0, _) => 0,
        (1, _) => 1,
        (2, 3) => 1,
        (2, 4) => rng.one_in(50) as u32,
        (2, _) => (rng.below(3) < many) as u32,
        (_, 0) => rng.below(2) as u32,
        (_, 1) => 1,
        (_, 2) => 1 + rng.below(2) as u32,
        (_, 3) => rng.one_in(50) as u32 * rng.below(9) as u32,
        (_, _) => rng.below(4) as u32,
    };
    if shape != Shape::Huge || rows < 1_000 {
        return (0..rows).map(|r| (r, count(rng))).collect();
    }
    let mut at: Vec<u32> = (0..rng.below(60)).map(|_| rng.below(rows as u64) as u32).collect();
    at.extend([0, 65_535, 65_536, 131_071, rows - 1].iter().filter(|&&r| r < rows));
    at.sort();
    at.dedup();
    at.into_iter().map(|r| (r, count(rng))).collect()
}

/// An alive set for rows with these numbers of values.
pub fn alive_set(rng: &mut Rng, rows: u32, counts: &[(u32, u32)]) -> Vec<u64> {
    let how = rng.below(14);
    let special = if rows > 0 { rng.below(rows as u64) as u32 } else { 0 };
    let run = 1 + rng.below(70) as u32;
    let mut words = vec![0u64; rows.div_ceil(64) as usize];
    for r in 0..rows {
        let count = counts.get(r as usize).map_or(0, |c| c.1);
        let alive = match how {
            0 => false,
            1 | 2 => true,
            3 => count == 0,
            4 => count == 1,
            5 => count <= 1,
            6 => r == special,
            7 => r != special,
            8 => r == rows - 1,
            9 => r / run % 2 == 0,
            10 => !rng.one_in(10),
            _ => rng.below(4) < how - 10,
        };
        words[(r / 64) as usize] |= (alive as u64) << (r % 64);
    }
    words
}

/// What the segments of an input have in common.
struct Common {
    kinds: Kinds,
    ordered: bool,
    flavour: u64,
    shape: Shape,
    words: Vec<Vec<u8>>,
}

fn segment(rng: &mut Rng, ty: u32, common: &Common) -> Seg {
    let Common { kinds, ordered, flavour, shape, ref words } = *common;
    let rows = rows(rng, shape);
    let mut s = Seg { ty, rows, ..Seg::default() };
    if ty != 255 {
        s.kind = match (kinds, rng.below(16)) {
            (_, 0) => 0,
            (Kinds::Joined, 1..=4) | (Kinds::Stored, 1 | 2) => 1,
            (Kinds::Joined, 5..=8) | (Kinds::Stored, 3 | 4) => 2,
            (Kinds::Joined, _) | (Kinds::Stored, 5 | 6) => 4,
            (Kinds::Stored, _) => 3,
        };
        if shape == Shape::Huge && rows > 1_000 {
            s.kind = rng.pick(&[0, 2, 4]);
        }
    }
    let counts = counts(rng, s.kind, rows, shape);
    if ordered && rng.one_in(2) {
        s.alive = Some(alive_set(rng, rows, &counts));
    }
    let mut total = 0;
    if s.kind >= 3 {
        s.offsets.push(0);
    }
    for (row, count) in counts {
        total += count;
        if (s.kind == 2 || s.kind == 4) && count > 0 {
            s.ids.push(row);
        }
        if s.kind == 3 || s.kind == 4 && count > 0 {
            s.offsets.push(total);
        }
    }
    // Terms only on types 3, 4 and not on kind 0. Unused terms and terms without values occur.
    if (ty == 3 || ty == 4) && s.kind != 0 {
        let density = 1 + rng.below(6);
        s.terms = words.iter().filter(|_| rng.below(7) < density).cloned().collect();
        if total > 0 && s.terms.is_empty() {
            s.terms.push(words[rng.index(words.len())].clone());
        }
    }
    for _ in 0..total {
        s.values.push(value(rng, ty, flavour, s.terms.len()));
    }
    s
}

/// All alive rows, in one of several orders.
pub fn addresses(rng: &mut Rng, segs: &[Seg]) -> Vec<[u32; 2]> {
    let mut list: Vec<[u32; 2]> = Vec::new();
    for (i, s) in segs.iter().enumerate() {
        list.extend((0..s.rows).filter(|&r| s.is_alive(r)).map(|r| [i as u32, r]));
    }
    match rng.below(6) {
        0 => {}
        1 => list.reverse(),
        // row 0 of each segment, row 1 of each segment, ..
        2 => list.sort_by_key(|&[s, r]| (r, s)),
        _ => {
            for i in (1..list.len()).rev() {
                list.swap(i, rng.index(i + 1));
            }
        }
    }
    list
}

pub fn input(rng: &mut Rng, shape: Shape, kinds: Kinds, types: Types) -> Input {
    let mode = if shape == Shape::Huge { 0 } else { rng.below(2) as u32 };
    let n = match (shape, rng.below(20)) {
        (Shape::Segments, 0) => 256,
        (Shape::Segments, _) => rng.between(20, 120),
        (_, 0) => 0,
        (_, 1..=5) => 1,
        (_, 6..=15) => 2 + rng.below(2),
        (Shape::Small | Shape::Terms, 16..=18) => 4 + rng.below(4),
        (Shape::Small | Shape::Terms, _) => 10 + rng.below(20),
        (_, _) => 4,
    };
    let base: u32 = match rng.below(10) {
        _ if types == Types::Listeners => IP,
        _ if shape == Shape::Terms => rng.pick(&[3, 4]),
        0..=3 => 0,
        4..=6 => rng.pick(&[3, 4]),
        7 => 5,
        8 => IP,
        _ => 7,
    };
    let flavour = rng.below(7);
    let only = if rng.one_in(3) { Some(rng.below(3) as u32) } else { None };
    let no_doubles = rng.one_in(2);
    let ty_of = |rng: &mut Rng| match (base, only) {
        (0, Some(ty)) => ty,
        (0, None) if no_doubles => rng.below(2) as u32,
        (0, None) => rng.below(3) as u32,
        _ => base,
    };
    let words = vocabulary(rng, if base == 3 || base == 4 { shape } else { Shape::Small });
    let common = Common { kinds, ordered: mode == 1, flavour, shape, words };
    let another = rng.one_in(40);
    let mut segs: Vec<Seg> = Vec::new();
    for _ in 0..n {
        let ty = if rng.one_in(8) {
            255
        } else if another && rng.one_in(3) {
            rng.pick(&[0, 1, 3, 4, 5, IP, 7])
        } else {
            ty_of(rng)
        };
        segs.push(segment(rng, ty, &common));
    }
    if base == 0 && rng.one_in(3) {
        for s in &mut segs {
            if rng.one_in(2) {
                ends_apart(rng, s);
            }
        }
    }
    // Rows sum to at most 4294967294, sometimes to just that.
    let sum = |segs: &[Seg]| segs.iter().map(|s| s.rows as u64).sum::<u64>();
    while sum(&segs) > 4294967294 {
        segs.pop();
    }
    if shape == Shape::Huge && rng.one_in(3) {
        let rest = (4294967294 - sum(&segs)) as u32;
        match segs.iter_mut().find(|s| s.ty == 255 || s.kind == 2) {
            Some(s) if rng.one_in(2) => s.rows += rest,
            _ => segs.push(Seg { ty: 255, rows: rest, ..Seg::default() }),
        }
    }
    let required = match rng.below(10) {
        0 | 1 => ty_of(rng),
        2 if base == 0 => rng.below(3) as u32,
        3 if rng.one_in(5) => rng.pick(&[1, IP]),
        _ => 255,
    };
    let mut input = Input { mode, required, segs, addresses: vec![] };
    if mode == 1 {
        input.addresses = addresses(rng, &input.segs);
    }
    // A value that fits only one of I64 and U64, in a withdrawn row: it counts all the same.
    if base == 0 && mode == 1 && rng.one_in(10) {
        for s in input.segs.iter_mut().filter(|s| s.ty <= 1 && s.alive.is_some()) {
            let withdrawn = model::filled(s).into_iter().find(|(row, _)| !s.is_alive(*row));
            if let Some((_, range)) = withdrawn {
                s.values[range.start] = u64::MAX as u128;
                if rng.one_in(2) {
                    input.required = 1 - s.ty;
                    return input;
                }
            }
        }
    }
    // Mostly something to join: a required type that can't be had is seldom left.
    let unable =
        |input: &Input| input.segs.iter().any(|s| model::held(s) && !model::coercible(s, input.required));
    if input.required != 255 && !rng.one_in(4) && unable(&input) {
        input.required = 255;
    }
    input
}
