//! The measured inputs. Deterministic: the random numbers of segment i are splitmix64's from seed
//! i + 1, the random order's from seed 0.
//!
//! full       kind 1, U64, value = next() >> 24
//! opt        kind 2, U64, a row has a value if next() is even
//! optsparse  kind 2, U64, a row has a value if next() % 50 == 0
//! multi      kind 4, U64, next() % 4 values in a row
//! mixed      kind 1, I64 and U64 in turn, value = next() >> 24: joined type I64
//! mixed-f64  kind 1, I64, U64 and F64 in turn, integers = next(): joined type F64
//! str        kind 1, Str, one term for ten rows but at most 100,000 ("term" and 8 digits, of twice
//!            as many), value = next() % terms
//! terms      the same with one term for each row, and a hundredth of the rows
//! ip         kind 1, IpAddr, high word = next(), low word = next()
//!
//! stacked            segment after segment
//! interleaved        row 0 of each segment, row 1 of each segment, ..
//! shuffled           in random order
//! interleaved-alive  interleaved, one row in ten withdrawn
//!
//! The time order's segments are DateTime, and their times lie
//!
//! in turn      one second later each row, and each segment after the one before it
//! overlapping  sorted next() >> 24
//!
//! all timed        kind 1
//! half untimed     kind 2, a row keeps its time if next() is even
//! tenth withdrawn  kind 1, one row in ten withdrawn
//!
//! The converter's segment is that of multi as kind 3, from seed 1. The alive set that withdraw and reinstate
//! change has one row in ten withdrawn, from seed 1.
use tantivy_columnar::ColumnType;

use crate::rng::Rng;
use crate::wire::{IP, Input, Seg};
use crate::withdraw::AliveSet;

pub const COLUMNS: &[&str] =
    &["full", "opt", "optsparse", "multi", "mixed", "mixed-f64", "str", LISTENERS, TERMS];
/// The column of addresses.
pub const LISTENERS: &str = "ip";
/// The column that is measured with up to 256 segments.
pub const TERMS: &str = "terms";
pub const ORDERS: &[&str] = &["stacked", "interleaved", "shuffled", "interleaved-alive"];

/// A line of the table: a column in a row order.
#[derive(Clone, Copy)]
pub struct Line {
    pub column: &'static str,
    pub order: &'static str,
}

/// All lines whose name has `word` in it.
pub fn lines(word: &str) -> Vec<Line> {
    let all = COLUMNS.iter().flat_map(|&column| ORDERS.iter().map(move |&order| Line { column, order }));
    all.filter(|l| l.name().contains(word)).collect()
}

impl Line {
    pub fn name(&self) -> String {
        format!("{} {}", self.column, self.order)
    }

    pub fn joined_type(&self) -> ColumnType {
        match self.column {
            "mixed" => ColumnType::I64,
            "mixed-f64" => ColumnType::F64,
            "str" | TERMS => ColumnType::Str,
            LISTENERS => ColumnType::IpAddr,
            _ => ColumnType::U64,
        }
    }

    /// How often the crate opens stand-in storage for a segment: its values, and the offsets or the
    /// terms.
    pub fn openings(&self) -> u32 {
        match self.column {
            "multi" | "str" | TERMS => 2,
            _ => 1,
        }
    }

    /// The rows of a segment, where `rows` are those of most columns.
    pub fn rows(&self, rows: u32) -> u32 {
        if self.column == TERMS { rows.div_ceil(100) } else { rows }
    }

    pub fn input(&self, segs: usize, rows: u32) -> Input {
        let mode = (self.order != "stacked") as u32;
        let segs = (0..segs as u64).map(|i| self.segment(i, rows)).collect();
        let mut input = Input { mode, required: 255, segs, addresses: vec![] };
        if mode == 1 {
            input.addresses = interleaved(&input.segs, rows);
        }
        if self.order == "shuffled" {
            shuffle(&mut input.addresses);
        }
        input
    }

    fn segment(&self, i: u64, rows: u32) -> Seg {
        let mut rng = Rng::new(1 + i);
        let mut s = Seg { ty: 1, kind: 1, rows, ..Seg::default() };
        if self.order == "interleaved-alive" {
            s.alive = Some(alive(&mut rng, rows));
        }
        match self.column {
            "full" => s.values = words(&mut rng, rows),
            "opt" => optional(&mut s, &mut rng, 2),
            "optsparse" => optional(&mut s, &mut rng, 50),
            "multi" => multivalued(&mut s, &mut rng, 4),
            "mixed" => {
                s.ty = i as u32 % 2;
                s.values = words(&mut rng, rows);
            }
            "mixed-f64" => {
                s.ty = i as u32 % 3;
                s.values = (0..rows).map(|_| number(s.ty, rng.next())).collect();
            }
            "str" => dictionary(&mut s, &mut rng, (rows as usize / 10).clamp(1, 100_000)),
            TERMS => dictionary(&mut s, &mut rng, rows as usize),
            LISTENERS => {
                s.ty = IP;
                s.values = (0..rows).map(|_| (rng.next() as u128) << 64 | rng.next() as u128).collect();
            }
            other => panic!("column {other}?"),
        }
        s
    }
}

/// A line of the time order's table: how the segments' times lie, and which rows have one.
#[derive(Clone, Copy)]
pub struct OrderLine {
    pub times: &'static str,
    pub rows: &'static str,
}

pub const IN_TURN: &str = "in turn";
const HALF_UNTIMED: &str = "half untimed";
const TENTH_WITHDRAWN: &str = "tenth withdrawn";

/// All lines whose name has `word` in it.
pub fn order_lines(word: &str) -> Vec<OrderLine> {
    let rows = |times| ["all timed", HALF_UNTIMED, TENTH_WITHDRAWN].map(|rows| OrderLine { times, rows });
    let all = [IN_TURN, "overlapping"].into_iter().flat_map(rows);
    all.filter(|line| line.name().contains(word)).collect()
}

impl OrderLine {
    pub fn name(&self) -> String {
        format!("time order {} {}", self.times, self.rows)
    }

    pub fn segments(&self, segs: usize, rows: u32) -> Vec<Seg> {
        (0..segs as u64).map(|i| self.segment(i, rows)).collect()
    }

    fn segment(&self, i: u64, rows: u32) -> Seg {
        let mut rng = Rng::new(1 + i);
        let n = rows as u64;
        let mut times: Vec<u128> = match self.times {
            IN_TURN => (i * n..(i + 1) * n).map(|second| 1_000_000_000 * second as u128).collect(),
            _ => words(&mut rng, rows),
        };
        times.sort_unstable();
        let mut s = Seg { ty: 7, kind: 1, rows, values: times, ..Seg::default() };
        match self.rows {
            HALF_UNTIMED => {
                s.kind = 2;
                s.ids = (0..rows).filter(|_| rng.one_in(2)).collect();
                s.values = s.ids.iter().map(|&row| s.values[row as usize]).collect();
            }
            TENTH_WITHDRAWN => s.alive = Some(alive(&mut rng, rows)),
            _ => {}
        }
        s
    }
}

/// The segment that is converted.
pub fn stored(ty: u32, rows: u32) -> Seg {
    let mut s = Seg { ty, rows, ..Seg::default() };
    multivalued(&mut s, &mut Rng::new(1), 3);
    s
}

/// The alive set that is changed, and its record.
pub fn withdrawing(rows: u32) -> AliveSet {
    let alive = Some(alive(&mut Rng::new(1), rows));
    AliveSet::of(&Seg { ty: 1, rows, alive, ..Seg::default() })
}

/// One of its alive rows.
pub fn alive_row(rng: &mut Rng, set: &AliveSet) -> u32 {
    loop {
        let row = rng.below(set.rows() as u64) as u32;
        if set.words[row as usize / 64] >> (row % 64) & 1 == 1 {
            return row;
        }
    }
}

/// The words whose least and greatest are found.
pub fn column(rows: u32) -> Vec<u64> {
    let rng = &mut Rng::new(1);
    (0..rows).map(|_| rng.next()).collect()
}

fn words(rng: &mut Rng, n: u32) -> Vec<u128> {
    (0..n).map(|_| (rng.next() >> 24) as u128).collect()
}

fn number(ty: u32, word: u64) -> u128 {
    match ty {
        2 => (word as f64 / 1024.0).to_bits() as u128,
        _ => word as u128,
    }
}

fn optional(s: &mut Seg, rng: &mut Rng, one_in: u64) {
    s.kind = 2;
    s.ids = (0..s.rows).filter(|_| rng.one_in(one_in)).collect();
    s.values = words(rng, s.ids.len() as u32);
}

fn multivalued(s: &mut Seg, rng: &mut Rng, kind: u32) {
    s.kind = kind;
    s.offsets.push(0);
    let mut total = 0;
    for row in 0..s.rows {
        let n = rng.below(4) as u32;
        total += n;
        if n > 0 && kind == 4 {
            s.ids.push(row);
        }
        if n > 0 || kind == 3 {
            s.offsets.push(total);
        }
    }
    s.values = words(rng, total);
}

fn dictionary(s: &mut Seg, rng: &mut Rng, most: usize) {
    s.ty = 4;
    let all = 2 * most;
    for t in 0..all {
        // each choice of so many terms is equally likely
        if rng.index(all - t) < most - s.terms.len() {
            s.terms.push(format!("term{t:08}").into_bytes());
        }
    }
    s.values = (0..s.rows).map(|_| rng.below(most as u64) as u128).collect();
}

fn alive(rng: &mut Rng, rows: u32) -> Vec<u64> {
    let mut words = vec![0u64; rows.div_ceil(64) as usize];
    for row in 0..rows {
        if !rng.one_in(10) {
            words[(row / 64) as usize] |= 1 << (row % 64);
        }
    }
    words
}

fn interleaved(segs: &[Seg], rows: u32) -> Vec<[u32; 2]> {
    let mut addresses = Vec::with_capacity(segs.len() * rows as usize);
    for row in 0..rows {
        for (i, s) in segs.iter().enumerate() {
            if s.is_alive(row) {
                addresses.push([i as u32, row]);
            }
        }
    }
    addresses
}

fn shuffle(addresses: &mut [[u32; 2]]) {
    let mut rng = Rng::new(0);
    for i in (1..addresses.len()).rev() {
        addresses.swap(i, rng.index(i + 1));
    }
}
