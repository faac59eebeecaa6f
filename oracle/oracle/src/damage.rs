//! Damaged copies of good inputs. Which number they are answered with, if any, is the table's, for the
//! converter convert.rs's, for the time order order.rs's, for withdraw and reinstate withdraw.rs's.
use crate::convert::{self, Space};
use crate::model;
use crate::order;
use crate::rng::Rng;
use crate::table::{self, Lent};
use crate::wire::{IP, Input, NARROW, Pair, RECORD, Record, Sections, Seg, values_of, width};
use crate::withdraw::AliveSet;

const ODD: &[u32] = &[5, IP, 8, 9, 100, 254, 256, 257, 511, 65_535, 1 << 31, u32::MAX - 1, u32::MAX];
const TYPES: &[u32] = &[0, 1, 2, 3, 4, 5, IP, IP, 7, 255];

/// Changes one thing in a segment or in the addresses; record numbers stay those of the runs.
fn segments(rng: &mut Rng, input: &mut Input) {
    if rng.one_in(6) || input.segs.is_empty() {
        return addresses(rng, input);
    }
    if rng.one_in(20) {
        return cancelling_counts(rng, &mut input.segs);
    }
    if rng.one_in(20) {
        return exchanged_pairs(rng, &mut input.segs);
    }
    let i = rng.index(input.segs.len());
    segment(rng, &mut input.segs[i], input.mode == 1);
}

fn addresses(rng: &mut Rng, input: &mut Input) {
    let n = input.segs.len();
    let list = &mut input.addresses;
    match rng.below(8) {
        0 => list.push([rng.below(n as u64 + 2) as u32, rng.below(8) as u32]),
        1 => drop(list.pop()),
        2 if !list.is_empty() => list.push(list[rng.index(list.len())]),
        3 if !list.is_empty() => {
            let i = rng.index(list.len());
            list[i][0] = rng.below(n as u64 + 1) as u32;
        }
        4 if !list.is_empty() => {
            let i = rng.index(list.len());
            list[i][1] = list[i][1].wrapping_add(rng.pick(&[1, u32::MAX, 1 << 31]));
        }
        5 if !list.is_empty() => drop(list.remove(rng.index(list.len()))),
        6 if !list.is_empty() => {
            let (i, j) = (rng.index(list.len()), rng.index(list.len()));
            list[i] = list[j];
        }
        _ => input.mode ^= 1,
    }
}

fn segment(rng: &mut Rng, s: &mut Seg, ordered: bool) {
    let step = rng.pick(&[1, u32::MAX, 2]);
    fn at<T>(rng: &mut Rng, list: &[T]) -> Option<usize> {
        if list.is_empty() { None } else { Some(rng.index(list.len())) }
    }
    let before = s.right_pair();
    match rng.below(30) {
        0 => {
            s.ty = rng.pick(TYPES);
            stale(rng, s, before);
        }
        1 => s.kind = rng.below(5) as u32,
        2 => s.rows = s.rows.wrapping_add(step),
        3 => s.rows = rng.pick(&[0, 65_536, 65_537, 1 << 31, u32::MAX - 1, u32::MAX]),
        4 => s.ids.push(rng.below(s.rows as u64 + 2) as u32),
        5 => drop(s.ids.pop()),
        6 => {
            if let Some(j) = at(rng, &s.ids) {
                s.ids[j] = s.ids[j].wrapping_add(step);
            }
        }
        7 => s.offsets.push(s.offsets.last().copied().unwrap_or(0).wrapping_add(rng.below(2) as u32)),
        8 => drop(s.offsets.pop()),
        9 | 10 => {
            if let Some(j) = at(rng, &s.offsets) {
                s.offsets[j] = s.offsets[j].wrapping_add(step);
            }
        }
        11 => s.values.push(0),
        12 => drop(s.values.pop()),
        13 | 14 => {
            if let Some(j) = at(rng, &s.values) {
                s.values[j] = rng.pick(&[2, s.terms.len() as u128, 1 << 32, 1 << 63, u64::MAX as u128]);
                stale(rng, s, before);
            }
        }
        15 => s.terms.push(s.terms.last().cloned().unwrap_or_default()),
        16 => drop(s.terms.pop()),
        17 => s.terms.reverse(),
        18 => {
            if let Some(j) = at(rng, &s.terms) {
                match rng.below(3) {
                    0 => s.terms[j].push(0),
                    1 => drop(s.terms[j].pop()),
                    _ => s.terms[j].clear(),
                }
            }
        }
        19 => s.terms.push(vec![255; 30]),
        // An alive set where none was, or none where one was.
        20 => {
            s.alive = match &s.alive {
                Some(_) => None,
                None => Some(vec![0; (s.rows.div_ceil(64) as usize).min(100)]),
            }
        }
        21 | 22 => {
            let before = s.right_count();
            if let Some(word) = s.alive.as_mut().and_then(|words| words.last_mut()) {
                *word |= 1 << rng.pick(&[63, s.rows % 64, s.rows.wrapping_sub(1) % 64, 0]);
                uncounted(rng, s, before);
            } else if !ordered {
                s.alive = Some(vec![0; (s.rows.div_ceil(64) as usize).min(100)]);
            }
        }
        23 | 24 => count(rng, s),
        25..29 => pair(rng, s),
        _ => {
            s.kind = 2;
            s.ids.clear();
            s.offsets.clear();
            s.values.clear();
        }
    }
}

/// Half of the time the number of alive rows stays as it was before a bit was set.
fn uncounted(rng: &mut Rng, s: &mut Seg, before: u32) {
    if rng.one_in(2) {
        s.set_count(before);
    }
}

/// Another number of alive rows: one more or less, 0, all rows, that of the withdrawn ones, or with a bit
/// turned.
fn count(rng: &mut Rng, s: &mut Seg) {
    let right = s.right_count();
    s.set_count(match rng.below(8) {
        0 | 1 => right.wrapping_add(1),
        2 | 3 => right.wrapping_sub(1),
        4 => 0,
        5 => s.rows,
        6 => s.rows.wrapping_sub(right),
        _ => right ^ 1 << rng.below(32),
    });
}

/// Now and then the pair stays as it was before type or values changed.
fn stale(rng: &mut Rng, s: &mut Seg, before: Pair) {
    if rng.one_in(4) {
        s.set_pair(before);
    }
}

/// Another pair: one of the two one more or less, or with a bit turned; exchanged; 0; in the other type's order;
/// of the alive rows' values; of one half; of one value.
fn pair(rng: &mut Rng, s: &mut Seg) {
    let right = s.right_pair();
    let [least, greatest] = right;
    s.set_pair(match rng.below(14) {
        _ if right == [0, 0] => pair_of_none(rng, s),
        0 => [least.wrapping_add(1), greatest],
        1 => [least.wrapping_sub(1), greatest],
        2 => [least, greatest.wrapping_add(1)],
        3 => [least, greatest.wrapping_sub(1)],
        4 => [greatest, least],
        5 => rng.pick(&[[0, 0], [0, greatest], [least, 0]]),
        6 => Seg { ty: 1 - s.ty, ..s.clone() }.right_pair(),
        7 | 8 => alive_pair(s),
        9 => [least ^ 1 << rng.below(64), greatest],
        10 => [least, greatest ^ 1 << rng.below(64)],
        11 => [half(rng, least), greatest],
        12 => [least, half(rng, greatest)],
        _ => [rng.pick(&[least, greatest, s.values[0] as u64, s.values[s.values.len() - 1] as u64]); 2],
    });
}

/// One half, or the halves exchanged.
fn half(rng: &mut Rng, word: u64) -> u64 {
    rng.pick(&[word as u32 as u64, word >> 32 << 32, word >> 32, word.rotate_left(32)])
}

/// A pair where 0 and 0 is right: that of the words as integers, what a fold begins with, one bit, any.
fn pair_of_none(rng: &mut Rng, s: &Seg) -> Pair {
    match rng.below(5) {
        0 | 1 if !s.values.is_empty() => Seg { ty: rng.below(2) as u32, ..s.clone() }.right_pair(),
        2 => rng.pick(&[[u64::MAX, 0], [0, u64::MAX], [(1 << 63) - 1, 1 << 63], [1 << 63, (1 << 63) - 1]]),
        3 => {
            let bit = 1 << rng.below(64);
            rng.pick(&[[bit, 0], [0, bit], [bit, bit]])
        }
        _ => rng.pick(&[[0, 1], [1, 0], [1, 1], [7, 9]]),
    }
}

/// The pair of the alive rows' values alone.
fn alive_pair(s: &Seg) -> Pair {
    let fits = |words: &Vec<u64>| words.len() == s.rows.div_ceil(64) as usize;
    if table::runs_of(s) || !s.alive.as_ref().is_some_and(fits) {
        return s.right_pair();
    }
    let alive = model::filled(s).into_iter().filter(|(row, _)| s.is_alive(*row));
    let values = alive.flat_map(|(_, range)| s.values[range].to_vec()).collect();
    Seg { values, ..s.clone() }.right_pair()
}

/// The pair of any segment, beside other damages, so that what comes before 5 and what after it is tried with
/// it.
fn any_pair(rng: &mut Rng, segs: &mut [Seg]) {
    if rng.one_in(8) && !segs.is_empty() {
        let i = rng.index(segs.len());
        pair(rng, &mut segs[i]);
    }
}

/// The pairs of two segments exchanged, or that of one in both.
fn exchanged_pairs(rng: &mut Rng, segs: &mut [Seg]) {
    if segs.len() < 2 {
        return;
    }
    let i = rng.index(segs.len());
    let j = (i + 1 + rng.index(segs.len() - 1)) % segs.len();
    let [one, other] = [i, j].map(|i| segs[i].right_pair());
    segs[j].set_pair(one);
    if rng.one_in(2) {
        segs[i].set_pair(other);
    }
}

/// Numbers of alive rows of two segments that are wrong and have the right sum.
fn cancelling_counts(rng: &mut Rng, segs: &mut [Seg]) {
    if segs.len() < 2 {
        return;
    }
    let i = rng.index(segs.len());
    let j = (i + 1 + rng.index(segs.len() - 1)) % segs.len();
    let [more, less] = [i, j].map(|i| segs[i].right_count());
    let step = rng.pick(&[1, 1, 2, less, less.wrapping_sub(more)]);
    segs[i].set_count(more.wrapping_add(step));
    segs[j].set_count(less.wrapping_sub(step));
}

/// Turns a segment to kind 3, with the lists that make it right, or leaves them as they are.
fn old_kind(rng: &mut Rng, input: &mut Input) {
    if input.segs.is_empty() {
        return;
    }
    let i = rng.index(input.segs.len());
    let s = &mut input.segs[i];
    let can_be_right = s.ty != 255 && s.rows <= 200_000 && !table::runs_of(s);
    if can_be_right && !rng.one_in(4) {
        let mut counts = vec![0; s.rows as usize];
        model::filled(s).into_iter().for_each(|(row, range)| counts[row as usize] = range.len() as u32);
        s.ids.clear();
        s.offsets = vec![0];
        for count in counts {
            s.offsets.push(s.offsets.last().unwrap() + count);
        }
    }
    s.kind = 3;
}

/// Changes one thing in the sections: lengths, and numbers that nobody knows.
fn sections(rng: &mut Rng, s: &mut Sections) {
    match rng.below(20) {
        0 => s.mode = rng.pick(&[0, 1, 2, 3, 255, 256, u32::MAX]),
        1 => s.required = rng.pick(ODD),
        2..19 => records_and_runs(rng, s),
        _ if rng.one_in(4) => many_segments(rng, s),
        _ => s.required = rng.pick(TYPES),
    }
}

/// Too many segments, or as many as may be.
fn many_segments(rng: &mut Rng, s: &mut Sections) {
    let many = rng.pick(&[255, 256, 256, 257, 257, 300]);
    while s.records.len() < many {
        s.records.push(Seg { ty: 255, ..Seg::default() }.record());
    }
}

fn records_and_runs(rng: &mut Rng, s: &mut Sections) {
    let n = s.records.len();
    match rng.between(2, 20) {
        2..5 if n > 0 => s.records[rng.index(n)][rng.pick(&[0, 0, 1, 7])] = rng.pick(ODD),
        5..8 if n > 0 => {
            let number = &mut s.records[rng.index(n)][rng.index(6) + 3];
            *number = number.wrapping_add(rng.pick(&[1, u32::MAX, 1 << 31]));
        }
        // Errors of two records that cancel, those of values in words.
        8 | 9 if n > 1 => {
            let (i, j, k) = (rng.index(n), rng.index(n), rng.pick(&[3, 4, 5, 6, 8]));
            let in_words = k == 5 && !rng.one_in(4);
            let [more, less] =
                [j, i].map(|other| if in_words { width(s.records[other][0]) as u32 } else { 1 });
            s.records[i][k] = s.records[i][k].wrapping_add(more);
            s.records[j][k] = s.records[j][k].wrapping_sub(less);
        }
        10 => s.ids.push(0),
        11 => s.offsets.push(0),
        12 => s.values.extend(vec![0; 1 + rng.index(2)]),
        13 => s.alive.push(0),
        14 => s.term_lengths.push(0),
        15 => s.term_bytes.push(0),
        16 => match rng.below(6) {
            0 => drop(s.ids.pop()),
            1 => drop(s.offsets.pop()),
            2 => s.values.truncate(s.values.len().saturating_sub(1 + rng.index(2))),
            3 => drop(s.alive.pop()),
            4 => drop(s.term_lengths.pop()),
            _ => drop(s.term_bytes.pop()),
        },
        17 if !s.term_lengths.is_empty() => {
            let i = rng.index(s.term_lengths.len());
            s.term_lengths[i] = s.term_lengths[i].wrapping_add(rng.pick(&[1, u32::MAX, 1 << 31]));
        }
        // Two lengths whose errors cancel.
        18 if s.term_lengths.len() > 1 => {
            let (i, j) = (rng.index(s.term_lengths.len()), rng.index(s.term_lengths.len()));
            s.term_lengths[i] = s.term_lengths[i].wrapping_add(1);
            s.term_lengths[j] = s.term_lengths[j].wrapping_sub(1);
        }
        19 | 20 if n > 0 => values_and_words(rng, s),
        _ => {}
    }
}

/// Confuses values and words: a word for each value, values announced by their words, or a column of
/// addresses taken for one of words with the same words, and the other way round. Rows then follow.
fn values_and_words(rng: &mut Rng, s: &mut Sections) {
    let values: usize = s.records.iter().map(|r| r[5] as usize).sum();
    let i = rng.index(s.records.len());
    let r = &mut s.records[i];
    let before = r[5];
    match rng.below(5) {
        0 => s.values.truncate(values),
        1 => r[5] = r[5].wrapping_mul(2),
        2 if r[0] != 255 => r[0] = if r[0] == IP { rng.pick(&[0, 1, 2, 7, 8]) } else { IP },
        _ if r[0] == IP => (r[0], r[5]) = (rng.pick(&[1, 1, 5, 8]), r[5].wrapping_mul(2)),
        _ if r[0] != 255 && r[5].is_multiple_of(2) => (r[0], r[5]) = (IP, r[5] / 2),
        _ => {}
    }
    if r[1] == 1 && r[2] == before {
        r[2] = r[5];
    }
    if !rng.one_in(4) {
        pair_again(s, i);
    }
}

/// Puts a record's pair right once its type or its number of values has changed.
fn pair_again(s: &mut Sections, i: usize) {
    let words = |r: &Record| r[5] as usize * width(r[0]);
    let from: usize = s.records[..i].iter().map(words).sum();
    let r = &mut s.records[i];
    if let Some(run) = s.values.get(from..from.saturating_add(words(r))) {
        r.set_pair(Seg { ty: r[0], values: values_of(r[0], run), ..Seg::default() }.right_pair());
    }
}

/// Lends less, mostly one element less than is needed; an address less, or half of it.
fn space(rng: &mut Rng, lent: &mut Lent) {
    let place = match rng.below(7) {
        0 => &mut lent.working,
        1 => &mut lent.ids,
        2 => &mut lent.offsets,
        3 => &mut lent.values,
        4 => &mut lent.term_lengths,
        5 => &mut lent.term_bytes,
        _ => &mut lent.map,
    };
    *place = match rng.below(8) {
        0 | 1 => 0,
        2 => *place / 2,
        3 => place.saturating_sub(2),
        _ => place.saturating_sub(1),
    };
}

/// A copy with one to three damages. `needed`: what an accepted input needs at least.
pub fn copy(rng: &mut Rng, good: &Input, needed: Lent, lent: Lent) -> (Sections, Lent) {
    let mut input = good.clone();
    let mut lent = lent;
    let times = rng.pick(&[1, 1, 1, 2, 2, 3]);
    let mut in_sections = 0;
    // Beside the others, so that what comes before 19 and what after it is tried with it.
    if rng.one_in(8) {
        old_kind(rng, &mut input);
    }
    any_pair(rng, &mut input.segs);
    for _ in 0..times {
        match rng.below(10) {
            0..6 => segments(rng, &mut input),
            6..8 => in_sections += 1,
            _ => {
                lent = needed;
                space(rng, &mut lent);
            }
        }
    }
    let mut s = input.sections();
    for _ in 0..in_sections {
        sections(rng, &mut s);
    }
    (s, lent)
}

/// A copy of a segment of kind 3 for the converter, with one to three damages, in too little space
/// for ids or for offsets, or both.
pub fn stored(rng: &mut Rng, good: &Seg) -> (Sections, Space) {
    let mut space = convert::needed(good);
    let mut damaged = good.clone();
    let mut in_sections = 0;
    any_pair(rng, std::slice::from_mut(&mut damaged));
    for _ in 0..rng.pick(&[1, 1, 1, 2, 2, 3]) {
        match rng.below(12) {
            0..6 => segment(rng, &mut damaged, true),
            6..8 => in_sections += 1,
            8 | 9 if damaged.rows <= 200_000 => past_the_rows(rng, &mut damaged),
            _ => {
                let place = if rng.one_in(2) { &mut space.ids } else { &mut space.offsets };
                *place = if rng.one_in(4) { 0 } else { place.saturating_sub(1) };
            }
        }
    }
    let mut s = convert::sections(&damaged);
    for _ in 0..in_sections {
        records_and_runs(rng, &mut s);
    }
    (s, space)
}

/// All rows alive, and a bit past them where the last word has place for one.
fn past_the_rows(rng: &mut Rng, s: &mut Seg) {
    let (words, past) = (s.rows.div_ceil(64) as usize, s.rows % 64);
    let mut set = vec![u64::MAX; words];
    if past > 0 {
        let bit = rng.between(past as u64, 63);
        set[words - 1] = !(u64::MAX << past) | 1 << bit;
    }
    s.alive = Some(set);
    uncounted(rng, s, s.rows);
}

/// A copy of segments for the time order, with one to three damages, in too little space among them.
pub fn order(rng: &mut Rng, good: &[Seg]) -> (Sections, usize) {
    let mut input = Input { mode: 0, required: 255, segs: good.to_vec(), addresses: vec![] };
    let mut space = order::alive_rows(good) as usize;
    let mut in_sections = 0;
    if rng.one_in(8) {
        old_kind(rng, &mut input);
    }
    any_pair(rng, &mut input.segs);
    for _ in 0..rng.pick(&[1, 1, 1, 2, 2, 3]) {
        match rng.below(18) {
            0..3 => in_sections += 1,
            3 => many_rows(rng, &mut input.segs),
            4..6 => space = if rng.one_in(4) { 0 } else { space.saturating_sub(1) },
            16 => cancelling_counts(rng, &mut input.segs),
            17 => exchanged_pairs(rng, &mut input.segs),
            how => one_segment(rng, how, &mut input.segs),
        }
    }
    let mut s = input.sections();
    for _ in 0..in_sections {
        match rng.below(6) {
            0 => many_segments(rng, &mut s),
            _ => records_and_runs(rng, &mut s),
        }
    }
    (s, space)
}

fn one_segment(rng: &mut Rng, how: u64, segs: &mut [Seg]) {
    if segs.is_empty() {
        return;
    }
    let i = rng.index(segs.len());
    let s = &mut segs[i];
    match how {
        6..8 if s.rows <= 200_000 => past_the_rows(rng, s),
        8..12 => times(rng, s),
        _ => segment(rng, s, true),
    }
}

/// Rows that sum to just what 7 allows, or to one or two more.
fn many_rows(rng: &mut Rng, segs: &mut Vec<Seg>) {
    let rows: u64 = segs.iter().map(|s| s.rows as u64).sum();
    let rest = rng.pick(&[4294967294, 4294967295, 4294967296u64]).saturating_sub(rows);
    segs.push(Seg { ty: 255, rows: rest.min(u32::MAX as u64) as u32, ..Seg::default() });
}

/// Changes what 12 asks for: the type, how many times a row has, or that times don't fall.
fn times(rng: &mut Rng, s: &mut Seg) {
    match rng.below(8) {
        0 => s.ty = rng.pick(&[0, 1, 2, IP]),
        1 => {
            let ty = rng.pick(&[0, 1, 2, 3, 4, 5, IP]);
            *s = Seg { ty, rows: s.rows, alive: s.alive.clone(), ..Seg::default() };
        }
        2..4 => several_times(rng, s),
        _ if s.values.len() < 2 => {}
        how => {
            let j = 1 + rng.index(s.values.len() - 1);
            match how {
                4 => s.values.swap(j - 1, j),
                5 => s.values[j - 1] = rng.pick(&[0, 1 << 62, i64::MAX as u128]),
                _ => {
                    let time = s.values[j - 1] as u64;
                    s.values[j] = time.wrapping_sub(rng.pick(&[1, 1, 2, 1 << 63])) as u128;
                }
            }
        }
    }
}

/// The times of two rows in one, as kind 4 has them.
fn several_times(rng: &mut Rng, s: &mut Seg) {
    if !matches!(s.kind, 1 | 2 | 4) || table::runs_of(s) {
        return;
    }
    if s.kind == 1 {
        s.ids = (0..s.rows).collect();
    }
    if s.kind != 4 {
        s.kind = 4;
        s.offsets = (0..=s.ids.len() as u32).collect();
    }
    if s.ids.len() > 1 {
        s.ids.remove(rng.index(s.ids.len()));
        s.offsets.remove(1 + rng.index(s.ids.len()));
    }
}

/// A copy of a record and its alive words for withdraw and reinstate, with one or two damages.
pub fn alive(rng: &mut Rng, good: &AliveSet) -> AliveSet {
    let mut set = good.clone();
    for _ in 0..rng.pick(&[1, 1, 2]) {
        alive_once(rng, &mut set);
    }
    set
}

fn alive_once(rng: &mut Rng, set: &mut AliveSet) {
    let AliveSet { record, words } = set;
    let past = record[2] % 64;
    match rng.below(16) {
        0 => words.push(rng.pick(&[0, 1, u64::MAX])),
        1 => drop(words.pop()),
        2 => words.clear(),
        // Words without an alive set, or the other way round.
        3 => record[7] = 0,
        4 => (record[7], record[8]) = (1, 0),
        5 => record[7] = rng.pick(&[2, 3, 256, 257, 1 << 31, u32::MAX]),
        6 => {
            record[7] = rng.pick(&[2, u32::MAX]);
            words.clear();
        }
        // A bit past the rows, counted or not.
        7..10 if past > 0 && !words.is_empty() => {
            *words.last_mut().unwrap() |= 1 << rng.between(past as u64, 63);
            record[8] = record[8].wrapping_add(rng.below(2) as u32);
        }
        10 => record[2] = record[2].wrapping_add(rng.pick(&[1, 64, u32::MAX])),
        11 => record[2] = rng.pick(&[0, u32::MAX - 64, u32::MAX - 63, u32::MAX - 62, u32::MAX]),
        12 => record[8] = rng.pick(&[0, record[2], record[2].wrapping_sub(record[8]), u32::MAX]),
        13 => record[8] ^= 1 << rng.below(32),
        _ => record[8] = record[8].wrapping_add(rng.pick(&[1, u32::MAX])),
    }
}

/// Where the first record stands in a wire form, in words.
const FIRST_RECORD: usize = 4;

/// Damages of the wire form itself.
pub fn wire(rng: &mut Rng, bytes: &mut Vec<u8>) {
    let words = bytes.len() / 8;
    match rng.below(10) {
        0 => bytes.truncate(rng.index(bytes.len() + 1)),
        1 => bytes.truncate(8 * rng.index(words + 1)),
        2 => bytes.extend(vec![0; rng.index(17)]),
        3 if words > 0 => bytes[..8].copy_from_slice(&rng.pick(&[0u64, 1, 3, 1 << 32]).to_le_bytes()),
        // One word, counts among them, made wide, or as wide as 8, 11, 16 or 88 times it wraps.
        4..7 if words > 0 => {
            let at = 8 * rng.index(words);
            const WRAPPING: &[u64] = &[1 << 58, 1 << 60, 1 << 61, 1 << 63, 0x2E8BA2E8BA2E8BA3, u64::MAX];
            let wide = if rng.one_in(4) { rng.pick(&[256, 1 << 32]) } else { rng.pick(WRAPPING) };
            let word = u64::from_le_bytes(bytes[at..at + 8].try_into().unwrap());
            let word = if rng.one_in(2) { word.wrapping_add(wide) } else { wide };
            bytes[at..at + 8].copy_from_slice(&word.to_le_bytes());
        }
        // A number of alive rows of 33 bits or more, the low ones as they were, if it is where it should be;
        // and the same of the least or greatest value, which may be as wide.
        how @ (7 | 8) if words >= FIRST_RECORD + RECORD => {
            let records = bytes[8 * (FIRST_RECORD - 1)] as usize;
            let number = if how == 7 { NARROW - 1 } else { NARROW + rng.index(2) };
            let word = FIRST_RECORD + RECORD * rng.index(records.max(1)) + number;
            if let Some(byte) = bytes.get_mut(8 * word + rng.between(4, 7) as usize) {
                *byte |= 1 << rng.below(8);
            }
        }
        _ if words > 0 => {
            let at = 8 * rng.index(words);
            let word = u64::from_le_bytes(bytes[at..at + 8].try_into().unwrap());
            let word = word.wrapping_add(rng.pick(&[1, u64::MAX]));
            bytes[at..at + 8].copy_from_slice(&word.to_le_bytes());
        }
        _ => bytes.push(0),
    }
}
