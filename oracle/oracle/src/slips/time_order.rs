//! Time orders that are wrong on purpose.
use std::cmp::Reverse;

use super::counts::{given, sums, wrong as wrong_count};
use super::listeners::{lengths_by, two_if_unknown};
use super::pairs::{self, right};
use super::{Slip, put_before, put_in_place, slip, split};
use crate::model;
use crate::order::{self, CHECKS, Call, Check, Outcome};
use crate::ours::Addresses;
use crate::table;
use crate::wire::{IP, Sections, Seg};

#[derive(Clone, Copy)]
pub enum How {
    /// The first check right before the second.
    Before(u32, u32),
    /// Without check k.
    Skip(u32),
    /// Another check k.
    Check(u32, Check),
    /// The records' numbers of alive rows tested right after check k.
    CountsAfter(u32),
    /// The records' pairs tested right after check k.
    PairsAfter(u32),
    /// Other addresses.
    Sort(fn(&[Seg]) -> Vec<[u32; 2]>),
    /// Something else is left in memory.
    Leave(fn(&Outcome, &mut Addresses)),
}

const fn wrong(name: &'static str, how: How) -> Slip {
    slip(name, super::How::TimeOrder(how))
}

pub const SLIPS: &[Slip] = &[
    wrong("time order: 2 before 1", How::Before(2, 1)),
    wrong("time order: 3 before 2", How::Before(3, 2)),
    wrong("time order: 19 before 3", How::Before(19, 3)),
    wrong("time order: 4 before 19", How::Before(4, 19)),
    wrong("time order: 5 before 4", How::Before(5, 4)),
    wrong("time order: 6 before 5", How::Before(6, 5)),
    wrong("time order: 7 before 6", How::Before(7, 6)),
    wrong("time order: 11 before 7", How::Before(11, 7)),
    wrong("time order: 12 before 11", How::Before(12, 11)),
    wrong("time order: 12 before 5", How::Before(12, 5)),
    wrong("time order: no 1", How::Skip(1)),
    wrong("time order: no 2", How::Skip(2)),
    wrong("time order: no 3", How::Skip(3)),
    wrong("time order: kind 3 taken as before", How::Skip(19)),
    wrong("time order: no 4", How::Skip(4)),
    wrong("time order: no 5", How::Skip(5)),
    wrong("time order: no 6", How::Skip(6)),
    wrong("time order: no 7", How::Skip(7)),
    wrong("time order: no 11", How::Skip(11)),
    wrong("time order: no 12", How::Skip(12)),
    wrong("time order: 1 from 256 segments on", How::Check(1, |c| c.join.sections.records.len() > 255)),
    wrong("time order: 2 by one word an address", How::Check(2, |c| lengths_by(&c.join, |_| 1))),
    wrong(
        "time order: 2 by two words a value of an unknown type",
        How::Check(2, |c| lengths_by(&c.join, two_if_unknown)),
    ),
    wrong(
        "time order: 3 for type 6",
        How::Check(3, |c| order::unknown(c) || c.join.sections.records.iter().any(|r| r[0] == IP)),
    ),
    wrong("time order: 5 without the pairs", How::Check(5, |c| pairs::without(&c.join))),
    wrong(
        "time order: 5 by the least values alone",
        How::Check(5, |c| pairs::by(&c.join, |p, s| p[0] != right(s)[0])),
    ),
    wrong(
        "time order: 5 by the greatest values alone",
        How::Check(5, |c| pairs::by(&c.join, |p, s| p[1] != right(s)[1])),
    ),
    wrong(
        "time order: 5 by the pairs of integers alone",
        How::Check(5, |c| pairs::by(&c.join, |p, s| table::untrue(p, s) && s.ty <= 1)),
    ),
    wrong(
        "time order: 5 by the pairs of times alone",
        How::Check(5, |c| pairs::by(&c.join, |p, s| table::untrue(p, s) && s.ty == 7)),
    ),
    wrong(
        "time order: 5 by the pairs not for no column",
        How::Check(5, |c| pairs::by(&c.join, |p, s| table::untrue(p, s) && s.ty != 255)),
    ),
    wrong(
        "time order: 5 by the pairs not without values",
        How::Check(5, |c| pairs::by(&c.join, |p, s| table::untrue(p, s) && !s.values.is_empty())),
    ),
    wrong(
        "time order: 5 by the pairs not where no row is alive",
        How::Check(5, |c| pairs::by(&c.join, |p, s| table::untrue(p, s) && table::alive_rows(s) > 0)),
    ),
    wrong(
        "time order: 5 by the first segment's pair alone",
        How::Check(5, |c| {
            pairs::without(&c.join) || table::paired(&c.join).take(1).any(|(p, s)| table::untrue(p, s))
        }),
    ),
    wrong(
        "time order: 5 by the pairs' low halves",
        How::Check(5, |c| pairs::by(&c.join, |p, s| p.map(|w| w as u32) != right(s).map(|w| w as u32))),
    ),
    wrong("time order: 5 by pairs of times", How::Check(5, |c| pairs::by_pair(&c.join, pairs::of_times))),
    wrong(
        "time order: 5 by the unsigned order for I64",
        How::Check(5, |c| pairs::by_pair(&c.join, pairs::unsigned)),
    ),
    wrong("time order: the pairs tested before 19", How::PairsAfter(3)),
    wrong("time order: the pairs tested before 4", How::PairsAfter(19)),
    wrong("time order: the pairs tested after 6", How::PairsAfter(6)),
    wrong("time order: the pairs tested after 7", How::PairsAfter(7)),
    wrong("time order: the pairs tested after 11", How::PairsAfter(11)),
    wrong("time order: the pairs tested after 12", How::PairsAfter(12)),
    wrong(
        "time order: 6 for an alive set",
        How::Check(6, |c| order::alive_sets(c) || c.join.any_segment(|s| s.alive.is_some())),
    ),
    wrong("time order: 6 without the numbers of alive rows", How::Check(6, order::alive_bits)),
    wrong(
        "time order: 6 by the numbers not without an alive set",
        How::Check(6, |c| counts_by(c, |n, s| wrong_count(n, s) && given(s))),
    ),
    wrong(
        "time order: 6 by the numbers not with an alive set",
        How::Check(6, |c| counts_by(c, |n, s| wrong_count(n, s) && !given(s))),
    ),
    wrong(
        "time order: 6 by the numbers not for no column",
        How::Check(6, |c| counts_by(c, |n, s| wrong_count(n, s) && s.ty != 255)),
    ),
    wrong(
        "time order: 6 for a number that is too large alone",
        How::Check(6, |c| counts_by(c, |n, s| n as u64 > table::alive_rows(s))),
    ),
    wrong(
        "time order: 6 by the sum of the numbers",
        How::Check(6, |c| order::alive_bits(c) || sums(&c.join)),
    ),
    wrong(
        "time order: 6 by the first segment's number alone",
        How::Check(6, |c| {
            order::alive_bits(c) || table::counted(&c.join).take(1).any(|(n, s)| wrong_count(n, s))
        }),
    ),
    wrong(
        "time order: 6 not for a bit past the rows that is counted",
        How::Check(6, |c| table::counted(&c.join).any(|(n, s)| n != s.right_count())),
    ),
    wrong(
        "time order: 6 not for a bit past the rows that is not counted",
        How::Check(6, |c| table::counts(&c.join)),
    ),
    wrong("time order: the numbers tested before 5", How::CountsAfter(4)),
    wrong("time order: the numbers tested after 7", How::CountsAfter(7)),
    wrong("time order: the numbers tested after 11", How::CountsAfter(11)),
    wrong("time order: the numbers tested after 12", How::CountsAfter(12)),
    wrong("time order: 7 from 4294967294 rows on", How::Check(7, |c| rows(c) >= 4294967294)),
    wrong("time order: 7 from 4294967296 rows on", How::Check(7, |c| rows(c) > 4294967295)),
    wrong("time order: 11 by all rows", How::Check(11, |c| (c.space as u64) < rows(c))),
    wrong(
        "time order: 11 by the times",
        How::Check(11, |c| c.space < c.segments().iter().map(|s| s.values.len()).sum()),
    ),
    wrong(
        "time order: 11 in exact space",
        How::Check(11, |c| c.space as u64 <= order::alive_rows(c.segments())),
    ),
    wrong(
        "time order: 12 for the rows that are alive alone",
        How::Check(12, |c| {
            c.join.any_segment(|s| {
                let alive = || model::filled(s).into_iter().filter(|(row, _)| s.is_alive(*row));
                let times: Vec<u128> = alive().flat_map(|(_, range)| s.values[range].to_vec()).collect();
                order::another_type(s) || alive().any(|(_, range)| range.len() > 1) || order::falling(&times)
            })
        }),
    ),
    wrong(
        "time order: 12 for equal times",
        How::Check(12, |c| {
            order::times(c) || c.join.any_segment(|s| s.values.windows(2).any(|w| w[0] == w[1]))
        }),
    ),
    wrong(
        "time order: 12 by unsigned times",
        How::Check(12, |c| {
            c.join.any_segment(|s| order::another_type(s) || order::several_times(s) || !s.values.is_sorted())
        }),
    ),
    wrong(
        "time order: 12 not across an untimed row",
        How::Check(12, |c| {
            let next = |w: &[(u32, i64)]| w[0].0 + 1 == w[1].0 && w[0].1 > w[1].1;
            let falling = |s: &Seg| order::timed(s).windows(2).any(next);
            c.join.any_segment(|s| order::another_type(s) || order::several_times(s) || falling(s))
        }),
    ),
    wrong(
        "time order: 12 from one segment to the next",
        How::Check(12, |c| {
            let all: Vec<u128> = c.segments().iter().flat_map(|s| s.values.clone()).collect();
            order::times(c) || order::falling(&all)
        }),
    ),
    wrong(
        "time order: 12 not for another type",
        How::Check(12, |c| c.join.any_segment(|s| order::several_times(s) || order::falling(&s.values))),
    ),
    wrong(
        "time order: 12 not for another type without values",
        How::Check(12, |c| {
            let another_type = |s: &Seg| order::another_type(s) && !s.values.is_empty();
            c.join.any_segment(|s| another_type(s) || order::several_times(s) || order::falling(&s.values))
        }),
    ),
    wrong(
        "time order: 12 not for addresses",
        How::Check(12, |c| {
            let another_type = |s: &Seg| order::another_type(s) && s.ty != IP;
            c.join.any_segment(|s| another_type(s) || order::several_times(s) || order::falling(&s.values))
        }),
    ),
    wrong(
        "time order: 12 for no column",
        How::Check(12, |c| order::times(c) || c.join.any_segment(|s| s.ty == 255)),
    ),
    wrong(
        "time order: 12 not for several times",
        How::Check(12, |c| c.join.any_segment(|s| order::another_type(s) || order::falling(&s.values))),
    ),
    wrong(
        "time order: 12 not for several equal times",
        How::Check(12, |c| {
            let several =
                |s: &Seg| model::filled(s).iter().any(|(_, r)| s.values[r.start] != s.values[r.end - 1]);
            c.join.any_segment(|s| order::another_type(s) || several(s) || order::falling(&s.values))
        }),
    ),
    wrong(
        "time order: 12 not for falling times",
        How::Check(12, |c| c.join.any_segment(|s| order::another_type(s) || order::several_times(s))),
    ),
    wrong(
        "time order: untimed rows at the start before all times",
        How::Sort(|segs| by(segs, |r| last(r.timed, r.row))),
    ),
    wrong(
        "time order: untimed rows at the start at the first time of an alive row",
        How::Sort(|segs| by(segs, |r| last(r.timed, r.row).or(first(r.alive)))),
    ),
    wrong(
        "time order: a withdrawn row's time not taken by those after it",
        How::Sort(|segs| by(segs, |r| last(r.alive, r.row).or(first(r.timed)))),
    ),
    wrong(
        "time order: withdrawn rows give no time",
        How::Sort(|segs| by(segs, |r| order::key(r.alive, r.row))),
    ),
    wrong(
        "time order: a segment whose times are withdrawn before all times",
        How::Sort(|segs| by(segs, |r| first(r.alive).and(r.key()))),
    ),
    wrong(
        "time order: a segment without any time after all times",
        How::Sort(|segs| by(segs, |r| (r.key().is_none(), r.key()))),
    ),
    wrong(
        "time order: a segment without any time at -2^63",
        How::Sort(|segs| by(segs, |r| r.key().unwrap_or(i64::MIN))),
    ),
    wrong(
        "time order: a segment without any time at 0",
        How::Sort(|segs| by(segs, |r| r.key().unwrap_or(0))),
    ),
    wrong(
        "time order: a segment without any time at the last time of the one before it",
        How::Sort(|segs| by(segs, |r| r.key().or(r.before))),
    ),
    wrong(
        "time order: untimed rows at the start at the last time of the segment before",
        How::Sort(|segs| by(segs, |r| last(r.timed, r.row).or(r.before).or(r.key()))),
    ),
    wrong(
        "time order: untimed rows everywhere at the first time after them",
        How::Sort(|segs| {
            by(segs, |r| {
                let after = &r.timed[r.timed.partition_point(|&(row, _)| row < r.row)..];
                first(after).or(r.key())
            })
        }),
    ),
    wrong(
        "time order: untimed rows at the start at the segment's last time",
        How::Sort(|segs| by(segs, |r| last(r.timed, r.row).or(last(r.timed, u32::MAX)))),
    ),
    wrong(
        "time order: of untimed rows at the start the last one alone takes the time",
        How::Sort(|segs| by(segs, |r| last(r.timed, r.row).or(last(r.timed, r.row + 1)))),
    ),
    wrong(
        "time order: of untimed rows at the start the first one alone takes the time",
        How::Sort(|segs| by(segs, |r| if r.row == 0 { r.key() } else { last(r.timed, r.row) })),
    ),
    wrong(
        "time order: a time by its row's number though there are ids",
        How::Sort(|segs| by(segs, |r| r.timed.get(r.row as usize).map(|&(_, time)| time).or(r.key()))),
    ),
    wrong("time order: unsigned times", How::Sort(|segs| by(segs, |r| r.key().map(|time| time as u64)))),
    wrong(
        "time order: times as doubles",
        How::Sort(|segs| by(segs, |r| r.key().map(|time| time as f64 as i128))),
    ),
    wrong("time order: equal keys by row first", How::Sort(|segs| by(segs, |r| (r.key(), r.row)))),
    wrong(
        "time order: equal keys by the greater segment",
        How::Sort(|segs| by(segs, |r| (r.key(), Reverse(r.segment)))),
    ),
    wrong(
        "time order: equal keys by the greater row",
        How::Sort(|segs| by(segs, |r| (r.key(), r.segment, Reverse(r.row)))),
    ),
    wrong(
        "time order: a time before the untimed rows that take it",
        How::Sort(|segs| by(segs, |r| (r.key(), r.timed.binary_search_by_key(&r.row, |t| t.0).is_err()))),
    ),
    wrong(
        "time order: untimed rows at the start before all other rows of that time",
        How::Sort(|segs| by(segs, |r| (r.key(), last(r.timed, r.row).is_some()))),
    ),
    wrong("time order: rows in segment order", How::Sort(|segs| by(segs, |_| ()))),
    wrong(
        "time order: a run goes on at an equal key",
        How::Sort(|segs| merged(segs, |next, others, _| others.iter().all(|o| next.0 <= o.0))),
    ),
    wrong(
        "time order: a run goes one row too far at an equal key",
        How::Sort(|segs| {
            merged(segs, |next, others, beyond| {
                others.iter().all(|o| next < *o) || beyond == 0 && others.iter().all(|o| next.0 <= o.0)
            })
        }),
    ),
    wrong(
        "time order: a run ended by the first other segment alone",
        How::Sort(|segs| merged(segs, |next, others, _| others.first().is_none_or(|o| next < *o))),
    ),
    wrong("time order: withdrawn rows listed", How::Sort(|segs| with_alive(segs, |_, _| u64::MAX))),
    wrong(
        "time order: withdrawn rows listed after the first 64",
        How::Sort(|segs| with_alive(segs, |i, word| if i == 0 { word } else { u64::MAX })),
    ),
    wrong(
        "time order: the alive set of a segment without a column not passed over",
        How::Sort(|segs| {
            let words: Vec<u64> = segs.iter().flat_map(|s| s.alive.iter().flatten()).copied().collect();
            let mut other = segs.to_vec();
            let mut at = 0;
            for s in &mut other {
                let n = s.alive.as_ref().map_or(0, |set| set.len());
                s.alive = s.alive.as_ref().map(|_| words[at..at + n].to_vec());
                at += if s.ty == 255 { 0 } else { n };
            }
            order::addresses(&other)
        }),
    ),
    wrong(
        "time order: a word's first row left out",
        How::Sort(|segs| {
            let mut list = order::addresses(segs);
            list.retain(|[_, row]| *row == 0 || row % 64 > 0);
            list
        }),
    ),
    wrong(
        "time order: the last row left out",
        How::Sort(|segs| {
            let mut list = order::addresses(segs);
            list.pop();
            list
        }),
    ),
    wrong(
        "time order: the space for the count",
        How::Leave(|outcome, lists| count(outcome, lists, |_, space| space)),
    ),
    wrong(
        "time order: the count one too small",
        How::Leave(|outcome, lists| count(outcome, lists, |n, _| n.saturating_sub(1))),
    ),
    wrong(
        "time order: a refusal writes the count",
        How::Leave(|outcome, lists| {
            if let Outcome::Refused(_) = outcome {
                lists.count.lent()[0] = 0;
            }
        }),
    ),
    wrong(
        "time order: an address beyond the list",
        How::Leave(|outcome, lists| {
            if let Outcome::Sorted(list) = outcome
                && let Some(place) = lists.addresses.lent().get_mut(list.len())
            {
                *place = [0, 0];
            }
        }),
    ),
    wrong(
        "time order: an address past what was lent",
        How::Leave(|_, lists| lists.addresses.past_the_end([0, 0])),
    ),
    wrong("time order: 11 once the space is full", How::Leave(|outcome, lists| written(11, outcome, lists))),
    wrong("time order: 12 once rows are written", How::Leave(|outcome, lists| written(12, outcome, lists))),
];

/// 6 by another test of the numbers of alive rows.
fn counts_by(call: &Call, fails: fn(u32, &Seg) -> bool) -> bool {
    order::alive_bits(call) || table::counted(&call.join).any(|(count, s)| fails(count, s))
}

fn rows(call: &Call) -> u64 {
    call.join.sections.records.iter().map(|r| r[2] as u64).sum()
}

/// A row of a segment, its segment's timed rows, those of them that are alive, and the last time of
/// the segment before.
struct Row<'a> {
    segment: u32,
    row: u32,
    timed: &'a [(u32, i64)],
    alive: &'a [(u32, i64)],
    before: Option<i64>,
}

impl Row<'_> {
    fn key(&self) -> Option<i64> {
        order::key(self.timed, self.row)
    }
}

/// The last time up to a row.
fn last(timed: &[(u32, i64)], row: u32) -> Option<i64> {
    let n = timed.partition_point(|&(r, _)| r <= row);
    timed[..n].last().map(|&(_, time)| time)
}

fn first(timed: &[(u32, i64)]) -> Option<i64> {
    timed.first().map(|&(_, time)| time)
}

/// The alive rows by another key, then by segment and row.
fn by<K: Ord>(segs: &[Seg], key: impl Fn(Row) -> K) -> Vec<[u32; 2]> {
    let mut rows = Vec::new();
    let mut before = None;
    for (segment, s) in (0..).zip(segs) {
        let timed = order::timed(s);
        let alive: Vec<(u32, i64)> = timed.iter().copied().filter(|&(row, _)| s.is_alive(row)).collect();
        for row in (0..s.rows).filter(|&row| s.is_alive(row)) {
            rows.push((key(Row { segment, row, timed: &timed, alive: &alive, before }), segment, row));
        }
        before = timed.last().map(|&(_, time)| time);
    }
    rows.sort();
    rows.into_iter().map(|(_, segment, row)| [segment, row]).collect()
}

/// A segment's next row: its key and the segment.
type Next = (Option<i64>, usize);

/// The alive rows in runs: the segment that comes first goes on as long as `goes_on` says of its next
/// row, of the other segments' next rows, and of how many rows it has gone on with too long.
fn merged(segs: &[Seg], goes_on: fn(Next, &[Next], u64) -> bool) -> Vec<[u32; 2]> {
    let alive = |s: &Seg| (0..s.rows).filter(|&row| s.is_alive(row)).collect::<Vec<u32>>();
    let timed: Vec<_> = segs.iter().map(order::timed).collect();
    let mut left: Vec<_> = segs.iter().map(|s| alive(s).into_iter().peekable()).collect();
    let mut list = Vec::new();
    loop {
        let mut nexts: Vec<Next> = (0..segs.len())
            .filter_map(|i| left[i].peek().map(|&row| (order::key(&timed[i], row), i)))
            .collect();
        let Some(&(mut key, i)) = nexts.iter().min() else { return list };
        nexts.retain(|next| next.1 != i);
        let (mut on, mut beyond) = (true, 0);
        while on {
            list.push([i as u32, left[i].next().unwrap()]);
            let Some(&row) = left[i].peek() else { break };
            beyond += nexts.iter().any(|other| (key, i) > *other) as u64;
            key = order::key(&timed[i], row);
            on = goes_on((key, i), &nexts, beyond);
        }
    }
}

/// The time order as if the alive sets were others: of a word's place and the word.
fn with_alive(segs: &[Seg], f: fn(usize, u64) -> u64) -> Vec<[u32; 2]> {
    let mut other = segs.to_vec();
    for set in other.iter_mut().filter_map(|s| s.alive.as_mut()) {
        set.iter_mut().enumerate().for_each(|(i, word)| *word = f(i, *word));
    }
    order::addresses(&other)
}

/// Another count, of the addresses' number and of the space.
fn count(outcome: &Outcome, lists: &mut Addresses, f: fn(usize, usize) -> usize) {
    if let Outcome::Sorted(list) = outcome {
        lists.count.lent()[0] = f(list.len(), lists.addresses.len()) as u64;
    }
}

/// A refusal with a number writes the first address.
fn written(number: u32, outcome: &Outcome, lists: &mut Addresses) {
    if let Some(place) = lists.addresses.lent().first_mut()
        && outcome.number() == number
    {
        *place = [0, 0];
    }
}

/// The model as a time order, with a slip or none: the answer's number.
pub fn time_order(how: Option<How>, sections: &Sections, lists: &mut Addresses) -> u32 {
    let call = Call::new(sections, lists.addresses.len());
    let mut checks = CHECKS.to_vec();
    match how {
        Some(How::Before(k, other)) => put_before(&mut checks, k, other),
        Some(How::Skip(k)) => checks.retain(|&(number, _)| number != k),
        Some(How::Check(k, check)) => put_in_place(&mut checks, k, check),
        Some(How::CountsAfter(k)) => {
            split(&mut checks, 6, k, order::alive_bits, |c| table::counts(&c.join));
        }
        Some(How::PairsAfter(k)) => {
            split(&mut checks, 5, k, |c| pairs::without(&c.join), |c| table::pairs(&c.join));
        }
        _ => {}
    }
    let outcome = match order::answer_by(&checks, &call) {
        0 => Outcome::Sorted(sorted(how, &call)),
        number => Outcome::Refused(number),
    };
    if let Outcome::Sorted(list) = &outcome {
        lists.write(list);
    }
    if let Some(How::Leave(f)) = how {
        f(&outcome, lists);
    }
    outcome.number()
}

fn sorted(how: Option<How>, call: &Call) -> Vec<[u32; 2]> {
    // Without check 11 there may be billions of them.
    assert!(!order::space(call), "no place for the addresses");
    match how {
        Some(How::Sort(f)) => f(call.segments()),
        _ => order::addresses(call.segments()),
    }
}
