//! Document 01's time order ("Time order") with document 02's rule for the untimed rows at a segment's
//! start, its answers and the addresses: from the documents' words alone, as naively as they read.
use crate::model;
use crate::table;
use crate::wire::{Input, Sections, Seg};

/// One call: the segments, of whose sections mode, required type and addresses are not handed over,
/// and how many addresses the output has place for.
pub struct Call<'a> {
    /// For the checks that a join has too.
    pub join: table::Call<'a>,
    pub space: usize,
}

impl<'a> Call<'a> {
    pub fn new(sections: &'a Sections, space: usize) -> Call<'a> {
        Call { join: table::Call::new(sections, table::Lent::default()), space }
    }
    /// To be asked only once check 2 has passed.
    pub fn segments(&self) -> &[Seg] {
        &self.join.input().segs
    }
}

#[derive(Clone, Debug, PartialEq, Eq)]
pub enum Outcome {
    Sorted(Vec<[u32; 2]>),
    Refused(u32),
}

impl Outcome {
    pub fn number(&self) -> u32 {
        match self {
            Outcome::Sorted(_) => 0,
            Outcome::Refused(n) => *n,
        }
    }
}

pub type Check = fn(&Call) -> bool;

/// "The time order uses 1 to 7, 11 and 12", and 19 "right after 3".
pub const CHECKS: [(u32, Check); 10] = [
    (1, |c| table::segments(&c.join)),
    (2, |c| table::section_lengths(&c.join)),
    (3, unknown),
    (19, |c| table::old_multivalued(&c.join)),
    (4, |c| table::runs(&c.join)),
    (5, |c| table::contents(&c.join)),
    (6, alive_sets),
    (7, |c| table::sums(&c.join)),
    (11, space),
    (12, times),
];

/// The first check that fails, or 0.
pub fn answer_by(checks: &[(u32, Check)], call: &Call) -> u32 {
    checks.iter().find(|(_, fails)| fails(call)).map_or(0, |(number, _)| *number)
}

pub fn outcome(call: &Call) -> Outcome {
    match answer_by(&CHECKS, call) {
        0 => Outcome::Sorted(addresses(call.segments())),
        number => Outcome::Refused(number),
    }
}

/// 3: as in a join, but "it has no mode, required type or addresses"
pub fn unknown(call: &Call) -> bool {
    call.join.sections.records.iter().any(table::unknown_record)
}

/// 6: an alive bit past the rows, or a wrong number of alive rows; an alive set is no fault where no join
/// is stacked
pub fn alive_sets(call: &Call) -> bool {
    alive_bits(call) || table::counts(&call.join)
}

/// 6 without the numbers.
pub fn alive_bits(call: &Call) -> bool {
    call.join.any_segment(table::past_the_rows)
}

/// 11: an output shorter than its list
pub fn space(call: &Call) -> bool {
    (call.space as u64) < alive_rows(call.segments())
}

pub fn alive_rows(segs: &[Seg]) -> u64 {
    segs.iter().map(table::alive_rows).sum()
}

/// 12: "another type, a row of several times, or times falling within a segment"
pub fn times(call: &Call) -> bool {
    call.join.any_segment(|s| another_type(s) || several_times(s) || falling(&s.values))
}

/// "From type 7 columns (or none)."
pub fn another_type(s: &Seg) -> bool {
    s.ty != 7 && s.ty != 255
}

pub fn several_times(s: &Seg) -> bool {
    model::filled(s).iter().any(|(_, range)| range.len() > 1)
}

/// Values stand in row order; a time is a two's complement word. Equal ones don't fall.
pub fn falling(times: &[u128]) -> bool {
    times.windows(2).any(|w| (w[1] as i64) < w[0] as i64)
}

/// The rows that have a time, ascending. "Withdrawn rows still give their time."
pub fn timed(s: &Seg) -> Vec<(u32, i64)> {
    model::filled(s).into_iter().map(|(row, range)| (row, s.values[range.start] as i64)).collect()
}

/// "A row's key is its time, else the last time before it in its segment"; "untimed rows at a
/// segment's start take the first time after them in that segment. A segment without any time keeps
/// its place before all times", which is None's before Some.
pub fn key(timed: &[(u32, i64)], row: u32) -> Option<i64> {
    let (until, after) = timed.split_at(timed.partition_point(|&(r, _)| r <= row));
    until.last().or(after.first()).map(|&(_, time)| time)
}

/// "Alive rows sorted by key, segment, row."
pub fn addresses(segs: &[Seg]) -> Vec<[u32; 2]> {
    let mut rows = Vec::new();
    for (segment, s) in segs.iter().enumerate() {
        let timed = timed(s);
        let alive = (0..s.rows).filter(|&row| s.is_alive(row));
        rows.extend(alive.map(|row| (key(&timed, row), segment as u32, row)));
    }
    rows.sort();
    rows.into_iter().map(|(_, segment, row)| [segment, row]).collect()
}

/// Segments as a call's sections.
pub fn sections(segs: &[Seg]) -> Sections {
    Input { mode: 0, required: 255, segs: segs.to_vec(), addresses: vec![] }.sections()
}

#[cfg(test)]
mod tests {
    use super::*;
    use crate::cases::input;

    fn segments(text: &str) -> Vec<Seg> {
        input(&format!("0 255 {text}")).segs
    }
    /// The answer and, where it is 0, the addresses, in space for `space` of them.
    fn sorted(text: &str, space: usize) -> Outcome {
        outcome(&Call::new(&sections(&segments(text)), space))
    }

    #[test]
    fn orders() {
        let order = |text: &str, must: &[[u32; 2]]| {
            assert_eq!(sorted(text, must.len()), Outcome::Sorted(must.to_vec()), "{text}");
        };
        // C13: 10 - 30; - 20
        let c13 = [[0, 0], [0, 1], [1, 0], [1, 1], [0, 2]];
        order("7/2/3/ids=0,2/val=10,30 7/2/2/ids=1/val=20", &c13);
        order("7/4/3/ids=0,2/off=0,1,2/val=10,30 7/4/2/ids=1/off=0,1/val=20", &c13);
        // - (20); 10: a withdrawn row gives its time to those before it
        order("7/2/2/ids=1/val=20/alive=1 7/1/1/val=10", &[[1, 0], [0, 0]]);
        // 20; - 20
        order("7/1/1/val=20 7/2/2/ids=1/val=20", &[[0, 0], [1, 0], [1, 1]]);
        // -2^63; - -: before even the least time, whatever says that there is none
        for none in ["7/2/2", "7/4/2/off=0", "7/0/2", "255/0/2", "7/2/2/alive=3"] {
            order(&format!("7/1/1/val=0x8000000000000000 {none}"), &[[1, 0], [1, 1], [0, 0]]);
        }
        // - - 7 -; 6
        order("7/2/4/ids=2/val=7 7/1/1/val=6", &[[1, 0], [0, 0], [0, 1], [0, 2], [0, 3]]);
        // 10; - 20; 15
        order("7/1/1/val=10 7/2/2/ids=1/val=20 7/1/1/val=15", &[[0, 0], [2, 0], [1, 0], [1, 1]]);
        // 10 (30) -; 20: and to those after it
        order("7/2/3/ids=0,1/val=10,30/alive=5 7/1/1/val=20", &[[0, 0], [1, 0], [0, 2]]);
        // 5 5; 5 5: by segment and then by row
        order("7/1/2/val=5,5 7/1/2/val=5,5", &[[0, 0], [0, 1], [1, 0], [1, 1]]);
        // 0 2^63-1; -1; -2^63: two's complement
        order(
            "7/1/2/val=0,9223372036854775807 7/1/1/val=-1 7/1/1/val=0x8000000000000000",
            &[[2, 0], [1, 0], [0, 0], [0, 1]],
        );
        order("", &[]);
        order("255/0/0 7/1/1/val=3/alive=0 7/0/0/alive=", &[]);
    }

    #[test]
    fn answers() {
        let answer = |n: u32, text: &str| assert_eq!(sorted(text, 9).number(), n, "{text}");
        // 1
        answer(0, &"255/0/0 ".repeat(256));
        answer(1, &"255/0/0 ".repeat(257));
        // 2: one time announced, none there; mode and required type are not asked for
        let mut s = sections(&segments("7/1/1/val=7"));
        (s.mode, s.required) = (9, 9);
        assert_eq!(outcome(&Call::new(&s, 1)).number(), 0);
        s.values.clear();
        assert_eq!(outcome(&Call::new(&s, 1)).number(), 2);
        let mut s = sections(&segments("6/1/1/val=0:4"));
        s.values.pop();
        assert_eq!(outcome(&Call::new(&s, 1)).number(), 2);
        // 3, before 19
        answer(3, "8/1/1/val=7");
        answer(3, "255/1/1/val=7");
        answer(3, "7/3/1/off=0,1/val=7 7/5/0");
        // 19, before 4
        answer(19, "7/3/1/off=0,1/val=7");
        answer(19, "7/2/2/ids=1,1/val=7,7 7/3/0/off=0");
        // 4, before 5
        answer(4, "7/2/2/ids=1,1/val=7,7");
        answer(4, "5/1/1/val=2 7/1/2/val=7");
        // 5, before 6
        answer(5, "7/1/1/val=7/terms=a");
        answer(5, "7/0/1/alive=2 5/1/1/val=2");
        // an untrue pair, of any segment by itself and of any type, before 6, 7, 11 and 12
        for text in [
            "7/1/1/val=7/pair=7:7",
            "7/1/1/val=7/pair=0:1",
            "7/1/1/val=7/pair=4294967296:0",
            "7/2/1/pair=0:1",
            "7/1/1/val=7/alive=0/pair=7:7",
            "7/1/1/val=7 255/0/1/pair=1:0",
            "7/1/2/val=5,4/pair=4:5",
            "1/1/1/val=4/pair=0:0",
            "0/1/2/val=-4,4/pair=4:-4",
            "7/1/1/val=7/pair=7:7/count=0",
            "7/1/1/val=7/pair=7:7 255/0/4294967295",
            "255/0/4294967294/pair=1:1",
        ] {
            answer(5, text);
        }
        answer(4, "7/1/2/val=7/pair=7:7");
        answer(19, "7/3/1/off=0,1/val=7/pair=7:7");
        // 6, before 7; an alive set alone is no fault
        answer(6, "7/1/1/val=7/alive=2");
        answer(6, "255/0/4294967295 255/0/1/alive=2");
        answer(0, "7/1/1/val=7/alive=1");
        // a wrong number of alive rows, of any segment by itself
        for text in [
            "7/1/1/val=7/count=0",
            "7/1/1/val=7/alive=1/count=0",
            "7/1/2/val=7,7/alive=1/count=2",
            "7/1/1/val=7/count=0 7/1/1/val=8/count=2",
            "7/1/1/val=7 255/0/1/count=0",
            "255/0/4294967295/count=0",
            "7/1/2/val=5,4/count=1",
        ] {
            answer(6, text);
        }
        answer(5, "7/1/1/val=7/terms=a/count=0");
        // 7, before 11
        answer(7, "255/0/4294967295");
        answer(7, "255/0/4294967294 255/0/1");
        answer(11, "255/0/4294967294");
        // 11, before 12: a place for each alive row
        assert_eq!(sorted("7/1/2/val=4,5", 1).number(), 11);
        assert_eq!(sorted("7/1/2/val=4,5/alive=2", 1).number(), 0);
        assert_eq!(sorted("7/1/2/val=5,4", 1).number(), 11);
        // 12
        for text in [
            "7/1/2/val=5,4",
            "7/1/2/val=0,-1",
            "7/2/3/ids=0,2/val=5,4",
            "7/1/3/val=5,4,6/alive=5",
            "7/4/1/ids=0/off=0,2/val=4,5",
            "7/4/1/ids=0/off=0,2/val=4,4/alive=0",
            "1/1/1/val=4",
            "0/1/1/val=4",
            "4/0/1",
            "6/1/1/val=0:4",
            "7/1/1/val=4 6/1/2/val=5:4,4:5",
            "6/0/1",
        ] {
            answer(12, text);
        }
        answer(0, "7/1/2/val=4,4");
        answer(0, "7/1/2/val=-1,0");
        answer(0, "7/1/1/val=5 7/1/1/val=4");
    }
}
