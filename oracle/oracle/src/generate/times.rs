//! Random segments that a time order takes. One clock runs, and the rows are logged in runs: now in
//! one segment, now in another, with untimed rows among them and where two runs meet. For some runs the
//! clock is set back, so that segments overlap.
use super::alive_set;
use crate::rng::Rng;
use crate::wire::Seg;

pub fn segments(rng: &mut Rng) -> Vec<Seg> {
    let (n, rows) = numbers(rng);
    let runs = runs(rng, n, rows);
    let mut log = Log::new(rng, n);
    runs.iter().for_each(|&(segment, length)| log.run(segment, length));
    let rows = log.rows;
    let with_alive = rng.below(3);
    rows.iter().map(|times| segment(rng, times, with_alive)).collect()
}

/// How many segments, and about how many rows all of them have.
fn numbers(rng: &mut Rng) -> (usize, u64) {
    let few = match rng.below(30) {
        0 => 0,
        1..6 => 1,
        6..20 => 2 + rng.index(2),
        _ => 4 + rng.index(6),
    };
    match rng.below(1_000) {
        0..3 => (few, rng.below(100_000)),
        3..30 => (few, rng.below(6_000)),
        30..50 => (if rng.one_in(4) { 256 } else { 20 + rng.index(100) }, rng.below(1_000)),
        50..200 => (few, rng.below(400)),
        _ => (few, rng.below(30)),
    }
}

/// Which segment logs, and how many rows: each one once, in their order, backwards or mixed, so that
/// days follow one another; or one after the other again and again, or any.
fn runs(rng: &mut Rng, n: usize, rows: u64) -> Vec<(usize, u64)> {
    if n == 0 {
        return vec![];
    }
    let how = rng.below(8);
    let mut order: Vec<usize> = (0..n).collect();
    match how {
        1 => order.reverse(),
        2 => (1..n).rev().for_each(|i| order.swap(i, rng.index(i + 1))),
        _ => {}
    }
    if how < 3 {
        let most = 2 * rows / n as u64 + 1;
        return order.into_iter().map(|segment| (segment, rng.below(most))).collect();
    }
    let longest = rng.pick(&[1, 1, 3, 20, 70, 200]);
    let (mut list, mut left) = (vec![], rows);
    while left > 0 {
        let segment = if how == 3 { list.len() % n } else { rng.index(n) };
        let length = rng.between(1, longest).min(left);
        list.push((segment, length));
        left -= length;
    }
    list
}

/// What has been logged: each segment's rows, a time or none.
struct Log<'a> {
    rng: &'a mut Rng,
    rows: Vec<Vec<Option<i64>>>,
    /// In how many rows of a hundred a segment has a time.
    timed: Vec<u64>,
    clock: i64,
    /// How the clock goes on.
    step: u64,
    /// One run in so many begins with the clock set back.
    back: u64,
    /// One run in so many has untimed rows before it, one in so many after it.
    untimed: u64,
}

impl Log<'_> {
    fn new(rng: &mut Rng, n: usize) -> Log<'_> {
        let some_untimed = rng.below(4) > 0;
        let often: &[u64] = if some_untimed { &[100, 100, 90, 50, 50, 2, 0] } else { &[100] };
        let any = rng.next() as i64;
        Log {
            rows: vec![vec![]; n],
            timed: (0..n).map(|_| rng.pick(often)).collect(),
            clock: rng.pick(&[i64::MIN, i64::MIN, i64::MIN + 1, -5, 0, 10, any, i64::MAX - 3]),
            step: rng.below(7),
            back: rng.pick(&[1, 4, u64::MAX]),
            untimed: if some_untimed { rng.pick(&[2, 4, 20]) } else { u64::MAX },
            rng,
        }
    }

    fn run(&mut self, segment: usize, length: u64) {
        let last = self.rows[segment].iter().rev().flatten().next().copied();
        if self.rng.one_in(self.back) {
            let earlier = self.clock.saturating_sub(self.rng.pick(&[0, 1, 7, 1_000, i64::MAX]));
            self.clock = earlier.max(last.unwrap_or(i64::MIN));
        }
        self.untimed_rows(segment);
        for _ in 0..length {
            let timed = self.rng.below(100) < self.timed[segment];
            self.rows[segment].push(timed.then_some(self.clock));
            self.step();
        }
        self.untimed_rows(segment);
    }

    fn untimed_rows(&mut self, segment: usize) {
        if self.rng.one_in(self.untimed) {
            let most = if self.rng.one_in(10) { 130 } else { 3 };
            let n = self.rng.between(1, most) as usize;
            self.rows[segment].extend(vec![None; n]);
        }
    }

    /// To an equal time, the next one, or a far one; at last to 2^63 - 1 and no further.
    fn step(&mut self) {
        let step = match self.step {
            0 => 0,
            1 => self.rng.below(2),
            2 => self.rng.one_in(40) as u64,
            3 | 4 => 1,
            5 => self.rng.below(1_000),
            _ => self.rng.next() >> self.rng.below(64),
        };
        self.clock = self.clock.saturating_add_unsigned(step);
    }
}

/// `with_alive`: 0, no alive set; 1, perhaps one; 2, one.
fn segment(rng: &mut Rng, times: &[Option<i64>], with_alive: u64) -> Seg {
    let rows = times.len() as u32;
    let mut s = Seg { ty: 7, rows, ..Seg::default() };
    s.values = times.iter().flatten().map(|&time| time as u64 as u128).collect();
    s.kind = match s.values.len() {
        n if n == times.len() => rng.pick(&[1, 1, 2, 4]),
        0 => rng.pick(&[0, 2, 4]),
        _ => rng.pick(&[2, 2, 4]),
    };
    if s.values.is_empty() && rng.one_in(3) {
        (s.ty, s.kind) = (255, 0);
    }
    if s.kind >= 2 {
        s.ids = (0..rows).filter(|&row| times[row as usize].is_some()).collect();
    }
    if s.kind == 4 {
        s.offsets = (0..=s.ids.len() as u32).collect();
    }
    if with_alive == 2 || with_alive == 1 && rng.one_in(2) {
        let counts: Vec<(u32, u32)> =
            (0..).zip(times).map(|(row, time)| (row, time.is_some() as u32)).collect();
        s.alive = Some(alive_set(rng, rows, &counts));
    }
    s
}
