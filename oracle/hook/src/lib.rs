// Not a stand-in: the place where the wrappers leave what the merge handed to its serializers.
use std::cell::RefCell;
use std::sync::OnceLock;
use std::time::{Duration, Instant};

/// One column, as merge_column handed it to serialize_column_mappable_to_u64 or, of addresses, to
/// serialize_column_mappable_to_u128.
#[derive(Default, Clone, Debug, PartialEq, Eq)]
pub struct Captured {
    /// Cardinality::to_code of the SerializableColumnIndex.
    pub class: u8,
    /// num_rows of the optional / multivalued index; None for Full.
    pub index_rows: Option<u32>,
    pub ids: Vec<u32>,
    pub offsets: Vec<u32>,
    /// Values in the crate's monotonic u64 form.
    pub values: Vec<u64>,
    /// The same of addresses, in its u128 form.
    pub values128: Vec<u128>,
}

#[derive(Clone, Copy, PartialEq, Eq, Debug, Default)]
pub enum Mode {
    /// Wrappers call the crate's serializers only.
    #[default]
    Off,
    /// Record, then call the crate's serializers too.
    Capture,
    /// Record only: nothing is written for index and values. For time measurements.
    Drain,
}

#[derive(Default)]
pub struct State {
    pub mode: Mode,
    pub columns: Vec<Captured>,
    /// Per dictionary column: per segment, new ordinal of each old one.
    pub maps: Vec<Vec<Vec<u64>>>,
    /// Per dictionary column: the merged terms.
    pub terms: Vec<Vec<Vec<u8>>>,
    /// Empty lists with room, already touched, that Drain mode takes before it makes new ones.
    pub pool32: Vec<Vec<u32>>,
    pub pool64: Vec<Vec<u64>>,
    pub pool128: Vec<Vec<u128>>,
    /// Time spent opening stand-in storage; a measurement subtracts it.
    pub opening: Duration,
    /// Time spent, in Drain mode, in draining the index and in draining the values.
    pub index_time: Duration,
    pub values_time: Duration,
}

thread_local! {
    static STATE: RefCell<State> = RefCell::new(State::default());
}

pub fn start(mode: Mode) {
    STATE.with(|s| {
        *s.borrow_mut() = State { mode, ..State::default() };
    });
}

pub fn take() -> State {
    STATE.with(|s| std::mem::take(&mut *s.borrow_mut()))
}

pub fn mode() -> Mode {
    STATE.with(|s| s.borrow().mode)
}

pub fn list32() -> Vec<u32> {
    STATE.with(|s| s.borrow_mut().pool32.pop().unwrap_or_default())
}

pub fn list64() -> Vec<u64> {
    STATE.with(|s| s.borrow_mut().pool64.pop().unwrap_or_default())
}

pub fn list128() -> Vec<u128> {
    STATE.with(|s| s.borrow_mut().pool128.pop().unwrap_or_default())
}

pub fn with(f: impl FnOnce(&mut State)) {
    STATE.with(|s| f(&mut s.borrow_mut()))
}

/// Time that this thread has run on a processor, where the system tells it (Linux), so that other
/// processes disturb measurements less; else the time of the clock. yield_now brings the system's
/// number up to date.
pub fn now() -> Duration {
    static START: OnceLock<Instant> = OnceLock::new();
    std::thread::yield_now();
    std::fs::read_to_string("/proc/thread-self/schedstat")
        .ok()
        .and_then(|text| text.split(' ').next()?.parse().ok())
        .map(Duration::from_nanos)
        .unwrap_or_else(|| START.get_or_init(Instant::now).elapsed())
}

pub fn opening<T>(f: impl FnOnce() -> T) -> T {
    if mode() != Mode::Drain {
        return f();
    }
    let t = now();
    let r = f();
    let d = now() - t;
    with(|s| s.opening += d);
    r
}
