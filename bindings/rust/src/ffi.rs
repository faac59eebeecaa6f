//! The calls of the proved library: all `unsafe` code of this crate.
//!
//! The library reads and writes only what it is lent, for every input. Its proof takes for granted
//! that each pointer is of as many elements as the number after it says, and that nothing that is
//! written lies over anything else that is lent. Rust slices are just that, which is why the
//! functions here are safe.
use crate::sections::{Address, Cut, Record, Sections};

// The library counts in 64 bits, and so do the sums of lengths in this crate.
const _: () = assert!(usize::BITS == 64);
// A record is a row of thirteen numbers of 32 bits.
const _: () = assert!(size_of::<Record>() == 13 * 4 && align_of::<Record>() == 4);

unsafe extern "C" {
    fn jadmirus_join(
        mode: u32,
        required: u32,
        records: *const Record,
        records_count: usize,
        ids: *const u32,
        ids_count: usize,
        offsets: *const u32,
        offsets_count: usize,
        values: *const u64,
        values_count: usize,
        term_lengths: *const u32,
        term_lengths_count: usize,
        term_bytes: *const u8,
        term_bytes_count: usize,
        alive: *const u64,
        alive_count: usize,
        addresses: *const Address,
        addresses_count: usize,
        working: *mut u8,
        working_count: usize,
        out_ids: *mut u32,
        out_ids_count: usize,
        out_offsets: *mut u32,
        out_offsets_count: usize,
        out_values: *mut u64,
        out_values_count: usize,
        out_term_lengths: *mut u32,
        out_term_lengths_count: usize,
        out_term_bytes: *mut u8,
        out_term_bytes_count: usize,
        out_map: *mut u32,
        out_map_count: usize,
        out_numbers: *mut [u64; 12],
    ) -> u32;

    fn jadmirus_time_order(
        records: *const Record,
        records_count: usize,
        ids: *const u32,
        ids_count: usize,
        offsets: *const u32,
        offsets_count: usize,
        values: *const u64,
        values_count: usize,
        term_lengths: *const u32,
        term_lengths_count: usize,
        term_bytes: *const u8,
        term_bytes_count: usize,
        alive: *const u64,
        alive_count: usize,
        out_addresses: *mut Address,
        out_addresses_count: usize,
        out_count: *mut [u64; 1],
    ) -> u32;

    fn jadmirus_convert(
        record: *const Record,
        ids: *const u32,
        ids_count: usize,
        offsets: *const u32,
        offsets_count: usize,
        values: *const u64,
        values_count: usize,
        term_lengths: *const u32,
        term_lengths_count: usize,
        term_bytes: *const u8,
        term_bytes_count: usize,
        alive: *const u64,
        alive_count: usize,
        out_ids: *mut u32,
        out_ids_count: usize,
        out_offsets: *mut u32,
        out_offsets_count: usize,
        out_record: *mut Record,
    ) -> u32;

    fn jadmirus_withdraw(
        record: *mut Record,
        alive: *mut u64,
        alive_count: usize,
        row: u32,
        out_changed: *mut [u64; 1],
    ) -> u32;

    fn jadmirus_reinstate(
        record: *mut Record,
        alive: *mut u64,
        alive_count: usize,
        row: u32,
        out_changed: *mut [u64; 1],
    ) -> u32;

    fn jadmirus_withdraw_rows(
        record: *mut Record,
        alive: *mut u64,
        alive_count: usize,
        rows: *const u32,
        rows_count: usize,
        out_changed: *mut [u64; 1],
    ) -> u32;

    fn jadmirus_reinstate_rows(
        record: *mut Record,
        alive: *mut u64,
        alive_count: usize,
        rows: *const u32,
        rows_count: usize,
        out_changed: *mut [u64; 1],
    ) -> u32;

    fn jadmirus_pair(typ: u32, values: *const u64, values_count: usize, out_pair: *mut [u64; 2]);
}

/// The memory that a join is lent to write in.
pub(crate) struct Outputs {
    pub working: Vec<u8>,
    pub ids: Vec<u32>,
    pub offsets: Vec<u32>,
    /// In words, as the values that are lent.
    pub values: Vec<u64>,
    pub term_lengths: Vec<u32>,
    pub term_bytes: Vec<u8>,
    pub map: Vec<u32>,
    /// Type, class, rows; elements of ids, offsets, values (each IpAddr once), terms, term bytes
    /// and map; the term bytes copied; the least and the greatest joined value.
    pub numbers: [u64; 12],
}

/// The join's answer. 0: the lists and the numbers are written.
pub(crate) fn join(s: &Sections, out: &mut Outputs) -> u32 {
    // Sound: every pointer is a live slice's or array's, followed by that slice's own length; what
    // is written is borrowed as `mut`, each list another one, so nothing overlaps. An empty slice's
    // pointer is aligned, as the library asks. Record and Address are `repr(C)` structs of
    // thirteen and two 32-bit numbers, so runs of them are laid out as the C declaration says. The
    // library keeps no pointer.
    unsafe {
        jadmirus_join(
            s.mode,
            s.required,
            s.records.as_ptr(),
            s.records.len(),
            s.ids.as_ptr(),
            s.ids.len(),
            s.offsets.as_ptr(),
            s.offsets.len(),
            s.values.as_ptr(),
            s.values.len(),
            s.term_lengths.as_ptr(),
            s.term_lengths.len(),
            s.term_bytes.as_ptr(),
            s.term_bytes.len(),
            s.alive.as_ptr(),
            s.alive.len(),
            s.addresses.as_ptr(),
            s.addresses.len(),
            out.working.as_mut_ptr(),
            out.working.len(),
            out.ids.as_mut_ptr(),
            out.ids.len(),
            out.offsets.as_mut_ptr(),
            out.offsets.len(),
            out.values.as_mut_ptr(),
            out.values.len(),
            out.term_lengths.as_mut_ptr(),
            out.term_lengths.len(),
            out.term_bytes.as_mut_ptr(),
            out.term_bytes.len(),
            out.map.as_mut_ptr(),
            out.map.len(),
            &mut out.numbers,
        )
    }
}

/// The time order's answer. 0: the number of addresses is written to `count`, and they are the
/// first ones of `addresses`.
pub(crate) fn time_order(s: &Sections, addresses: &mut [Address], count: &mut [u64; 1]) -> u32 {
    // Sound for the reasons given in `join`.
    unsafe {
        jadmirus_time_order(
            s.records.as_ptr(),
            s.records.len(),
            s.ids.as_ptr(),
            s.ids.len(),
            s.offsets.as_ptr(),
            s.offsets.len(),
            s.values.as_ptr(),
            s.values.len(),
            s.term_lengths.as_ptr(),
            s.term_lengths.len(),
            s.term_bytes.as_ptr(),
            s.term_bytes.len(),
            s.alive.as_ptr(),
            s.alive.len(),
            addresses.as_mut_ptr(),
            addresses.len(),
            count,
        )
    }
}

/// The converter's answer. 0: the new record is written, and the lists that it announces are the
/// first elements of `ids` and `offsets`.
pub(crate) fn convert(
    old: &Cut<'_>,
    ids: &mut [u32],
    offsets: &mut [u32],
    record: &mut Record,
) -> u32 {
    let alive = old.alive.unwrap_or_default();
    // Sound for the reasons given in `join`.
    unsafe {
        jadmirus_convert(
            &old.record,
            old.ids.as_ptr(),
            old.ids.len(),
            old.offsets.as_ptr(),
            old.offsets.len(),
            old.values.as_ptr(),
            old.values.len(),
            old.term_lengths.as_ptr(),
            old.term_lengths.len(),
            old.term_bytes.as_ptr(),
            old.term_bytes.len(),
            alive.as_ptr(),
            alive.len(),
            ids.as_mut_ptr(),
            ids.len(),
            offsets.as_mut_ptr(),
            offsets.len(),
            record,
        )
    }
}

/// What a call makes of rows.
#[derive(Clone, Copy, Debug, PartialEq, Eq)]
pub(crate) enum Mark {
    Withdrawn,
    Alive,
}

/// The answer of a call for one row. 0: the record and the alive words are changed as far as they
/// have to be, and the number of rows that changed is written.
pub(crate) fn mark_row(
    mark: Mark,
    record: &mut Record,
    alive: &mut [u64],
    row: u32,
    changed: &mut [u64; 1],
) -> u32 {
    let call = match mark {
        Mark::Withdrawn => jadmirus_withdraw,
        Mark::Alive => jadmirus_reinstate,
    };
    // Sound for the reasons given in `join`.
    unsafe { call(record, alive.as_mut_ptr(), alive.len(), row, changed) }
}

/// The same for several rows: all of them, or none.
pub(crate) fn mark_rows(
    mark: Mark,
    record: &mut Record,
    alive: &mut [u64],
    rows: &[u32],
    changed: &mut [u64; 1],
) -> u32 {
    let call = match mark {
        Mark::Withdrawn => jadmirus_withdraw_rows,
        Mark::Alive => jadmirus_reinstate_rows,
    };
    // Sound for the reasons given in `join`.
    unsafe {
        call(
            record,
            alive.as_mut_ptr(),
            alive.len(),
            rows.as_ptr(),
            rows.len(),
            changed,
        )
    }
}

/// The least and the greatest of a column's values, as its record holds them.
pub(crate) fn pair(typ: u32, values: &[u64]) -> [u64; 2] {
    let mut pair = [0; 2];
    // Sound for the reasons given in `join`.
    unsafe { jadmirus_pair(typ, values.as_ptr(), values.len(), &mut pair) };
    pair
}

#[cfg(test)]
mod tests {
    use super::*;
    use crate::codes::ColumnType;
    use crate::pair::Pair;
    use crate::segment::Segment;

    const NONE: [u64; 12] = [77; 12];

    /// As many elements of everything.
    fn lent(elements: usize) -> Outputs {
        Outputs {
            working: vec![0; elements],
            ids: vec![0; elements],
            offsets: vec![0; elements],
            values: vec![0; elements],
            term_lengths: vec![0; elements],
            term_bytes: vec![0; elements],
            map: vec![0; elements],
            numbers: NONE,
        }
    }

    /// 3 rows, 2 bytes.
    #[test]
    fn answer_8() {
        let mut sections = Sections::of(&[Segment::no_column(3)]).unwrap();
        sections.mode = 1;
        sections.addresses = [2, 0, 1].map(|row| Address { segment: 0, row }).to_vec();
        let mut out = lent(2);
        assert_eq!((join(&sections, &mut out), out.numbers), (8, NONE));
        assert_eq!(join(&sections, &mut lent(3)), 0);
    }

    /// 2 values, space for 1.
    #[test]
    fn answer_11() {
        let sections = Sections::of(&[Segment::u64s([[7], [8]])]).unwrap();
        let mut out = lent(1);
        assert_eq!((join(&sections, &mut out), out.numbers), (11, NONE));
        assert_eq!(out.values, [0]);
        assert_eq!(join(&sections, &mut lent(2)), 0);
    }

    /// One row with the addresses (3, 4) and (1, 2): 1 id, 2 offsets, 4 words of values.
    #[test]
    fn answer_11_for_addresses() {
        let words = vec![3, 4, 1, 2];
        let segment =
            Segment::new_multivalued(ColumnType::IpAddr, 1, vec![0], vec![0, 2], words.clone());
        let sections = Sections::of(&[segment]).unwrap();
        let joined = |ids: usize, offsets: usize, values: usize| {
            let mut out = lent(0);
            (out.ids, out.offsets) = (vec![77; ids], vec![77; offsets]);
            out.values = vec![77; values];
            let answer = join(&sections, &mut out);
            (answer, out.numbers, out.ids, out.offsets, out.values)
        };
        for (ids, offsets, values) in [(0, 2, 4), (1, 1, 4), (1, 2, 3), (1, 2, 2)] {
            let kept = (vec![77; ids], vec![77; offsets], vec![77; values]);
            let (answer, numbers, ids, offsets, values) = joined(ids, offsets, values);
            assert_eq!((answer, numbers, (ids, offsets, values)), (11, NONE, kept));
        }
        let numbers = [6, 2, 1, 1, 2, 2, 0, 0, 0, 0, 0, 0];
        let exact = (0, numbers, vec![0], vec![0, 2], words);
        assert_eq!(joined(1, 2, 4), exact);
        let ample = (
            0,
            numbers,
            vec![0, 77],
            vec![0, 2, 77],
            vec![3, 4, 1, 2, 77, 77],
        );
        assert_eq!(joined(2, 3, 6), ample);
    }

    /// Two segments with the term ab: 2 bytes are copied, and 11 asks for 4.
    #[test]
    fn answer_11_for_term_bytes() {
        let segment = || Segment::strs([["ab"]]);
        let sections = Sections::of(&[segment(), segment()]).unwrap();
        let joined = |bytes: usize| {
            let mut out = lent(4);
            out.term_bytes = vec![77; bytes];
            let answer = join(&sections, &mut out);
            (answer, out.numbers, out.term_bytes)
        };
        assert_eq!(joined(3), (11, NONE, vec![77; 3]));
        let numbers = [4, 0, 2, 0, 0, 2, 1, 2, 2, 2, 0, 0];
        assert_eq!(joined(4), (0, numbers, b"abMM".to_vec()));
    }

    /// The joined pair comes with the numbers, as words.
    #[test]
    fn the_joined_pair() {
        let pair = |segments: &[Segment]| {
            let mut out = lent(4);
            assert_eq!(join(&Sections::of(segments).unwrap(), &mut out), 0);
            [out.numbers[10], out.numbers[11]]
        };
        let i64s = Segment::i64s([[i64::MIN], [-1], [1 << 32]]);
        assert_eq!(pair(&[i64s]), [1 << 63, 1 << 32]);
        let u64s = Segment::u64s([[u64::MAX], [1 << 32]]);
        assert_eq!(pair(&[u64s]), [1 << 32, u64::MAX]);
        assert_eq!(pair(&[Segment::date_times([[5]])]), [0, 0]);
        assert_eq!(pair(&[Segment::no_column(2)]), [0, 0]);
    }

    #[test]
    fn answer_11_of_the_time_order() {
        let sections = Sections::of(&[Segment::date_times([[7], [8]])]).unwrap();
        let (mut addresses, mut count) = ([Address::default(); 3], [77]);
        assert_eq!(time_order(&sections, &mut addresses[..1], &mut count), 11);
        assert_eq!((addresses[0], count), (Address::default(), [77]));
        assert_eq!(time_order(&sections, &mut addresses, &mut count), 0);
        assert_eq!((addresses[1], count), (Address { segment: 0, row: 1 }, [2]));
    }

    /// 3 rows of 2, 0 and 1 values.
    const OLD: Cut<'_> = Cut {
        record: Record {
            typ: 1,
            kind: 3,
            rows: 3,
            ids: 0,
            offsets: 4,
            values: 3,
            terms: 0,
            flag: 0,
            alive_rows: 3,
            pair: Pair::new(7, 9),
        },
        ids: &[],
        offsets: &[0, 2, 2, 3],
        values: &[7, 8, 9],
        term_lengths: &[],
        term_bytes: &[],
        alive: None,
    };

    /// The answer, and all that was lent.
    fn converted(old: &Cut<'_>, ids: usize, offsets: usize) -> (u32, Vec<u32>, Vec<u32>, Record) {
        let (mut ids, mut offsets) = (vec![77; ids], vec![77; offsets]);
        let mut record = Record::default();
        let answer = convert(old, &mut ids, &mut offsets, &mut record);
        (answer, ids, offsets, record)
    }

    fn new_record(old: &Cut<'_>) -> Record {
        Record {
            kind: 4,
            ids: 2,
            offsets: 3,
            ..old.record
        }
    }

    /// In as much space as it takes.
    fn converts(old: &Cut<'_>) {
        let exact = (0, vec![0, 2], vec![0, 2, 3], new_record(old));
        assert_eq!(converted(old, 2, 3), exact);
    }

    /// Space for 1 id, and for 2 offsets; what is beyond the lists stays.
    #[test]
    fn answer_11_of_the_converter() {
        let refused = |ids, offsets| {
            let kept = (11, vec![77; ids], vec![77; offsets], Record::default());
            assert_eq!(converted(&OLD, ids, offsets), kept);
        };
        refused(1, 9);
        refused(9, 2);
        refused(0, 0);
        converts(&OLD);
        let ample = (0, vec![0, 2, 77, 77], vec![0, 2, 3, 77], new_record(&OLD));
        assert_eq!(converted(&OLD, 4, 4), ample);
    }

    /// As many ids and offsets as of numbers, although there are twice as many words.
    #[test]
    fn converted_addresses() {
        let mut old = OLD;
        (old.record.typ, old.record.pair) = (6, Pair::default());
        assert_eq!(converted(&old, 9, 9).0, 2);
        old.values = &[1, 2, 3, 4, 5, 6];
        converts(&old);
        assert_eq!(converted(&old, 1, 3).0, 11);
        old.values = &[1, 2, 3, 4, 5, 6, 7];
        assert_eq!(converted(&old, 9, 9).0, 2);
    }

    /// What this crate's own calls can't hand over: other kinds, no column, runs that don't fit.
    #[test]
    fn answers_2_and_3_of_the_converter() {
        let answer = |change: fn(&mut Cut<'_>)| {
            let mut cut = OLD;
            change(&mut cut);
            let (answer, ids, offsets, record) = converted(&cut, 9, 9);
            assert_eq!((ids, offsets), (vec![77; 9], vec![77; 9]));
            assert_eq!(record, Record::default());
            answer
        };
        for kind in [0, 1, 2, 4, 7] {
            let mut cut = OLD;
            cut.record.kind = kind;
            assert_eq!(converted(&cut, 9, 9).0, 3, "kind {kind}");
        }
        assert_eq!(answer(|cut| cut.record.typ = 8), 3);
        assert_eq!(answer(|cut| cut.record.typ = 255), 3);
        assert_eq!(answer(|cut| cut.record.flag = 2), 3);
        assert_eq!(answer(|cut| cut.values = &[7, 8]), 2);
        assert_eq!(answer(|cut| cut.offsets = &[0, 2, 2, 3, 3]), 2);
        assert_eq!(answer(|cut| cut.ids = &[0]), 2);
        assert_eq!(answer(|cut| cut.alive = Some(&[7])), 2);
        assert_eq!(answer(|cut| cut.record.flag = 1), 2);
        assert_eq!(answer(|cut| cut.term_bytes = &[97]), 2);
        // 2 comes before 3, and 3 before 4.
        assert_eq!(
            answer(|cut| (cut.record.kind, cut.values) = (4, &[7, 8])),
            2
        );
        assert_eq!(
            answer(|cut| (cut.record.kind, cut.offsets) = (4, &[1, 2, 2, 3])),
            3
        );
    }

    /// An untrue pair, after 4 and before 6; and a true one is kept.
    #[test]
    fn pairs_of_the_converter() {
        let untrue = [(7, 8), (8, 9), (9, 7), (0, 0), (7, 9 | 1 << 32)];
        for (least, greatest) in untrue {
            let mut old = OLD;
            old.record.pair = Pair::new(least, greatest);
            old.record.alive_rows = 0;
            assert_eq!(converted(&old, 9, 9).0, 5, "{least} {greatest}");
            old.offsets = &[0, 2, 1, 3];
            assert_eq!(converted(&old, 9, 9).0, 4, "{least} {greatest}");
        }
        let mut old = OLD;
        (old.record.typ, old.values) = (0, &[1 << 63, u64::MAX, 1 << 32]);
        old.record.pair = Pair::new(1 << 63, 1 << 32);
        converts(&old);
        old.record.typ = 7;
        assert_eq!(converted(&old, 9, 9).0, 5);
        old.record.pair = Pair::default();
        converts(&old);
    }

    /// A wrong number of alive rows, after 5 and before 11; and the number is kept.
    #[test]
    fn alive_rows_of_the_converter() {
        let mut old = OLD;
        for wrong in [0, 2, 4, u32::MAX] {
            old.record.alive_rows = wrong;
            assert_eq!(converted(&old, 0, 0).0, 6, "{wrong}");
            old.record.typ = 5;
            assert_eq!(converted(&old, 0, 0).0, 5, "{wrong}");
            old.record.typ = 1;
        }
        (old.record.flag, old.alive) = (1, Some(&[5][..]));
        assert_eq!(converted(&old, 0, 0).0, 6);
        old.record.alive_rows = 2;
        converts(&old);
    }

    /// Rows, flag, number of alive rows and alive words.
    type Set<'a> = (u32, u32, u32, &'a [u64]);

    /// A record whose type and kind a join would refuse, and whose lengths and pair stand for
    /// nothing that is lent.
    fn record((rows, flag, alive_rows, _): Set<'_>) -> Record {
        Record {
            typ: 9,
            kind: 3,
            rows,
            ids: 1,
            offsets: 2,
            values: 3,
            terms: 4,
            flag,
            alive_rows,
            pair: Pair::new(ALL, 5),
        }
    }

    /// The answer and how many rows changed (77 is what was there before), the record and the words.
    fn outcome(
        set: Set<'_>,
        call: impl FnOnce(&mut Record, &mut [u64], &mut [u64; 1]) -> u32,
    ) -> ((u32, u64), Record, Vec<u64>) {
        let (mut record, mut words, mut changed) = (record(set), set.3.to_vec(), [77]);
        let answer = call(&mut record, &mut words, &mut changed);
        ((answer, changed[0]), record, words)
    }

    /// A call for a run of rows, and one for a single row alike.
    fn marks(mark: Mark, rows: &[u32], set: Set<'_>, left: Set<'_>, expected: (u32, u64)) {
        let left = (expected, record(left), left.3.to_vec());
        let run = outcome(set, |r, w, c| mark_rows(mark, r, w, rows, c));
        assert_eq!(run, left, "{mark:?} {rows:?} {set:?}");
        if let [row] = *rows {
            let one = outcome(set, |r, w, c| mark_row(mark, r, w, row, c));
            assert_eq!(one, left, "{mark:?} {row} {set:?}");
        }
    }

    fn changes(mark: Mark, rows: &[u32], set: Set<'_>, left: Set<'_>, changed: u64) {
        marks(mark, rows, set, left, (0, changed));
    }

    /// Both calls refuse the same, and leave everything as it was.
    fn refuses(answer: u32, rows: &[u32], set: Set<'_>) {
        for mark in [Mark::Withdrawn, Mark::Alive] {
            marks(mark, rows, set, set, (answer, 77));
        }
    }

    const ALL: u64 = u64::MAX;

    #[test]
    fn a_row_withdrawn_or_reinstated() {
        let withdraw = |row, set, left, n| changes(Mark::Withdrawn, &[row], set, left, n);
        let reinstate = |row, set, left, n| changes(Mark::Alive, &[row], set, left, n);
        withdraw(1, (3, 1, 3, &[7]), (3, 1, 2, &[5]), 1);
        withdraw(1, (3, 1, 2, &[5]), (3, 1, 2, &[5]), 0);
        reinstate(1, (3, 1, 2, &[5]), (3, 1, 3, &[7]), 1);
        reinstate(2, (3, 1, 2, &[5]), (3, 1, 2, &[5]), 0);
        // The last alive row, and the only row.
        withdraw(2, (3, 1, 1, &[4]), (3, 1, 0, &[0]), 1);
        reinstate(0, (1, 1, 0, &[0]), (1, 1, 1, &[1]), 1);
        // The second word, and the highest bit of a word.
        reinstate(64, (65, 1, 0, &[0, 0]), (65, 1, 1, &[0, 1]), 1);
        withdraw(65, (66, 1, 65, &[ALL, 2]), (66, 1, 64, &[ALL, 0]), 1);
        withdraw(63, (64, 1, 64, &[ALL]), (64, 1, 63, &[ALL >> 1]), 1);
        reinstate(63, (64, 1, 63, &[ALL >> 1]), (64, 1, 64, &[ALL]), 1);
    }

    /// Each answer, and those that it comes before.
    #[test]
    fn answers_2_3_6_15_and_16() {
        // A word too few, one too many; any without an alive set or with an unknown flag.
        refuses(2, &[0], (65, 1, 1, &[1]));
        refuses(2, &[0], (1, 1, 1, &[1, 0]));
        refuses(2, &[0], (0, 1, 0, &[0]));
        refuses(2, &[1], (3, 0, 3, &[7]));
        refuses(2, &[1], (3, 2, 3, &[7]));
        refuses(2, &[3], (3, 0, 2, &[7]));
        refuses(2, &[65], (65, 1, 9, &[1]));
        refuses(3, &[1], (3, 2, 3, &[]));
        refuses(3, &[3], (3, u32::MAX, 2, &[]));
        // A bit past the rows, counted or not; a wrong number, of set bits or of rows.
        refuses(6, &[0], (3, 1, 4, &[15]));
        refuses(6, &[0], (3, 1, 3, &[15]));
        refuses(6, &[0], (65, 1, 1, &[0, 2]));
        refuses(6, &[0], (3, 1, 2, &[7]));
        refuses(6, &[1], (3, 1, 3, &[5]));
        refuses(6, &[0], (3, 1, 1, &[0]));
        refuses(6, &[1], (3, 0, 2, &[]));
        refuses(6, &[3], (3, 1, 2, &[7]));
        refuses(6, &[3], (3, 0, 2, &[]));
        refuses(15, &[3], (3, 1, 3, &[7]));
        refuses(15, &[0], (0, 1, 0, &[]));
        refuses(15, &[u32::MAX], (3, 1, 3, &[7]));
        refuses(15, &[3], (3, 0, 3, &[]));
        refuses(15, &[0], (0, 0, 0, &[]));
        refuses(16, &[1], (3, 0, 3, &[]));
    }

    /// All rows of a run, or none.
    #[test]
    fn runs_of_rows() {
        let withdraw = |rows: &[u32], set, left, n| changes(Mark::Withdrawn, rows, set, left, n);
        let reinstate = |rows: &[u32], set, left, n| changes(Mark::Alive, rows, set, left, n);
        // One is withdrawn already; one is named twice; none at all.
        withdraw(&[0, 1, 2], (3, 1, 2, &[5]), (3, 1, 0, &[0]), 2);
        withdraw(&[1, 1], (3, 1, 3, &[7]), (3, 1, 2, &[5]), 1);
        withdraw(&[], (3, 1, 2, &[5]), (3, 1, 2, &[5]), 0);
        reinstate(&[65, 0, 64], (66, 1, 1, &[1, 0]), (66, 1, 3, &[1, 3]), 2);
        reinstate(&[2, 0, 2], (3, 1, 2, &[5]), (3, 1, 2, &[5]), 0);
        // An absent row, be it the last, comes before 16; 6 and 16 are given without rows too.
        refuses(15, &[0, 1, 3], (3, 1, 3, &[7]));
        refuses(15, &[3, 0], (3, 1, 0, &[0]));
        refuses(15, &[0, 3], (3, 0, 3, &[]));
        refuses(16, &[], (3, 0, 3, &[]));
        refuses(6, &[], (3, 1, 3, &[5]));
    }
}
