//! Plays withdrawn and reinstated, and the number of alive rows (document 02, (f)): by segments,
//! sections and sheets. (The library's own answers, also to what segments can't hold, are tried in
//! src/ffi.rs.)
mod common;

use common::chance::Chance;
use common::{addresses, alive, answers, ordered, sections, stacked};
use jadmirus::{
    Address, AliveSet, ColumnType, Joined, Marked, OldSegment, Order, Refusal, Sections, Segment,
    WireError, convert, explain, join, sheet, time_order,
};

/// The segment's alive words and its number of alive rows.
fn state(segment: &Segment) -> (Vec<u64>, u32) {
    let words = segment.alive().map(|alive| alive.words().to_vec());
    (words.unwrap_or_default(), segment.alive_rows())
}

fn rows(rows: u32, word: u64) -> Segment {
    Segment::no_column(rows).with_alive(alive(word))
}

#[test]
fn segments_know_their_number() {
    let without_set = [
        (Segment::no_column(3), 3),
        (Segment::empty(ColumnType::Str, 2), 2),
        (Segment::full(ColumnType::IpAddr, vec![0, 1, 0, 2]), 2),
        (Segment::optional(ColumnType::U64, 5, vec![1], vec![7]), 5),
        (Segment::strs([vec!["a", "b"], vec![], vec!["c"]]), 3),
        (Segment::from(stacked(&[Segment::no_column(9)])), 9),
        (Segment::from(stacked(&[Segment::u64s([[1], [2]])])), 2),
    ];
    for (segment, number) in without_set {
        assert_eq!(state(&segment), (vec![], number));
        let all = segment.without_rows([]);
        assert_eq!(all.alive_rows(), number);
        assert_eq!(all.without_rows([1, 99]).alive_rows(), number - 1);
    }
    assert_eq!(state(&rows(3, 5)), (vec![5], 2));
    assert_eq!(state(&rows(3, 5).with_alive(alive(4))), (vec![4], 1));
    // A result has no alive set: withdrawn rows are not in it.
    let joined = ordered(rows(3, 5), &[2, 0]);
    assert_eq!(state(&Segment::from(joined)), (vec![], 2));
}

#[test]
fn one_row() {
    let mut segment = rows(3, 7);
    assert_eq!(segment.withdraw(1), Ok(Marked::Changed));
    assert_eq!(state(&segment), (vec![5], 2));
    assert_eq!(segment.withdraw(1), Ok(Marked::Unchanged));
    assert_eq!(state(&segment), (vec![5], 2));
    assert_eq!(segment.reinstate(1), Ok(Marked::Changed));
    assert_eq!(segment.reinstate(1), Ok(Marked::Unchanged));
    assert_eq!(segment, rows(3, 7));
    let mut long = Segment::no_column(65).with_alive(AliveSet::from_words(vec![0, 0]));
    assert_eq!(long.reinstate(64), Ok(Marked::Changed));
    assert_eq!(state(&long), (vec![0, 1], 1));
}

#[test]
fn several_rows() {
    let mut segment = rows(3, 5);
    assert_eq!(segment.withdraw_rows(&[]), Ok(0));
    assert_eq!(segment.withdraw_rows(&[2, 1, 2, 0]), Ok(2));
    assert_eq!(state(&segment), (vec![0], 0));
    assert_eq!(segment.reinstate_rows(&[1, 1]), Ok(1));
    assert_eq!(state(&segment), (vec![2], 1));
    // All of them, or none.
    assert_eq!(segment.reinstate_rows(&[0, 3]), Err(Refusal::AbsentRow));
    assert_eq!(segment.withdraw_rows(&[1, 9]), Err(Refusal::AbsentRow));
    assert_eq!(state(&segment), (vec![2], 1));
}

/// All four calls refuse a row alike, and change nothing.
fn refused(segment: &Segment, row: u32) -> u32 {
    let mut after = segment.clone();
    let refusals = [
        after.withdraw(row).unwrap_err(),
        after.reinstate(row).unwrap_err(),
        after.withdraw_rows(&[row]).unwrap_err(),
        after.reinstate_rows(&[row]).unwrap_err(),
    ];
    assert_eq!(refusals, [refusals[0]; 4]);
    assert_eq!(&after, segment);
    refusals[0].number()
}

/// The first that applies of 2, 6, 15 and 16. (No segment has an unknown flag, 3.)
#[test]
fn refusals() {
    let short = Segment::no_column(65).with_alive(alive(1));
    let long = Segment::no_column(1).with_alive(AliveSet::from_words(vec![1, 0]));
    assert_eq!((refused(&short, 0), refused(&long, 9)), (2, 2));
    assert_eq!(refused(&short.with_alive_rows(9), 65), 2);
    assert_eq!(refused(&rows(3, 15), 0), 6);
    assert_eq!(refused(&rows(3, 15).with_alive_rows(3), 0), 6);
    assert_eq!(refused(&rows(3, 7).with_alive_rows(2), 3), 6);
    assert_eq!(refused(&Segment::no_column(3).with_alive_rows(2), 3), 6);
    assert_eq!(refused(&rows(3, 7), 3), 15);
    assert_eq!(refused(&rows(3, 7), u32::MAX), 15);
    assert_eq!(refused(&Segment::no_column(0).without_rows([]), 0), 15);
    assert_eq!(refused(&Segment::no_column(3), 3), 15);
    assert_eq!(refused(&Segment::no_column(3), 1), 16);
    let result = Segment::from(stacked(&[Segment::u64s([[1]])]));
    assert_eq!(refused(&result, 0), 16);
}

/// Type, kind and lists play no part, and other segments don't either. The lists needn't fit, but
/// for the alive words.
#[test]
fn rows_of_sections() {
    let sheet = "mode ordered \
        segment type 9 kind OldMultivalued rows 2 ids 7 offsets 5 withdrawn 0 \
        segment rows 66 withdrawn \
        segment rows 3 alive 15 alive-rows 9 \
        segment rows 1";
    let before = sections(sheet);
    let mut after = before.clone();
    assert_eq!(after.withdraw_rows(1, &[65, 0, 65]), Ok(2));
    assert_eq!(after.reinstate_rows(0, &[1, 0]), Ok(1));
    assert_eq!(after.alive, [3, u64::MAX - 1, 1, 15]);
    let numbers = after.records.iter().map(|record| record.alive_rows);
    assert!(numbers.eq([2, 64, 9, 1]));
    assert_eq!(after.reinstate_rows(1, &[0, 65]), Ok(2));
    assert_eq!(after.withdraw_rows(0, &[0]), Ok(1));
    assert_eq!(after, before);
    assert_eq!(after.withdraw_rows(2, &[0]), Err(Refusal::AliveSet));
    assert_eq!(after.withdraw_rows(3, &[0]), Err(Refusal::NoAliveSet));
    let mut unfit = sections("record 1 1 2 0 0 2 0 1 2 0 0 alive 3");
    assert_eq!(unfit.withdraw_rows(0, &[1]), Ok(1));
    assert_eq!(
        (unfit.records[0].alive_rows, &unfit.alive[..]),
        (1, &[1][..])
    );
}

/// What the calls for rows of sections are refused for, as the explanation has it, in words.
#[test]
fn refusals_in_words() {
    let told = |sheet: &str, segment: usize, rows: &[u32]| {
        let mut sections = sections(sheet);
        let fault = explain::mark_rows(&sections, segment, rows).unwrap();
        assert_eq!(sections.withdraw_rows(segment, rows), Err(fault.refusal));
        assert_eq!(sections.reinstate_rows(segment, rows), Err(fault.refusal));
        (fault.refusal.number(), fault.text)
    };
    let cases: [(u32, &str, usize, &[u32], &str); 10] = [
        (
            2,
            "record 255 0 65 0 0 0 0 1 0 0 0 alive 0",
            0,
            &[70],
            "segment 0, alive words: the segments up to this one announce 2, and 1 is there",
        ),
        (
            2,
            "record 255 0 3 0 0 0 0 2 3 0 0 alive 7",
            0,
            &[1],
            "alive words: the segments announce 0, and 1 is there",
        ),
        (
            3,
            "segment rows 1 segment rows 3 flag 2 alive-rows 7",
            1,
            &[3],
            "segment 1, flag 2: 1 stands for an alive set, 0 for none",
        ),
        (
            6,
            "segment rows 3 alive 15",
            0,
            &[3],
            "segment 0, alive word 15 (the 1st): marks row 3, not below the number of rows, 3",
        ),
        (
            6,
            "segment rows 3 withdrawn 1 alive-rows 3",
            0,
            &[3],
            "segment 0, alive rows 3: the alive set has 2",
        ),
        (
            6,
            "segment rows 3 alive-rows 2",
            0,
            &[3],
            "segment 0, alive rows 2: without an alive set all rows are alive, 3",
        ),
        (
            15,
            "segment rows 3 withdrawn 1",
            0,
            &[0, 3],
            "segment 0, row 3: not below the number of rows, 3",
        ),
        (
            15,
            "segment rows 1 segment rows 0",
            1,
            &[0],
            "segment 1, row 0: not below the number of rows, 0",
        ),
        (
            16,
            "segment rows 3",
            0,
            &[2],
            "segment 0, alive set: there is none; in a sheet, the entry 'withdrawn' gives one, \
             even without a row",
        ),
        (
            16,
            "segment rows 0",
            0,
            &[],
            "segment 0, alive set: there is none; in a sheet, the entry 'withdrawn' gives one, \
             even without a row",
        ),
    ];
    for (answer, sheet, segment, rows, text) in cases {
        let expected = (answer, text.to_string());
        assert_eq!(told(sheet, segment, rows), expected, "{sheet}");
    }
}

/// 6 for each segment by itself, in both modes and in the time order: after 5, before 7.
#[test]
fn wrong_numbers_in_sheets() {
    let cases = [
        ("segment rows 1 alive-rows 0", [6, 6]),
        (
            "mode ordered segment rows 1 alive-rows 0 addresses 0:0",
            [6, 6],
        ),
        (
            "mode ordered segment rows 1 alive-rows 1 addresses 0:0",
            [0, 0],
        ),
        (
            "mode ordered segment rows 2 alive 2 alive-rows 2 addresses 0:1",
            [6, 6],
        ),
        (
            "mode ordered segment rows 2 alive 2 alive-rows 1 addresses 0:1",
            [0, 0],
        ),
        // Wrong numbers whose sum is right.
        (
            "segment rows 1 alive-rows 0 segment rows 1 alive-rows 2",
            [6, 6],
        ),
        ("segment rows 4294967295 alive-rows 0", [6, 6]),
        ("segment rows 4294967295", [7, 7]),
        ("segment type Bool kind Full values 2 alive-rows 0", [5, 5]),
        (
            "segment rows 1 alive-rows 0 segment type Bool kind Full values 2",
            [5, 5],
        ),
        (
            "segment type DateTime kind Full values 2 1 alive-rows 3",
            [6, 6],
        ),
        ("segment type DateTime kind Full values 2 1", [0, 12]),
        (
            "mode ordered segment rows 1 alive-rows 0 addresses 7:7",
            [6, 6],
        ),
        ("segment rows 1 flag 2 alive-rows 0", [3, 3]),
        (
            "segment type U64 kind OldMultivalued offsets 0 alive-rows 1",
            [19, 19],
        ),
    ];
    for (sheet, expected) in cases {
        assert_eq!(answers(sheet), expected, "{sheet}");
    }
    let told = |sheet: &str| explain::join(&sections(sheet)).unwrap().text;
    assert_eq!(
        told("segment rows 1 segment rows 3 alive-rows 4"),
        "segment 1, alive rows 4: without an alive set all rows are alive, 3"
    );
    assert_eq!(
        told("mode ordered segment rows 3 withdrawn 0 1 alive-rows 3"),
        "segment 0, alive rows 3: the alive set has 1"
    );
    // In a stacked join, an alive set is wrong by itself.
    assert_eq!(
        told("segment rows 3 withdrawn 0 alive-rows 3"),
        "segment 0, alive set: a stacked join takes none"
    );
}

#[test]
fn wrong_numbers_of_segments() {
    let wrong = |segment: Segment, number| segment.with_alive_rows(number);
    let times = Segment::date_times([[1], [2]]);
    for segment in [wrong(times.clone(), 1), wrong(times.without_rows([0]), 2)] {
        let segments = std::slice::from_ref(&segment);
        let listed = join(segments, Order::Ordered(&addresses(&[0, 1])), None);
        assert_eq!(listed, Err(Refusal::AliveSet));
        assert_eq!(join(segments, Order::Stacked, None), Err(Refusal::AliveSet));
        assert_eq!(time_order(segments), Err(Refusal::AliveSet));
    }
    // An alive set that is set anew is counted anew.
    let again = wrong(rows(3, 7), 1).with_alive(alive(3));
    assert_eq!(ordered(again, &[1, 0]).rows(), 2);
}

/// The converter refuses a wrong number, and keeps a right one.
#[test]
fn numbers_of_old_segments() {
    let old = || OldSegment::new(ColumnType::U64, 3, vec![0, 2, 2, 3], vec![7, 8, 9]);
    let number = |old: OldSegment| convert(old).map(|segment| segment.alive_rows());
    assert_eq!(number(old()), Ok(3));
    assert_eq!(number(old().with_alive(alive(5))), Ok(2));
    assert_eq!(number(old().with_alive_rows(3)), Ok(3));
    let wrong = Err(Refusal::AliveSet);
    assert_eq!(number(old().with_alive_rows(2)), wrong);
    assert_eq!(number(old().with_alive(alive(5)).with_alive_rows(3)), wrong);
    let mut sheet = sections(
        "segment type U64 kind OldMultivalued offsets 0 1 values 7 alive-rows 0 \
         segment rows 2 alive-rows 9",
    );
    assert_eq!(sheet.convert(), Err(Refusal::AliveSet));
    let fault = explain::convert(&sheet).unwrap();
    let text = "segment 0, alive rows 0: without an alive set all rows are alive, 1";
    assert_eq!(fault.text, text);
    // Other segments' numbers are no matter of it.
    sheet.records[0].alive_rows = 1;
    assert_eq!(sheet.convert(), Ok(()));
    let numbers = sheet.records.iter().map(|record| record.alive_rows);
    assert!(numbers.eq([1, 9]));
}

fn text(sections: &Sections) -> String {
    let mut text = Vec::new();
    sheet::write(sections, &mut text).unwrap();
    String::from_utf8(text).unwrap()
}

/// A sheet need not have the number, and what is written has it only where it is wrong.
#[test]
fn numbers_in_sheets() {
    let numbers = |sheet: &str| -> Vec<u32> {
        let sections = sections(sheet);
        let written = text(&sections);
        assert_eq!(sheet::read(written.as_bytes()).unwrap(), sections);
        let wrong = written.matches("alive-rows").count();
        let stated = sheet.matches("alive-rows").count();
        assert_eq!(wrong, stated, "{written}");
        sections.records.iter().map(|r| r.alive_rows).collect()
    };
    let right = "segment rows 3 segment type U64 kind Full values 1 2 \
        segment rows 70 withdrawn 1 69 segment rows 4 alive 5 segment rows 3 flag 7 \
        segment type U64 kind OldMultivalued offsets 0 0 0";
    assert_eq!(numbers(right), [3, 2, 68, 2, 3, 2]);
    let wrong = "segment rows 3 alive-rows 2 segment rows 4 alive 5 alive-rows 4294967295";
    assert_eq!(numbers(wrong), [2, u32::MAX]);
    let stated = sections("segment rows 3 withdrawn 1 alive-rows 2");
    assert!(!text(&stated).contains("alive-rows"));
    assert!(text(&sections(wrong)).contains("\nrows 3\nalive-rows 2\n"));
    assert!(
        text(&sections("record 1 1 2 0 0 2 0 0 9 0 0"))
            .contains("\nrecord 1 1 2 0 0 2 0 0 9 0 0\n")
    );
}

/// The ninth number of a record, 32 bits wide.
#[test]
fn numbers_in_wire_forms() {
    let sections = sections("segment rows 3 alive-rows 4294967295 segment rows 2 withdrawn 0");
    let mut wire = Vec::new();
    sections.write_wire(&mut wire).unwrap();
    let word = |place: usize| u64::from_le_bytes(wire[8 * place..][..8].try_into().unwrap());
    assert_eq!((word(12), word(23)), (4294967295, 1));
    assert_eq!(Sections::read_wire(&wire[..]).unwrap(), sections);
    wire[8 * 12..][..8].copy_from_slice(&(1u64 << 32).to_le_bytes());
    assert!(matches!(
        Sections::read_wire(&wire[..]),
        Err(WireError::Fault(_))
    ));
}

/// A play withdrawn, the month joined; reinstated, it is what it was.
#[test]
fn joined_after_each_change() {
    let mut times = [
        Segment::date_times([[10], [30], [50]]).without_rows([]),
        Segment::date_times([[20], [40]]),
    ];
    let mut artists = [
        Segment::strs([["Can"], ["Moondog"], ["Air"]]).without_rows([]),
        Segment::strs([["Air"], ["Can"]]),
    ];
    let month = |times: &[Segment], artists: &[Segment]| -> Joined {
        join(artists, Order::Ordered(&time_order(times).unwrap()), None).unwrap()
    };
    let before = month(&times, &artists);
    assert_eq!((before.rows(), before.values()), (5, &[1, 0, 2, 1, 0][..]));
    for column in [&mut times[0], &mut artists[0]] {
        assert_eq!(column.withdraw(1), Ok(Marked::Changed));
    }
    let without = month(&times, &artists);
    assert_eq!((without.rows(), without.values()), (4, &[1, 0, 1, 0][..]));
    assert!(without.terms().iter().eq([b"Air", b"Can"]));
    for column in [&mut times[0], &mut artists[0]] {
        assert_eq!(column.reinstate(1), Ok(Marked::Changed));
    }
    assert_eq!(month(&times, &artists), before);
}

/// A segment beside a list of which rows are alive. Some calls are refused.
struct Model {
    segment: Segment,
    alive: Vec<bool>,
}

impl Model {
    fn new(chance: &mut Chance) -> Model {
        let rows = chance.one_of(&[0, 1, 2, 63, 64, 65, 128, 130]);
        let alive: Vec<bool> = (0..rows).map(|_| chance.once_in(2)).collect();
        let withdrawn = (0..rows as u32).filter(|&row| !alive[row as usize]);
        let segment = Segment::no_column(rows as u32).without_rows(withdrawn);
        Model { segment, alive }
    }

    /// The change of one row, or none if it isn't there.
    fn mark(&mut self, row: u32, to: bool) -> Option<bool> {
        let alive = self.alive.get_mut(row as usize)?;
        Some(std::mem::replace(alive, to) != to)
    }

    fn one(&mut self, row: u32, to: bool) {
        let answer = match to {
            true => self.segment.reinstate(row),
            false => self.segment.withdraw(row),
        };
        let expected = match self.mark(row, to) {
            None => Err(Refusal::AbsentRow),
            Some(true) => Ok(Marked::Changed),
            Some(false) => Ok(Marked::Unchanged),
        };
        assert_eq!(answer, expected);
    }

    fn several(&mut self, rows: &[u32], to: bool) {
        let answer = match to {
            true => self.segment.reinstate_rows(rows),
            false => self.segment.withdraw_rows(rows),
        };
        let expected = match rows.iter().all(|&row| (row as usize) < self.alive.len()) {
            true => Ok(rows
                .iter()
                .filter(|&&row| self.mark(row, to) == Some(true))
                .count() as u32),
            false => Err(Refusal::AbsentRow),
        };
        assert_eq!(answer, expected);
    }

    /// The rows that are alive, which the segment's set and number agree with.
    fn alive_rows(&self) -> Vec<u32> {
        let set = self.segment.alive().unwrap();
        let rows: Vec<u32> = (0..self.alive.len() as u32 + 70)
            .filter(|&row| set.is_alive(row))
            .collect();
        let all = (0..).zip(&self.alive);
        assert!(
            all.filter(|(_, alive)| **alive)
                .map(|(row, _)| row)
                .eq(rows.iter().copied())
        );
        assert_eq!(self.segment.alive_rows(), rows.len() as u32);
        rows
    }
}

#[test]
fn any_sequence_of_calls() {
    let mut chance = Chance(0x7157_d7a3_1e15_7a7e);
    for _ in 0..1_000 {
        let mut model = Model::new(&mut chance);
        // Seldom a row past the last.
        let rows = model.alive.len() + usize::from(chance.once_in(4));
        for _ in 0..chance.below(40) {
            let (row, to) = (chance.below(rows.max(1)) as u32, chance.once_in(2));
            match chance.below(3) {
                0 => {
                    let run: Vec<u32> = (0..chance.below(9))
                        .map(|_| chance.below(rows.max(1)) as u32)
                        .collect();
                    model.several(&run, to);
                }
                _ => model.one(row, to),
            }
            model.alive_rows();
        }
        let alive = model.alive_rows();
        assert_eq!(time_order(&[model.segment.clone()]), Ok(addresses(&alive)));
        assert_eq!(ordered(model.segment, &alive).rows(), alive.len() as u32);
    }
}

/// One call for many rows leaves what a call for each would leave.
#[test]
fn one_call_or_many() {
    let mut chance = Chance(0x1ca1_1f04_3a7e_5eed);
    for _ in 0..500 {
        let Model { segment, alive } = Model::new(&mut chance);
        let rows: Vec<u32> = (0..chance.below(50))
            .map(|_| chance.below(alive.len().max(1)) as u32)
            .filter(|&row| (row as usize) < alive.len())
            .collect();
        let (mut at_once, mut in_turn) = (segment.clone(), segment);
        let mut changed = 0;
        for &row in &rows {
            changed += u32::from(in_turn.withdraw(row) == Ok(Marked::Changed));
        }
        assert_eq!(at_once.withdraw_rows(&rows), Ok(changed));
        assert_eq!(at_once, in_turn);
    }
}

/// An ordered join names the alive rows: a withdrawn one no longer, a reinstated one again.
#[test]
fn addresses_follow_the_alive_rows() {
    let mut segments = [Segment::u64s([[7], [8]]).without_rows([])];
    let joined = |segments: &[Segment], rows: &[u32]| -> Result<Vec<u64>, Refusal> {
        let addresses: Vec<Address> = addresses(rows);
        let joined = join(segments, Order::Ordered(&addresses), None)?;
        Ok(joined.values().to_vec())
    };
    assert_eq!(joined(&segments, &[1, 0]), Ok(vec![8, 7]));
    assert_eq!(segments[0].withdraw(0), Ok(Marked::Changed));
    assert_eq!(joined(&segments, &[1, 0]), Err(Refusal::Addresses));
    assert_eq!(joined(&segments, &[1]), Ok(vec![8]));
    assert_eq!(segments[0].reinstate(0), Ok(Marked::Changed));
    assert_eq!(joined(&segments, &[1]), Err(Refusal::Addresses));
    assert_eq!(joined(&segments, &[1, 0]), Ok(vec![8, 7]));
}
