//! The least and the greatest value in a record and of a joined column (document 02, (j)): by
//! segments, sections, sheets and wire forms. (The library's own search for them is tried in
//! src/pair.rs, the converter's answers to untrue ones in src/ffi.rs.)
mod common;

use common::chance::Chance;
use common::{addresses, alive, answered, answers, ordered, sections, stacked};
use jadmirus::{
    Address, ColumnType, Joined, Marked, OldSegment, Order, Pair, Refusal, Sections, Segment,
    Value, WireError, convert, explain, join, sheet, time_order,
};
use std::net::Ipv6Addr;

const MOST: u64 = i64::MAX as u64;

fn i64_pair(least: i64, greatest: i64) -> Pair {
    Pair::new(least as u64, greatest as u64)
}

const NONE: Pair = Pair::new(0, 0);

#[test]
fn segments_know_their_pair() {
    let i64s = |values: &[i64]| Segment::i64s(values.iter().map(|&value| [value])).pair();
    assert_eq!(i64s(&[1, -1]), i64_pair(-1, 1));
    assert_eq!(i64s(&[-6, -5]), i64_pair(-6, -5));
    let ends = [i64::MAX, 0, i64::MIN];
    assert_eq!(i64s(&ends), Pair::new(1 << 63, MOST));
    let u64s = |values: &[u64]| Segment::u64s(values.iter().map(|&value| [value])).pair();
    assert_eq!(u64s(&[u64::MAX, 1]), Pair::new(1, u64::MAX));
    assert_eq!(u64s(&[1 << 63, MOST]), Pair::new(MOST, 1 << 63));
    // The least is one of the values, and not 0.
    assert_eq!(u64s(&[6, 5]), Pair::new(5, 6));
    assert_eq!(u64s(&[7]), Pair::new(7, 7));
    let several = Segment::u64s([vec![8, 3], vec![], vec![9]]);
    assert_eq!(several.pair(), Pair::new(3, 9));
    let words = vec![7, u64::MAX];
    let lists = [
        Segment::full(ColumnType::I64, words.clone()),
        Segment::optional(ColumnType::I64, 5, vec![0, 4], words.clone()),
        Segment::new_multivalued(ColumnType::I64, 3, vec![1], vec![0, 2], words),
    ];
    for segment in lists {
        assert_eq!(segment.pair(), i64_pair(-1, 7));
    }
}

/// 0 and 0 for other types, times too, and for columns without values.
#[test]
fn columns_without_a_pair() {
    let segments = [
        Segment::no_column(3),
        Segment::empty(ColumnType::U64, 2),
        Segment::optional(ColumnType::I64, 2, vec![], vec![]),
        Segment::u64s([None, None::<u64>]),
        Segment::date_times([[-5], [7]]),
        Segment::f64s([[0.5], [-2.0]]),
        Segment::bools([[true]]),
        Segment::strs([["b"], ["a"]]),
        Segment::byte_strings([[&b"a"[..]]]),
        Segment::ip_addrs([[Ipv6Addr::LOCALHOST]]),
    ];
    for segment in segments {
        assert_eq!(segment.pair(), NONE, "{segment:?}");
        let joined = stacked(&[segment]);
        assert_eq!(joined.pair(), NONE);
        assert_eq!((joined.least(), joined.greatest()), (None, None));
    }
}

/// Withdrawn values count in the segment's pair, which stays what it is, and not in the joined one.
#[test]
fn withdrawn_values() {
    let mut segment = Segment::u64s([[3], [9], [1]]).without_rows([]);
    for rows in [&[1][..], &[2], &[0]] {
        assert_eq!(segment.withdraw_rows(rows), Ok(1));
        assert_eq!(segment.pair(), Pair::new(1, 9));
    }
    assert_eq!(segment.reinstate(0), Ok(Marked::Changed));
    assert_eq!(segment.pair(), Pair::new(1, 9));
    let joined = ordered(segment.clone(), &[0]);
    assert_eq!(joined.pair(), Pair::new(3, 3));
    assert_eq!(Segment::from(joined).pair(), Pair::new(3, 3));
    let left = ordered(segment.clone().with_alive(alive(5)), &[2, 0]);
    assert_eq!(left.pair(), Pair::new(1, 3));
    // A pair of the alive values alone is untrue.
    let of_alive = segment.with_pair(Pair::new(3, 3));
    let refused = join(&[of_alive], Order::Ordered(&addresses(&[0])), None);
    assert_eq!(refused, Err(Refusal::Contents));
}

/// A segment is refused with an untrue pair in both modes and in the time order, whatever joins it.
#[test]
fn untrue_pairs_of_segments() {
    let u64s = || Segment::u64s([[3], [4]]);
    let i64s = || Segment::i64s([[1], [-1]]);
    let untrue = [
        u64s().with_pair(Pair::new(0, 4)),
        u64s().with_pair(Pair::new(3, 5)),
        u64s().with_pair(Pair::new(4, 3)),
        u64s().with_pair(NONE),
        // Wrong in the upper half alone.
        u64s().with_pair(Pair::new(3 | 1 << 32, 4)),
        u64s().with_pair(Pair::new(3, 4 | 1 << 63)),
        // As if unsigned.
        i64s().with_pair(i64_pair(1, -1)),
        Segment::date_times([[5], [6]]).with_pair(Pair::new(5, 6)),
        Segment::date_times([[5], [6]]).with_pair(Pair::new(0, 1)),
        Segment::f64s([[0.5], [0.5]]).with_pair(Pair::new(0.5f64.to_bits(), 0)),
        Segment::bools([[true], [true]]).with_pair(Pair::new(1, 1)),
        Segment::strs([["a"], ["b"]]).with_pair(Pair::new(0, 1)),
        Segment::ip_addrs([[Ipv6Addr::LOCALHOST]; 2]).with_pair(Pair::new(0, 1)),
        Segment::u64s([None, None::<u64>]).with_pair(Pair::new(1, 0)),
        Segment::empty(ColumnType::I64, 2).with_pair(Pair::new(0, 1)),
        Segment::no_column(2).with_pair(Pair::new(0, 1)),
    ];
    for segment in untrue {
        let segments = std::slice::from_ref(&segment);
        let refused = Err(Refusal::Contents);
        assert_eq!(join(segments, Order::Stacked, None), refused, "{segment:?}");
        let listed = Order::Ordered(&addresses(&[1, 0]));
        assert_eq!(join(segments, listed, None), refused, "{segment:?}");
        assert_eq!(time_order(segments).err(), refused.err(), "{segment:?}");
    }
    let stated = u64s().with_pair(Pair::new(3, 4));
    assert_eq!(stated, u64s());
    let stated = i64s().with_pair(i64_pair(-1, 1));
    assert_eq!(stacked(&[stated]).values(), [1, u64::MAX]);
}

/// The answers of the join and of the time order, and the sheet.
const ANSWERED: &str = "\
    0 12 segment type I64 kind Full values 1 -1 least -1 greatest 1
    0 12 segment type I64 kind Full values 1 -1 least 0xffffffffffffffff greatest 0x1
    5 5 segment type I64 kind Full values 1 -1 least 1 greatest -1
    0 12 segment type U64 kind Full values 18446744073709551615 1 greatest 18446744073709551615
    5 5 segment type U64 kind Full values 3 4 least 0
    5 5 segment type U64 kind Full values 3 4 greatest 5
    5 5 segment type I64 kind Full values -6 -5 greatest 0
    0 0 segment type DateTime kind Full values 5 least 0 greatest 0
    5 5 segment type DateTime kind Full values 5 least 5 greatest 5
    5 5 segment type DateTime kind Full values -5 least -5
    5 5 segment type F64 kind Full values 0.5 greatest 0.5
    5 5 segment type Bool kind Full values true greatest true
    5 5 segment type IpAddr kind Full values ::1 greatest 1
    0 12 segment type U64 kind Optional rows 1 least 0 greatest 0
    5 5 segment type U64 kind Optional rows 1 greatest 1
    5 5 segment type U64 kind Optional rows 1 least 1
    0 0 segment type none rows 1 least 0 greatest 0
    5 5 segment type none rows 1 least 1
    3 3 segment type none kind Full rows 1 least 1
    3 3 segment type 8 kind Full values 1 least 7
    19 19 segment type U64 kind OldMultivalued offsets 0 1 values 7 least 6
    4 4 segment type U64 kind Optional rows 3 ids 1 1 values 7 7 least 0
    5 5 segment type U64 kind Full values 7 least 0 alive-rows 0
    5 5 segment rows 4294967295 segment type U64 kind Full values 7 least 0
    5 5 segment rows 1 alive-rows 0 segment type U64 kind Full values 7 least 0
    5 5 mode ordered segment type U64 kind Full values 7 least 0 addresses 9:9
    5 5 required Str segment type U64 kind Full values 7 least 0
    0 12 mode ordered segment type U64 kind Full values 3 9 withdrawn 1 greatest 9 addresses 0:0
    5 5 mode ordered segment type U64 kind Full values 3 9 withdrawn 1 greatest 3 addresses 0:0
    0 12 mode ordered segment type U64 kind Full values 1 withdrawn 0 least 1 greatest 1
    5 5 mode ordered segment type U64 kind Full values 1 withdrawn 0 least 0 greatest 0";

/// Each stated pair is tested, a dropped column's too: after 4 over all segments, and before 6.
#[test]
fn pairs_in_sheets() {
    answered(ANSWERED);
}

/// What the record says, and what the values are: the segment, the row, the place.
#[test]
fn untrue_pairs_in_words() {
    let told = |sheet: &str| {
        let fault = explain::join(&sections(sheet)).unwrap();
        assert_eq!(fault.refusal, Refusal::Contents, "{sheet}");
        assert_eq!(answers(sheet), [5, 5], "{sheet}");
        fault.text
    };
    let cases = [
        (
            "segment rows 1 segment type U64 kind Optional rows 9 ids 3 7 values 6 5 least 0",
            "segment 1, least value 0: row 7, value 5 (the 2nd) is the least",
        ),
        (
            "segment type I64 kind Full values -6 -5 greatest 0",
            "segment 0, greatest value 0: row 1, value -5 (the 2nd) is the greatest",
        ),
        (
            "segment type I64 kind Full values 1 -1 least 1 greatest -1",
            "segment 0, least value 1: row 1, value -1 (the 2nd) is the least",
        ),
        (
            "segment type U64 kind Full values 18446744073709551615 greatest 7",
            "segment 0, greatest value 7: row 0, value 18446744073709551615 (the 1st) is the \
             greatest",
        ),
        (
            "mode ordered segment type U64 kind NewMultivalued rows 2 ids 0 1 offsets 0 2 3 \
             values 3 4 9 withdrawn 1 greatest 4",
            "segment 0, greatest value 4: row 1 (withdrawn), value 9 (the 3rd) is the greatest",
        ),
        // Of equal values the first is named.
        (
            "segment type U64 kind Full values 5 5 5 least 4",
            "segment 0, least value 4: row 0, value 5 (the 1st) is the least",
        ),
        (
            "segment type U64 kind Full values 5 5 5 greatest 6",
            "segment 0, greatest value 6: row 0, value 5 (the 1st) is the greatest",
        ),
        (
            "segment type I64 kind Empty rows 1 least -1",
            "segment 0, least value -1: it is 0 for a column without values",
        ),
        (
            "segment type DateTime kind Full values -5 least -5 greatest -5",
            "segment 0, least value -5: it is 0 for a column of type DateTime",
        ),
        (
            "segment type IpAddr kind Full values ::1 greatest 1",
            "segment 0, greatest value 1: it is 0 for a column of type IpAddr",
        ),
        (
            "segment type none rows 1 greatest 1",
            "segment 0, greatest value 1: it is 0 for a segment without a column",
        ),
        // Values and terms come first, and segments in their order.
        (
            "segment type Bool kind Full values 2 least 1",
            "segment 0, row 0, value 2 (the 1st): a Bool is 0 or 1",
        ),
        (
            "segment type Str kind Full values 0 terms \"b\" \"a\" least 1",
            "segment 0, term \"a\" (the 2nd): not above the one before it, \"b\"",
        ),
        (
            "segment type U64 kind Full values 7 least 1 segment type Bool kind Full values 2",
            "segment 0, least value 1: row 0, value 7 (the 1st) is the least",
        ),
    ];
    for (sheet, text) in cases {
        assert_eq!(told(sheet), text);
    }
}

fn text(sections: &Sections) -> String {
    let mut text = Vec::new();
    sheet::write(sections, &mut text).unwrap();
    String::from_utf8(text).unwrap()
}

/// A sheet need not have the pair. What is written has it, in the type's own notation, for each
/// column that has one, and where it is untrue.
#[test]
fn pairs_in_written_sheets() {
    let cases = [
        ("type I64 kind Full values 5 -7", Some(["-7", "5"])),
        (
            "type I64 kind Full values 0x8000000000000000",
            Some(["-9223372036854775808"; 2]),
        ),
        ("type U64 kind Full values 0", Some(["0", "0"])),
        (
            "type U64 kind Full values 0x8000000000000000 1",
            Some(["1", "9223372036854775808"]),
        ),
        ("type I64 kind Full values 5 -7 least 3", Some(["3", "5"])),
        ("type U64 kind Full values 7 greatest 9", Some(["7", "9"])),
        ("type I64 kind Optional rows 2", None),
        ("type I64 kind Optional rows 2 least -1", Some(["-1", "0"])),
        ("type DateTime kind Full values 5", None),
        (
            "type DateTime kind Full values 5 greatest -5",
            Some(["0", "-5"]),
        ),
        ("type F64 kind Full values 0.5", None),
        (
            "type F64 kind Full values 0.5 least 1.5",
            Some(["1.5", "0.0"]),
        ),
        (
            "type IpAddr kind Full values ::1 least 18446744073709551615",
            Some(["18446744073709551615", "0"]),
        ),
        (
            "type Str kind Full values \"a\" greatest 1",
            Some(["0", "1"]),
        ),
        ("type none rows 3", None),
        ("type none rows 3 greatest 7", Some(["0", "7"])),
        ("type 8 kind 9 rows 3", None),
        ("type 8 kind 9 rows 3 least 7", Some(["7", "0"])),
    ];
    for (entries, pair) in cases {
        let sections = sections(&format!("segment {entries}"));
        let written = text(&sections);
        assert_eq!(sheet::read(written.as_bytes()).unwrap(), sections);
        match pair {
            Some([least, greatest]) => {
                let lines = format!("\nleast {least}\ngreatest {greatest}\n");
                assert!(written.ends_with(&lines), "{written}");
            }
            None => assert!(!written.contains("least"), "{written}"),
        }
    }
    // In sections as wholes, they are words.
    let record = "\nrecord 0 1 2 0 0 2 0 0 2 18446744073709551615 1\n";
    let wholes = sections(record);
    assert_eq!(wholes.records[0].pair, i64_pair(-1, 1));
    assert!(text(&wholes).contains(record));
    assert_eq!(sheet::read(text(&wholes).as_bytes()).unwrap(), wholes);
}

/// The tenth and the eleventh number of a record, 64 bits wide; the ninth still has 32.
#[test]
fn pairs_in_wire_forms() {
    let sections = sections(
        "segment type I64 kind Full values -1 5 segment rows 3 \
         segment type U64 kind Full values 4294967296 7 greatest 18446744073709551615",
    );
    let mut wire = Vec::new();
    sections.write_wire(&mut wire).unwrap();
    let word = |place: usize| u64::from_le_bytes(wire[8 * place..][..8].try_into().unwrap());
    let pair = |segment: usize| [word(13 + 11 * segment), word(14 + 11 * segment)];
    let pairs = [0, 1, 2].map(pair);
    assert_eq!(pairs, [[u64::MAX, 5], [0, 0], [7, u64::MAX]]);
    assert_eq!(Sections::read_wire(&wire[..]).unwrap(), sections);
    assert_eq!(sections.join(), Err(Refusal::Contents));
    let put = |place: usize, word: u64| {
        let mut wire = wire.clone();
        wire[8 * place..][..8].copy_from_slice(&word.to_le_bytes());
        Sections::read_wire(&wire[..])
    };
    let right = put(14 + 22, 1 << 32).unwrap();
    assert_eq!(right.records[2].pair, Pair::new(7, 1 << 32));
    assert_eq!(right.join().unwrap().pair(), i64_pair(-1, 1 << 32));
    for place in 4..13 {
        let fault = put(place, 1 << 32).unwrap_err();
        assert!(matches!(fault, WireError::Fault(_)), "{place}");
    }
}

/// Log sheets of document 01, C1 to C11.
#[test]
fn log_sheets() {
    let multivalued = |word| {
        let (ids, offsets) = (vec![0, 2], vec![0, 2, 3]);
        let lists = Segment::new_multivalued(ColumnType::U64, 3, ids, offsets, vec![7, 8, 9]);
        assert_eq!(lists.pair(), Pair::new(7, 9));
        lists.with_alive(alive(word))
    };
    let c10 = |greatest| stacked(&[Segment::i64s([[-1]]), Segment::u64s([[greatest]])]);
    let required = |segments: &[Segment], typ| join(segments, Order::Stacked, Some(typ));
    let c11 = |value| required(&[Segment::u64s([[value]])], ColumnType::I64);
    let c4 = required(&[Segment::no_column(3)], ColumnType::U64).unwrap();
    let c9 = Segment::optional(ColumnType::U64, 2, vec![0, 1], vec![5, 6]);
    let cases = [
        (stacked(&[Segment::strs([["b"], ["a"]])]), NONE),
        (stacked(&[]), NONE),
        (required(&[], ColumnType::I64).unwrap(), NONE),
        (c4, NONE),
        (ordered(multivalued(7), &[0, 1, 2]), Pair::new(7, 9)),
        (ordered(multivalued(5), &[2, 0]), Pair::new(7, 9)),
        (ordered(multivalued(4), &[2]), Pair::new(9, 9)),
        (ordered(multivalued(2), &[1]), NONE),
        (ordered(c9.clone(), &[1, 0]), Pair::new(5, 6)),
        (ordered(c9.with_alive(alive(3)), &[1, 0]), Pair::new(5, 6)),
        (c10(MOST - 1), i64_pair(-1, i64::MAX - 1)),
        (c10(MOST), NONE),
        (c11(MOST).unwrap(), Pair::new(MOST, MOST)),
    ];
    for (joined, pair) in cases {
        assert_eq!(joined.pair(), pair, "{joined:?}");
    }
    assert_eq!(c11(MOST + 1), Err(Refusal::Types));
}

/// The joined type by the pairs of the held columns, and the pair of the joined values.
#[test]
fn types_by_pairs() {
    let joined = |sheet: &str| {
        let joined = sections(sheet).join().unwrap();
        (joined.column_type().unwrap(), joined.pair())
    };
    let u64_most = format!("segment type U64 kind Full values {MOST}");
    let less = format!("segment type U64 kind Full values 1 {}", MOST - 1);
    let cases = [
        (
            "segment type I64 kind Full values -1 segment type U64 kind Full values 7".to_string(),
            (ColumnType::I64, i64_pair(-1, 7)),
        ),
        (
            format!("segment type I64 kind Full values -1 {less}"),
            (ColumnType::I64, i64_pair(-1, i64::MAX - 1)),
        ),
        (
            format!("segment type I64 kind Full values 3 {u64_most}"),
            (ColumnType::U64, Pair::new(3, MOST)),
        ),
        (
            format!("segment type I64 kind Full values -1 {u64_most}"),
            (ColumnType::F64, NONE),
        ),
        (
            format!("segment type F64 kind Full values 0.5 {less}"),
            (ColumnType::F64, NONE),
        ),
        // A withdrawn value of a held column counts for the type.
        (
            format!(
                "mode ordered segment type I64 kind Full values 3 -1 withdrawn 1 {u64_most} \
                 addresses 0:0 1:0"
            ),
            (ColumnType::F64, NONE),
        ),
        // One of a dropped column doesn't.
        (
            format!(
                "mode ordered segment type I64 kind Full values -1 withdrawn 0 \
                 segment type I64 kind Full values 3 {u64_most} addresses 1:0 2:0"
            ),
            (ColumnType::U64, Pair::new(3, MOST)),
        ),
        // A column without values, whose pair is 0 and 0, has no part in the joined one.
        (
            "segment type U64 kind Full values 5 segment type U64 kind Optional rows 1".to_string(),
            (ColumnType::U64, Pair::new(5, 5)),
        ),
        (
            "required F64 segment type U64 kind Full values 5".to_string(),
            (ColumnType::F64, NONE),
        ),
        (
            format!("required I64 {u64_most}"),
            (ColumnType::I64, Pair::new(MOST, MOST)),
        ),
    ];
    for (sheet, expected) in cases {
        assert_eq!(joined(&sheet), expected, "{sheet}");
    }
    // What can't be coerced, by the pair too: here by a withdrawn value.
    let refused = "mode ordered required U64 segment type I64 kind Full values 3 -1 withdrawn 1 \
        addresses 0:0";
    assert_eq!(answers(refused)[0], 10);
}

fn ends(joined: &Joined) -> (Value<'_>, Value<'_>) {
    (joined.least().unwrap(), joined.greatest().unwrap())
}

/// The values of the pair, in their type.
#[test]
fn joined_ends() {
    let i64s = stacked(&[Segment::i64s([[5], [i64::MIN], [-1]])]);
    assert_eq!(ends(&i64s), (Value::I64(i64::MIN), Value::I64(5)));
    let u64s = stacked(&[Segment::u64s([[u64::MAX], [0]])]);
    assert_eq!(ends(&u64s), (Value::U64(0), Value::U64(u64::MAX)));
    let mixed = stacked(&[Segment::u64s([[7]]), Segment::i64s([[-1]])]);
    assert_eq!(ends(&mixed), (Value::I64(-1), Value::I64(7)));
}

/// A result's pair is handed on, as the one that its values have.
fn handed_on(joined: &Joined) -> Segment {
    let segment = Segment::from(joined.clone());
    assert_eq!(segment.pair(), joined.pair());
    let typ = joined.column_type().unwrap();
    assert_eq!(segment.pair(), Pair::of(typ, joined.values()));
    segment
}

/// Over two joins, of which the first leaves out withdrawn values and coerces the others.
#[test]
fn handed_on_over_two_joins() {
    let first = [
        Segment::i64s([[-9], [-2], [4]]).without_rows([0]),
        Segment::u64s([[1], [6]]).without_rows([]),
    ];
    let order = [(0, 2), (1, 1), (0, 1), (1, 0)];
    let order = order.map(|(segment, row)| Address { segment, row });
    let week = join(&first, Order::Ordered(&order), None).unwrap();
    assert_eq!(week.pair(), i64_pair(-2, 6));
    let other = stacked(&[Segment::i64s([Some(3), None, Some(8)])]);
    let month = stacked(&[handed_on(&week), handed_on(&other)]);
    assert_eq!(month.pair(), i64_pair(-2, 8));
    let year = stacked(&[handed_on(&month)]);
    assert_eq!(year.pair(), month.pair());
    // Joined to doubles, it has no pair any more.
    let doubles = stacked(&[handed_on(&month), Segment::f64s([[0.5]])]);
    assert_eq!(handed_on(&doubles).pair(), NONE);
}

/// Weeks joined first, or all days at once: the same column with the same pair.
#[test]
fn regrouped_weeks() {
    let mut chance = Chance(0x1ea5_79ea_7e57_1ea5);
    let words = [0, 1, 2, MOST - 1, MOST, 1 << 63, u64::MAX - 1, u64::MAX];
    for _ in 0..1_000 {
        let typ = chance.one_of(&[ColumnType::I64, ColumnType::U64]);
        let days: Vec<Segment> = (0..1 + chance.below(8))
            .map(|_| {
                let rows = chance.below(6) as u32;
                let ids: Vec<u32> = (0..rows).filter(|_| chance.once_in(2)).collect();
                let values = ids.iter().map(|_| chance.one_of(&words)).collect();
                Segment::optional(typ, rows, ids, values)
            })
            .collect();
        let weeks: Vec<Joined> = days.chunks(1 + chance.below(4)).map(stacked).collect();
        let weeks: Vec<Segment> = weeks.into_iter().map(Segment::from).collect();
        let (at_once, grouped) = (stacked(&days), stacked(&weeks));
        assert_eq!(grouped.pair(), at_once.pair());
        assert_eq!(grouped.values(), at_once.values());
        assert_eq!(at_once.pair(), Pair::of(typ, at_once.values()));
    }
}

/// The converter refuses an untrue pair, and keeps a true one, be it of withdrawn rows too.
#[test]
fn pairs_of_old_segments() {
    let words = vec![7, u64::MAX, 9];
    let old = |typ| OldSegment::new(typ, 3, vec![0, 2, 2, 3], words.clone());
    let pair = |old: OldSegment| convert(old).map(|segment| segment.pair());
    assert_eq!(pair(old(ColumnType::I64)), Ok(i64_pair(-1, 9)));
    assert_eq!(pair(old(ColumnType::U64)), Ok(Pair::new(7, u64::MAX)));
    assert_eq!(pair(old(ColumnType::DateTime)), Ok(NONE));
    let withdrawn = old(ColumnType::I64).with_alive(alive(4));
    assert_eq!(pair(withdrawn.clone()), Ok(i64_pair(-1, 9)));
    let stated = withdrawn.clone().with_pair(i64_pair(-1, 9));
    assert_eq!(pair(stated), Ok(i64_pair(-1, 9)));
    let wrong = Err(Refusal::Contents);
    assert_eq!(pair(withdrawn.with_pair(Pair::new(9, 9))), wrong);
    let time = old(ColumnType::DateTime).with_pair(i64_pair(-1, 9));
    assert_eq!(pair(time), wrong);
    let mut sheet = sections(
        "segment type U64 kind OldMultivalued offsets 0 2 2 3 values 7 8 9 least 6 \
         segment type U64 kind Full values 1 least 0",
    );
    assert_eq!(sheet.convert(), Err(Refusal::Contents));
    let fault = explain::convert(&sheet).unwrap();
    let told = "segment 0, least value 6: row 0, value 7 (the 1st) is the least";
    assert_eq!((fault.refusal, &*fault.text), (Refusal::Contents, told));
    // Other segments' pairs are no matter of it.
    sheet.records[0].pair = Pair::new(7, 9);
    assert_eq!(sheet.convert(), Ok(()));
    let pairs = sheet.records.iter().map(|record| record.pair);
    assert!(pairs.eq([Pair::new(7, 9), Pair::new(0, 1)]));
}

/// Withdrawing and reinstating don't look at the pair, and leave it as it is.
#[test]
fn pairs_and_marked_rows() {
    let before = sections("segment type U64 kind Full values 3 9 withdrawn least 8 greatest 1");
    let mut after = before.clone();
    assert_eq!(after.withdraw_rows(0, &[1]), Ok(1));
    assert_eq!(after.records[0].pair, Pair::new(8, 1));
    assert_eq!(after.reinstate_rows(0, &[1]), Ok(1));
    assert_eq!(after, before);
    let mut segment = Segment::no_column(2).without_rows([]);
    segment = segment.with_pair(Pair::new(8, 1));
    assert_eq!(segment.withdraw(1), Ok(Marked::Changed));
    assert_eq!(segment.pair(), Pair::new(8, 1));
}
