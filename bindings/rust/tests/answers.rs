//! Each answer's example in document 01's table, by the safe interface, or by the sections where
//! that can't reach it. (8 and 11 need space that this crate never lends: see src/ffi.rs.)
mod common;

use common::answers;
use jadmirus::{
    Address, AliveSet, Class, ColumnType, Order, Record, Refusal, Sections, Segment, join,
    time_order,
};

fn stacked(segments: &[Segment]) -> Refusal {
    join(segments, Order::Stacked, None).unwrap_err()
}

fn ordered(segments: &[Segment], addresses: &[(u32, u32)]) -> Refusal {
    let addresses: Vec<Address> = addresses
        .iter()
        .map(|&(segment, row)| Address { segment, row })
        .collect();
    join(segments, Order::Ordered(&addresses), None).unwrap_err()
}

#[test]
fn numbers_names_and_sentences() {
    let numbers = [1, 2, 3, 19, 4, 5, 6, 7, 8, 9, 10, 11, 12, 15, 16];
    assert_eq!(Refusal::all().map(Refusal::number), numbers);
    for (number, refusal) in numbers.into_iter().zip(Refusal::all()) {
        assert!(refusal.sentence().ends_with('.'));
        let text = refusal.to_string();
        assert!(text.starts_with(&format!("answer {number} ({}): ", refusal.name())));
    }
}

#[test]
fn one() {
    let segments = vec![Segment::no_column(1); 257];
    assert_eq!(stacked(&segments), Refusal::TooManySegments);
    assert!(join(&segments[1..], Order::Stacked, None).is_ok());
}

#[test]
fn two() {
    let mut sections = Sections::of(&[Segment::u64s([Some(7)])]).unwrap();
    sections.values.clear();
    assert_eq!(sections.join(), Err(Refusal::Lengths));
}

/// Two alive sets whose lengths are wrong but sum up: the library could not see it.
#[test]
fn two_for_alive_sets_of_wrong_lengths() {
    let long = Segment::no_column(1).with_alive(AliveSet::from_words(vec![1, 1]));
    let short = Segment::no_column(65).with_alive(AliveSet::from_words(vec![1]));
    assert_eq!(
        ordered(&[long.clone(), short], &[(0, 0), (1, 0)]),
        Refusal::Lengths
    );
    assert_eq!(time_order(&[long]), Err(Refusal::Lengths));
}

/// Type 8: document 02, (g), makes 6, the table's example, a type.
#[test]
fn three() {
    let type_8 = Record {
        typ: 8,
        kind: 1,
        rows: 1,
        values: 1,
        ..Record::default()
    };
    let sections = Sections {
        records: vec![type_8],
        values: vec![0],
        ..Sections::default()
    };
    assert_eq!(sections.join(), Err(Refusal::UnknownCode));
}

/// A segment of kind 3, which only sections can hold. It is tested after 3 and before 4, each over
/// all segments.
#[test]
fn nineteen() {
    let old = "segment type DateTime kind OldMultivalued offsets 0 1 1 values 7\n";
    let beside = |other: &str| answers(&format!("{old}{other}"));
    assert_eq!(answers(old), [19, 19]);
    assert_eq!(beside("segment rows 2"), [19, 19]);
    assert_eq!(
        beside("segment type DateTime kind Optional rows 3 ids 1 1 values 0 0"),
        [19, 19]
    );
    assert_eq!(beside("segment type 9 kind Full values 0"), [3, 3]);
    assert_eq!(beside("segment rows 1 flag 2"), [3, 3]);
    // Its own lists play no part, but their lengths do.
    assert_eq!(
        answers("segment type U64 kind OldMultivalued rows 7 ids 9 offsets 1 0"),
        [19, 19]
    );
    assert_eq!(answers("record 1 3 1 0 2 1 0 0 1 0 0 offsets 0 1"), [2, 2]);
    assert_eq!(
        answers("segment type none kind OldMultivalued rows 0"),
        [3, 3]
    );
    assert_eq!(answers(&format!("mode 2\n{old}")), [3, 19]);
    assert_eq!(answers(&format!("required 8\n{old}")), [3, 19]);
    assert_eq!(answers(&old.repeat(256)), [19, 19]);
    assert_eq!(answers(&old.repeat(257)), [1, 1]);
    // An alive set and an address in a stacked join, and two categories, come later.
    let later = "segment type Str kind Empty rows 1 withdrawn\naddresses 9:9\n";
    assert_eq!(beside(later), [19, 19]);
}

#[test]
fn four() {
    let segment = Segment::optional(ColumnType::U64, 2, vec![1, 1], vec![0, 0]);
    assert_eq!(stacked(&[segment]), Refusal::RowLists);
}

#[test]
fn five() {
    let segment = Segment::full(ColumnType::Str, vec![0]).with_terms(["b", "a"]);
    assert_eq!(stacked(&[segment]), Refusal::Contents);
}

#[test]
fn six() {
    let segment = Segment::u64s([Some(7)]);
    let past = segment.clone().with_alive(AliveSet::from_words(vec![2]));
    assert_eq!(ordered(&[past], &[]), Refusal::AliveSet);
    assert_eq!(stacked(&[segment.without_rows([])]), Refusal::AliveSet);
}

#[test]
fn seven() {
    assert_eq!(
        stacked(&[Segment::no_column(4294967295)]),
        Refusal::TooLarge
    );
    // The time order would be of 34 gigabytes.
    assert_eq!(
        time_order(&[Segment::no_column(4294967295)]),
        Err(Refusal::TooLarge)
    );
}

/// Rows cost nothing where none has a value.
#[test]
fn billions_of_rows() {
    let rows = 4294967294;
    let segment = Segment::no_column(rows);
    let joined = join(
        std::slice::from_ref(&segment),
        Order::Stacked,
        Some(ColumnType::U64),
    );
    let joined = joined.unwrap();
    assert_eq!((joined.class(), joined.rows()), (Class::Optional, rows));
    assert_eq!(ordered(&[segment], &[(0, 0)]), Refusal::Addresses);
    let sparse = Segment::optional(ColumnType::U64, rows, vec![rows - 1], vec![7]);
    assert_eq!(
        join(&[sparse], Order::Stacked, None).unwrap().ids(),
        [rows - 1]
    );
}

#[test]
fn nine() {
    let segment = || [Segment::no_column(1)];
    assert_eq!(ordered(&segment(), &[(0, 0), (0, 0)]), Refusal::Addresses);
    assert_eq!(ordered(&segment(), &[(0, 1)]), Refusal::Addresses);
    assert_eq!(ordered(&segment(), &[(1, 0)]), Refusal::Addresses);
    assert_eq!(ordered(&segment(), &[]), Refusal::Addresses);
    assert_eq!(ordered(&[], &[(0, 0)]), Refusal::Addresses);
    let withdrawn = Segment::no_column(1).without_rows([0]);
    assert_eq!(ordered(&[withdrawn], &[(0, 0)]), Refusal::Addresses);
    let mut stacked = Sections::of(&segment()).unwrap();
    stacked.addresses.push(Address::default());
    assert_eq!(stacked.join(), Err(Refusal::Addresses));
}

#[test]
fn ten() {
    let segments = [Segment::strs([Some("a")]), Segment::bools([Some(true)])];
    assert_eq!(stacked(&segments), Refusal::Types);
    let required = join(&segments[..1], Order::Stacked, Some(ColumnType::Bytes));
    assert_eq!(required, Err(Refusal::Types));
}

#[test]
fn twelve() {
    let refused = |segment| time_order(&[segment]).unwrap_err();
    assert_eq!(
        refused(Segment::date_times([Some(5), Some(4)])),
        Refusal::Times
    );
    assert_eq!(refused(Segment::date_times([vec![4, 5]])), Refusal::Times);
    assert_eq!(refused(Segment::u64s([Some(4)])), Refusal::Times);
    assert!(time_order(&[Segment::date_times([Some(-1), Some(-1)])]).is_ok());
    assert_eq!(time_order(&[]), Ok(vec![]));
}
