//! The log sheets C1 to C13 of document 01, C13 as document 02, (e), has it, by the safe interface.
mod common;

use common::{alive, ordered, stacked};
use jadmirus::{
    Address, Class, ColumnType, Joined, OldSegment, Order, Refusal, Segment, Value, convert, join,
    time_order,
};
use std::net::Ipv6Addr;

/// C5's segment.
fn multivalued() -> Segment {
    let (ids, offsets) = (vec![0, 2], vec![0, 2, 3]);
    Segment::new_multivalued(ColumnType::U64, 3, ids, offsets, vec![7, 8, 9])
}

fn terms(joined: &Joined) -> Vec<&[u8]> {
    joined.terms().iter().collect()
}

#[test]
fn c1() {
    let first = Segment::optional(ColumnType::Str, 2, vec![1], vec![0]).with_terms(["b"]);
    let second = Segment::full(ColumnType::Str, vec![1, 0]).with_terms(["a", "b"]);
    let joined = stacked(&[first, second]);
    let mut listing = Vec::new();
    joined.write_listing(&mut listing).unwrap();
    let expected = "answer 0\ntype 4\nclass 1\nrows 4\nids 3 1 2 3\noffsets 0\nvalues 3 1 1 0\n\
                    terms 2 61 62\nmaps 3 1 0 1\n";
    assert_eq!(String::from_utf8(listing).unwrap(), expected);
    assert_eq!(joined.map_of(0), Some(&[1][..]));
    assert_eq!(joined.map_of(1), Some(&[0, 1][..]));
    assert_eq!(joined.map_of(2), None);
    assert_eq!(joined.term_bytes_copied(), 2);
    let rows: Vec<(u32, Vec<Value>)> = joined
        .filled_rows()
        .map(|(row, values)| (row, values.collect()))
        .collect();
    let str = |text| vec![Value::Str(text)];
    assert_eq!(rows, [(1, str("b")), (2, str("b")), (3, str("a"))]);
}

#[test]
fn c2_to_c4() {
    let none = stacked(&[]);
    assert_eq!(
        (none.column_type(), none.class(), none.rows()),
        (None, Class::Full, 0)
    );
    let required = Some(ColumnType::U64);
    let c3 = join(&[], Order::Stacked, required).unwrap();
    assert_eq!((c3.column_type(), c3.class()), (required, Class::Full));
    let c4 = join(&[Segment::no_column(3)], Order::Stacked, required).unwrap();
    assert_eq!(
        (c4.column_type(), c4.class(), c4.rows()),
        (required, Class::Optional, 3)
    );
    assert!(c4.ids().is_empty() && c4.map_of(0).is_none());
}

#[test]
fn c5() {
    let joined = stacked(&[multivalued()]);
    assert_eq!(joined.class(), Class::Multivalued);
    assert_eq!(joined.ids(), [0, 2]);
    assert_eq!(joined.offsets(), [0, 2, 3]);
    assert_eq!(joined.values(), [7, 8, 9]);
    let row = |row| joined.row(row).collect::<Vec<_>>();
    assert_eq!(row(0), [Value::U64(7), Value::U64(8)]);
    assert_eq!(
        (row(1), row(2), row(3)),
        (vec![], vec![Value::U64(9)], vec![])
    );
}

/// C5's segment as it was stored before, with and without an alive set.
#[test]
fn c5_converted() {
    let old = OldSegment::new(ColumnType::U64, 3, vec![0, 2, 2, 3], vec![7, 8, 9]);
    assert_eq!(convert(old.clone()).unwrap(), multivalued());
    for word in [5, 4, 2] {
        let converted = convert(old.clone().with_alive(alive(word))).unwrap();
        assert_eq!(converted, multivalued().with_alive(alive(word)));
    }
}

#[test]
fn c6_to_c8() {
    let c6 = ordered(multivalued().with_alive(alive(5)), &[2, 0]);
    assert_eq!((c6.ids(), c6.offsets()), (&[0, 1][..], &[0, 1, 3][..]));
    assert_eq!(c6.values(), [9, 7, 8]);
    assert_eq!(c6, ordered(multivalued().without_rows([1]), &[2, 0]));
    let c7 = ordered(multivalued().with_alive(alive(4)), &[2]);
    assert_eq!((c7.class(), c7.values()), (Class::Full, &[9][..]));
    let c8 = ordered(multivalued().with_alive(alive(2)), &[1]);
    assert_eq!((c8.column_type(), c8.rows()), (None, 1));
    assert_eq!(c8.row(0).len(), 0);
}

#[test]
fn c9() {
    let segment = Segment::optional(ColumnType::U64, 2, vec![0, 1], vec![5, 6]);
    let without = ordered(segment.clone(), &[1, 0]);
    let with = ordered(segment.with_alive(alive(3)), &[1, 0]);
    assert_eq!(
        (without.class(), with.class()),
        (Class::Optional, Class::Full)
    );
    assert_eq!(
        (without.values(), with.values()),
        (&[6, 5][..], &[6, 5][..])
    );
}

#[test]
fn c10() {
    let with = |greatest| stacked(&[Segment::i64s([Some(-1)]), Segment::u64s([Some(greatest)])]);
    assert_eq!(
        with(9223372036854775806).column_type(),
        Some(ColumnType::I64)
    );
    let doubles = with(9223372036854775807);
    assert_eq!(doubles.column_type(), Some(ColumnType::F64));
    assert_eq!(doubles.values(), [0xBFF0000000000000, 0x43E0000000000000]);
    assert_eq!(doubles.row(0).next(), Some(Value::F64(-1.0)));
}

#[test]
fn c11() {
    let required = |value| {
        join(
            &[Segment::u64s([Some(value)])],
            Order::Stacked,
            Some(ColumnType::I64),
        )
    };
    let fits = required(9223372036854775807).unwrap();
    assert_eq!(fits.row(0).next(), Some(Value::I64(i64::MAX)));
    assert_eq!(required(9223372036854775808), Err(Refusal::Types));
}

#[test]
fn c12() {
    let segment = Segment::strs([Some("a"), Some("b")]).with_alive(alive(2));
    let joined = ordered(segment, &[1]);
    assert_eq!(terms(&joined), [b"b"]);
    assert_eq!((joined.values(), joined.map()), (&[0][..], &[0, 0][..]));
    assert_eq!(joined.term_bytes_copied(), 1);
}

/// Document 02, (d): each joined term's bytes are copied once, and those of no other term.
#[test]
fn term_bytes_copied() {
    let strs = |rows: &[&'static str]| Segment::strs(rows.iter().copied().map(Some));
    let copied = |segments: &[Segment]| stacked(segments).term_bytes_copied();
    assert_eq!(copied(&[strs(&["ab"]), strs(&["ab"])]), 2);
    assert_eq!(copied(&[strs(&[""])]), 0);
    assert_eq!(copied(&[Segment::u64s([[5]])]), 0);
    assert_eq!(copied(&[Segment::no_column(1)]), 0);
    // A column without values is dropped, and so is its term.
    let dropped = Segment::optional(ColumnType::Str, 1, vec![], vec![]).with_terms(["ab"]);
    assert_eq!(copied(&[dropped, strs(&["a"])]), 1);
    // The first segment keeps ab alone, the second one keeps b.
    let first = strs(&["ab", "b"]).with_alive(alive(1));
    let addresses = [0, 1].map(|segment| Address { segment, row: 0 });
    let joined = join(&[first, strs(&["b"])], Order::Ordered(&addresses), None).unwrap();
    assert_eq!(terms(&joined), [&b"ab"[..], b"b"]);
    assert_eq!(joined.term_bytes_copied(), 3);
}

/// Terms that are equal as far as 8, 16 or 24 bytes, or but for zero bytes at the end.
#[test]
fn terms_with_equal_beginnings() {
    let long = "abcdefghijklmnopqrstuvwxyz0123456789";
    for at in 0..=long.len() {
        let begin = &long[..at];
        let ends = ["", "\0", "\0\0", "a", "b", "bb"];
        let all: Vec<String> = ends.iter().map(|end| format!("{begin}{end}")).collect();
        // Each segment has one of them, the greatest first.
        let segments: Vec<Segment> = all
            .iter()
            .rev()
            .map(|term| Segment::strs([[&**term]]))
            .collect();
        let joined = stacked(&segments);
        let expected: Vec<&[u8]> = all.iter().map(|term| term.as_bytes()).collect();
        assert_eq!(terms(&joined), expected);
        assert_eq!(joined.values(), [5, 4, 3, 2, 1, 0]);
        assert_eq!(joined.term_bytes_copied(), 6 * at as u64 + 7);
    }
}

fn in_order(segments: &[Segment], expected: &[(u32, u32)]) {
    let order = time_order(segments).unwrap();
    let order: Vec<(u32, u32)> = order.iter().map(|a| (a.segment, a.row)).collect();
    assert_eq!(order, expected);
}

#[test]
fn c13() {
    let times = [
        Segment::date_times([Some(10), None, Some(30)]),
        Segment::date_times([None, Some(20)]),
    ];
    in_order(&times, &[(0, 0), (0, 1), (1, 0), (1, 1), (0, 2)]);
}

/// Document 02, (e): untimed rows at a segment's start take the first time after them.
#[test]
fn untimed_rows_at_the_start() {
    let one = |time| Segment::date_times([[time]]);
    let untimed_then = |time| Segment::date_times([None, Some(time)]);
    // All of them, and the row behind the time still has the last time before it.
    let several = Segment::date_times([None, None, Some(7), None]);
    in_order(
        &[several, one(6)],
        &[(1, 0), (0, 0), (0, 1), (0, 2), (0, 3)],
    );
    // It is the first time after them, not a later one.
    let later = Segment::date_times([None, Some(3), Some(9)]);
    in_order(&[later.clone(), one(5)], &[(0, 0), (0, 1), (1, 0), (0, 2)]);
    // A withdrawn row's time counts, be it the only one.
    in_order(
        &[later.without_rows([1]), one(5)],
        &[(0, 0), (1, 0), (0, 2)],
    );
    in_order(
        &[untimed_then(20).without_rows([1]), one(10)],
        &[(1, 0), (0, 0)],
    );
    // So it does as the last time before a row; and a row behind the first time is not at the start.
    let withdrawn = Segment::date_times([Some(3), Some(5), None]).without_rows([1]);
    in_order(&[withdrawn, one(4)], &[(0, 0), (1, 0), (0, 2)]);
    let between = Segment::date_times([None, Some(3), None, Some(9)]);
    in_order(
        &[between, one(5)],
        &[(0, 0), (0, 1), (0, 2), (1, 0), (0, 3)],
    );
    // Equal keys go by segment, then by row.
    in_order(&[one(20), untimed_then(20)], &[(0, 0), (1, 0), (1, 1)]);
    in_order(&[untimed_then(20), one(20)], &[(0, 0), (0, 1), (1, 0)]);
    // Kind 4.
    let (ids, offsets) = (vec![1], vec![0, 1]);
    let kind_4 = Segment::new_multivalued(ColumnType::DateTime, 3, ids, offsets, vec![5]);
    in_order(&[kind_4, one(4)], &[(1, 0), (0, 0), (0, 1), (0, 2)]);
}

/// A segment without any time keeps its place before all times.
#[test]
fn segments_without_times() {
    let least = Segment::date_times([[i64::MIN]]);
    let untimed = Segment::date_times([None::<i64>, None]);
    in_order(&[least.clone(), untimed], &[(1, 0), (1, 1), (0, 0)]);
    let empty = Segment::empty(ColumnType::DateTime, 1);
    let none = Segment::no_column(1);
    in_order(&[empty, least, none.clone()], &[(0, 0), (2, 0), (1, 0)]);
    // A row that takes the least time has a time.
    let least_later = Segment::date_times([None, Some(i64::MIN)]);
    in_order(&[least_later, none], &[(1, 0), (0, 0), (0, 1)]);
}

/// An untimed row's key is found in its own segment. The join of two segments is one segment, in
/// which the row may have another key.
#[test]
fn time_order_of_joined_times() {
    let one = |time| Segment::date_times([[time]]);
    let two = [one(10), Segment::date_times([None, Some(20)])];
    let [first, second] = two.clone();
    in_order(&[first, second, one(15)], &[(0, 0), (2, 0), (1, 0), (1, 1)]);
    let joined = join(&two, Order::Ordered(&time_order(&two).unwrap()), None).unwrap();
    in_order(
        &[Segment::from(joined), one(15)],
        &[(0, 0), (0, 1), (1, 0), (0, 2)],
    );
}

/// A joined column is a segment again, of each class and of none.
#[test]
fn handed_on() {
    let columns = [
        stacked(&[Segment::u64s([Some(1), Some(2)])]),
        stacked(&[Segment::u64s([Some(1), None])]),
        stacked(&[Segment::u64s([vec![1, 2], vec![], vec![3]])]),
        stacked(&[Segment::no_column(3)]),
        stacked(&[Segment::byte_strings([Some(&b"\xff"[..]), Some(b"")])]),
        stacked(&[Segment::ip_addrs([Some(Ipv6Addr::LOCALHOST), None])]),
    ];
    for column in columns {
        let again = stacked(&[Segment::from(column.clone())]);
        // Only the map is another one: it is of the new join.
        let lists = |c: &Joined| {
            (
                c.column_type(),
                c.class(),
                c.rows(),
                c.ids().to_vec(),
                c.offsets().to_vec(),
            )
        };
        assert_eq!(lists(&again), lists(&column));
        assert_eq!(
            (again.values(), again.terms()),
            (column.values(), column.terms())
        );
    }
}

/// The constructors by rows choose the index, and the terms are sorted bytewise.
#[test]
fn rows_of_each_type() {
    let bools = stacked(&[Segment::bools([Some(true), Some(false)])]);
    assert_eq!(bools.row(0).next(), Some(Value::Bool(true)));
    let times = stacked(&[Segment::date_times([[-5]])]);
    assert_eq!(times.row(0).next(), Some(Value::DateTime(-5)));
    let listeners = stacked(&[Segment::ip_addrs([[Ipv6Addr::LOCALHOST]])]);
    let local = Value::IpAddr(Ipv6Addr::LOCALHOST);
    assert_eq!(listeners.row(0).next(), Some(local));
    let doubles = stacked(&[Segment::f64s([[0.5], [f64::INFINITY]])]);
    assert_eq!(doubles.row(1).next(), Some(Value::F64(f64::INFINITY)));
    let names = stacked(&[Segment::strs([vec!["b", "aa"], vec!["ab"], vec!["b"]])]);
    assert_eq!(terms(&names), [&b"aa"[..], b"ab", b"b"]);
    assert_eq!(names.values(), [2, 0, 1, 2]);
    let raw = stacked(&[Segment::full(ColumnType::Str, vec![0]).with_terms([b"\xff"])]);
    assert_eq!(raw.row(0).next(), Some(Value::Bytes(b"\xff")));
    assert_eq!(
        stacked(&[Segment::u64s(Vec::<Vec<u64>>::new())]).column_type(),
        None
    );
}
