//! Columns of listener addresses (document 02, (g)): joins, answers, sheets and wire forms. An
//! address is written here as its two words, the high one first, or as text.
mod common;

use common::{alive, answered, answers, ordered, sections, stacked};
use jadmirus::{
    Class, ColumnType, Index, Joined, OldSegment, Order, Refusal, Sections, Segment, Value,
    convert, explain, ip_addrs, ip_words, join, sheet, time_order,
};
use std::net::{IpAddr, Ipv4Addr, Ipv6Addr};

const IP: ColumnType = ColumnType::IpAddr;

fn listing(joined: &Joined) -> String {
    let mut listing = Vec::new();
    joined.write_listing(&mut listing).unwrap();
    String::from_utf8(listing).unwrap()
}

/// What is said of a refused join.
fn told(sheet: &str) -> (u32, String) {
    let fault = explain::join(&sections(sheet)).unwrap();
    assert_eq!(answers(sheet)[0], fault.refusal.number());
    (fault.refusal.number(), fault.text)
}

fn text(address: &str) -> Ipv6Addr {
    address.parse().unwrap()
}

/// Three rows of 2, 0 and 1 addresses.
fn several() -> Segment {
    let words = vec![70, 7, 80, 8, 90, 9];
    Segment::new_multivalued(IP, 3, vec![0, 2], vec![0, 2, 3], words)
}

#[test]
fn an_address_is_one_value() {
    let joined = stacked(&[Segment::full(IP, vec![3, 4])]);
    assert_eq!((joined.column_type(), joined.rows()), (Some(IP), 1));
    assert_eq!((joined.value_count(), joined.values()), (1, &[3, 4][..]));
    let text = "answer 0\ntype 6\nclass 0\nrows 1\nids 0\noffsets 0\nvalues 1 3 4\nterms 0\n\
        maps 0\n";
    assert_eq!(listing(&joined), text);
    // One address in an alive row: class 0, and not 2.
    let with_set = ordered(Segment::full(IP, vec![1, 2]).with_alive(alive(1)), &[0]);
    assert_eq!(with_set.class(), Class::Full);
    let mut numbers = Vec::new();
    joined.write_numbers(&mut numbers).unwrap();
    let numbers = String::from_utf8(numbers).unwrap();
    assert!(numbers.contains("\nvalues 1\n"), "{numbers}");
}

#[test]
fn stacked_segments() {
    let optional = Segment::optional(IP, 2, vec![1], vec![u64::MAX, 0]);
    let joined = stacked(&[Segment::full(IP, vec![1, 2]), optional]);
    let text = "answer 0\ntype 6\nclass 1\nrows 3\nids 2 0 2\noffsets 0\n\
        values 2 1 2 18446744073709551615 0\nterms 0\nmaps 0\n";
    assert_eq!(listing(&joined), text);
    // Two addresses in a row keep their order; the offsets count addresses.
    let two = Segment::new_multivalued(IP, 2, vec![1], vec![0, 2], vec![3, 4, 1, 2]);
    let joined = stacked(&[two]);
    let text = "answer 0\ntype 6\nclass 2\nrows 2\nids 1 1\noffsets 2 0 2\nvalues 2 3 4 1 2\n\
        terms 0\nmaps 0\n";
    assert_eq!(listing(&joined), text);
}

/// A segment's words come after the words of the segments before it, be they addresses or not.
#[test]
fn each_segment_has_its_own_words() {
    let segments = [
        several(),
        Segment::no_column(2),
        Segment::empty(IP, 1),
        Segment::optional(IP, 3, vec![1], vec![50, 5]),
        Segment::full(IP, vec![60, 6]),
    ];
    let joined = stacked(&segments);
    assert_eq!((joined.class(), joined.rows()), (Class::Multivalued, 10));
    assert_eq!(joined.ids(), [0, 2, 7, 9]);
    assert_eq!(joined.offsets(), [0, 2, 3, 4, 5]);
    assert_eq!(joined.values(), [70, 7, 80, 8, 90, 9, 50, 5, 60, 6]);
    let mixed = "record 6 1 1 0 0 1 0 0 1 0 0 record 1 1 1 0 0 1 0 0 1 9 9 values 1 2 9";
    let [first, second] = ["segment 0 is IpAddr", "segment 1 is U64"];
    let text = format!("types: {first}, {second}, and these can't be one column");
    assert_eq!(told(mixed), (10, text));
    let mut shown = Vec::new();
    sheet::write(&sections(mixed), &mut shown).unwrap();
    let shown = String::from_utf8(shown).unwrap();
    assert!(shown.contains("type IpAddr\nkind Full\nrows 1\nvalues ::1:0:0:0:2\n"));
    assert!(shown.contains("type U64\nkind Full\nrows 1\nvalues 9\n"));
}

/// C6 to C9 with addresses.
#[test]
fn ordered_segments() {
    let c6 = ordered(several().with_alive(alive(5)), &[2, 0]);
    assert_eq!((c6.ids(), c6.offsets()), (&[0, 1][..], &[0, 1, 3][..]));
    assert_eq!(c6.values(), [90, 9, 70, 7, 80, 8]);
    let c7 = ordered(several().with_alive(alive(4)), &[2]);
    assert_eq!((c7.class(), c7.values()), (Class::Full, &[90, 9][..]));
    let c8 = ordered(several().with_alive(alive(2)), &[1]);
    assert_eq!((c8.column_type(), c8.rows()), (None, 1));
    assert_eq!((c8.value_count(), c8.row(0).len()), (0, 0));
    let c9 = Segment::optional(IP, 2, vec![0, 1], vec![50, 5, 60, 6]);
    let without = ordered(c9.clone(), &[1, 0]);
    let with = ordered(c9.with_alive(alive(3)), &[1, 0]);
    assert_eq!(
        (without.class(), with.class()),
        (Class::Optional, Class::Full)
    );
    assert_eq!(without.values(), [60, 6, 50, 5]);
    assert_eq!(with.values(), without.values());
}

#[test]
fn as_required_type() {
    let none = join(&[], Order::Stacked, Some(IP)).unwrap();
    assert_eq!((none.column_type(), none.class()), (Some(IP), Class::Full));
    let empty = join(&[Segment::no_column(3)], Order::Stacked, Some(IP)).unwrap();
    assert_eq!((empty.class(), empty.rows()), (Class::Optional, 3));
    let same = join(&[several()], Order::Stacked, Some(IP));
    assert_eq!(same, Ok(stacked(&[several()])));
}

/// The category is its own: nothing becomes an address, and no address becomes anything else.
#[test]
fn never_coerced() {
    for other in ColumnType::ALL.into_iter().filter(|&other| other != IP) {
        let beside = [several(), Segment::empty(other, 1)];
        for required in [None, Some(IP), Some(other)] {
            let refused = join(&beside, Order::Stacked, required);
            assert_eq!(refused, Err(Refusal::Types), "{other:?} {required:?}");
        }
        for (segment, required) in [(&beside[0], other), (&beside[1], IP)] {
            let segments = std::slice::from_ref(segment);
            let refused = join(segments, Order::Stacked, Some(required));
            assert_eq!(refused, Err(Refusal::Types), "{other:?}");
        }
    }
}

/// 2 counts words, before 3 knows the type; a type that isn't known has one word for a value.
#[test]
fn lengths_in_words() {
    let name = "words of values (an IpAddr has two)";
    let announced = "the segments up to this one announce";
    let one = "record 6 1 1 0 0 1 0 0 1 0 0 values 3";
    let text = format!("segment 0, {name}: {announced} 2, and 1 is there");
    assert_eq!(told(one), (2, text));
    let three = "record 6 1 1 0 0 1 0 0 1 0 0 values 3 4 5";
    let text = format!("{name}: the segments announce 2, and 3 are there");
    assert_eq!(told(three), (2, text));
    let second = "record 1 1 1 0 0 1 0 0 1 0 0 record 6 1 2 0 0 2 0 0 2 0 0 values 3 4 5 6";
    let text = format!("segment 1, {name}: {announced} 5, and 4 are there");
    assert_eq!(told(second), (2, text));
    let unknown = |words| answers(&format!("record 8 1 1 0 0 1 0 0 1 0 0 values {words}"));
    assert_eq!((unknown("3"), unknown("3 4")), ([3, 3], [2, 2]));
    // So many that 32 bits could not count the words.
    let many = "record 6 1 1 0 0 4294967295 0 0 1 0 0 values 3 4";
    let text = format!("segment 0, {name}: {announced} 8589934590, and 2 are there");
    assert_eq!(told(many), (2, text));
    let twice = "record 6 1 1 0 0 2147483649 0 0 1 0 0 values 3 4";
    assert_eq!(answers(twice), [2, 2]);
}

/// Two halves of two segments are no address.
#[test]
fn half_an_address() {
    let half = || Segment::full(IP, vec![1]);
    for segments in [[half(), half()], [half(), Segment::full(IP, vec![1, 2, 3])]] {
        let refused = join(&segments, Order::Stacked, None);
        assert_eq!(refused, Err(Refusal::Lengths));
    }
    assert_eq!(time_order(&[half()]), Err(Refusal::Lengths));
    let old = OldSegment::new(IP, 1, vec![0, 1], vec![1, 2, 3]);
    assert_eq!(convert(old), Err(Refusal::Lengths));
}

/// The answers of the join and of the time order, and the sheet.
const ANSWERED: &str = "\
    0 12 segment type IpAddr kind Full values ::1
    0 12 segment type 6 kind Full values ::1
    0 12 segment type IpAddr kind Empty rows 1
    3 3 required 6 segment type 8 kind Full values 1
    3 12 required 8 segment type IpAddr kind Full values ::1
    19 19 segment type IpAddr kind OldMultivalued offsets 0 1 values ::1
    4 4 segment type IpAddr kind Full rows 2 values ::1
    4 4 segment type IpAddr kind Optional rows 2 ids 0 1 values ::1
    4 4 segment type IpAddr kind NewMultivalued rows 1 ids 0 offsets 0 2 values ::1
    4 4 segment type IpAddr kind Empty rows 1 values ::1
    5 5 segment type IpAddr kind Full values ::1 terms 0x61
    6 12 segment type IpAddr kind Full values ::1 withdrawn
    6 6 mode ordered segment type IpAddr kind Full values ::1 alive 2
    7 7 segment rows 4294967294 segment type IpAddr kind Full values ::1
    9 12 mode ordered segment type IpAddr kind Full values ::1
    10 12 segment type IpAddr kind Full values ::1 segment type U64 kind Full values 1
    10 12 required U64 segment type IpAddr kind Full values ::1
    10 12 required IpAddr segment type U64 kind Empty rows 1";

#[test]
fn answers_to_address_columns() {
    answered(ANSWERED);
}

/// Numbers of values in what is said are of addresses.
#[test]
fn faults_are_told_in_addresses() {
    let ip = "segment type IpAddr kind";
    let cases = [
        (
            format!("{ip} Full rows 3 values ::1 ::2"),
            "segment 0, values: 2 there, and kind Full has 3, one for each row",
        ),
        (
            format!("{ip} Optional rows 3 ids 0 values ::1 ::2"),
            "segment 0, values: 2 there, and kind Optional has 1, one for each row id",
        ),
        (
            format!("{ip} NewMultivalued rows 3 ids 0 offsets 0 4 values ::1 ::2"),
            "segment 0, offset 4 (the 2nd): the last offset is the number of values, 2",
        ),
        (
            format!("{ip} Full values ::1 terms \"a\""),
            "segment 0, terms: a column of type IpAddr has none",
        ),
        (
            format!("required DateTime {ip} Full values ::1"),
            "types: the required type is DateTime, segment 0 is IpAddr, and these can't be one \
             column",
        ),
    ];
    for (sheet, text) in cases {
        assert_eq!(told(&sheet).1, text);
    }
    let times = sections("segment type IpAddr kind Empty rows 1");
    let fault = explain::time_order(&times).unwrap();
    let text = "segment 0, type IpAddr: the time order takes DateTime columns";
    assert_eq!((fault.refusal, &*fault.text), (Refusal::Times, text));
}

/// By rows, of each type of address, and read back as addresses.
#[test]
fn rows_of_addresses() {
    let [local, other] = [Ipv6Addr::LOCALHOST, text("2001:db8::1")];
    let v4 = Ipv4Addr::new(192, 0, 2, 7);
    let mapped = text("::ffff:192.0.2.7");
    let segments = [
        Segment::ip_addrs([Some(other), None, Some(local)]),
        Segment::ip_addrs([[v4]]),
        Segment::ip_addrs([vec![IpAddr::V4(v4), IpAddr::V6(other)], vec![]]),
    ];
    let (ids, offsets) = (vec![0], vec![0, 2]);
    let indexes = [
        Index::Optional { ids: vec![0, 2] },
        Index::Full,
        Index::NewMultivalued { ids, offsets },
    ];
    assert!(segments.iter().map(Segment::index).eq(&indexes));
    assert!(segments.iter().all(|s| s.column_type() == Some(IP)));
    assert!(segments.iter().map(Segment::rows).eq([3, 1, 2]));
    assert_eq!(segments[0].values(), [0x2001_0db8_0000_0000, 1, 0, 1]);
    assert_eq!(segments[1].values(), [0, 0xffff_c000_0207]);
    let joined = stacked(&segments);
    assert!(ip_addrs(joined.values()).eq([other, local, mapped, mapped, other]));
    let rows: Vec<(u32, Vec<Value>)> = joined
        .filled_rows()
        .map(|(row, values)| (row, values.collect()))
        .collect();
    let [local, other, mapped] = [local, other, mapped].map(Value::IpAddr);
    let expected = [
        (0, vec![other]),
        (2, vec![local]),
        (3, vec![mapped]),
        (4, vec![mapped, other]),
    ];
    assert_eq!(rows, expected);
    assert_eq!(joined.row(4).len(), 2);
    assert_eq!(joined.row(5).next(), None);
    assert_eq!(mapped.to_string(), "::ffff:192.0.2.7");
}

/// By lists, in every kind; and a joined column is a segment again.
#[test]
fn lists_of_addresses() {
    let two = [text("::1"), text("2001:db8::")];
    let words = || ip_words(two);
    assert_eq!(words(), [0, 1, 0x2001_0db8_0000_0000, 0]);
    let segments = [
        Segment::full(IP, words()),
        Segment::optional(IP, 3, vec![0, 2], words()),
        Segment::new_multivalued(IP, 3, vec![1], vec![0, 2], words()),
        convert(OldSegment::new(IP, 3, vec![0, 0, 2, 2], words())).unwrap(),
    ];
    assert_eq!(segments[0].rows(), 2);
    assert_eq!(segments[2], segments[3]);
    let classes = [Class::Full, Class::Optional, Class::Multivalued];
    for (segment, class) in segments.into_iter().zip(classes) {
        let joined = stacked(std::slice::from_ref(&segment));
        assert_eq!(joined.class(), class);
        assert!(ip_addrs(joined.values()).eq(two));
        assert_eq!(Segment::from(joined), segment);
    }
    assert_eq!(ip_addrs(&[0, 1, 0]).len(), 1);
    assert!(ip_words([] as [Ipv6Addr; 0]).is_empty());
}

#[test]
fn converted_segments() {
    let words = || vec![70, 7, 80, 8, 90, 9];
    let old = |offsets: &[u32]| OldSegment::new(IP, 3, offsets.to_vec(), words());
    assert_eq!(convert(old(&[0, 2, 2, 3])), Ok(several()));
    let with_set = convert(old(&[0, 2, 2, 3]).with_alive(alive(5)));
    assert_eq!(with_set, Ok(several().with_alive(alive(5))));
    // Offsets count addresses, not words.
    assert_eq!(convert(old(&[0, 4, 4, 6])), Err(Refusal::RowLists));
    let terms = old(&[0, 2, 2, 3]).with_terms(["a"]);
    assert_eq!(convert(terms), Err(Refusal::Contents));
    let past = old(&[0, 2, 2, 3]).with_alive(alive(8));
    assert_eq!(convert(past), Err(Refusal::AliveSet));
    // Among others, whose words stay where they are.
    let mut mixed = sections(
        "segment type U64 kind Full values 1 \
         segment type IpAddr kind OldMultivalued offsets 0 0 2 values ::1 ::2 \
         segment type IpAddr kind Full values ::3",
    );
    let values = mixed.values.clone();
    assert_eq!(values, [1, 0, 1, 0, 2, 0, 3]);
    assert_eq!(mixed.convert(), Ok(()));
    assert_eq!((mixed.ids, mixed.offsets), (vec![1], vec![0, 2]));
    assert_eq!((mixed.records[1].kind, mixed.values), (4, values));
    let mut short = sections("record 6 3 1 0 2 1 0 0 1 0 0 offsets 0 1 values 3");
    assert_eq!(short.convert(), Err(Refusal::Lengths));
}

/// Each notation, and what is written.
#[test]
fn sheets() {
    let sheet = "segment type ipaddr kind Full values 2001:DB8:0:0::1 192.0.2.7 \
        ::ffff:192.0.2.7 :: 0x1 0x20010db8000000000000000000000001";
    let sections = sections(sheet);
    let high = 0x2001_0db8_0000_0000;
    let low = 0xffff_c000_0207;
    let words = [high, 1, 0, low, 0, low, 0, 0, 0, 1, high, 1];
    assert_eq!(sections.values, words);
    let record = sections.records[0];
    assert_eq!((record.typ, record.rows, record.values), (6, 6, 6));
    let mut text = Vec::new();
    sheet::write(&sections, &mut text).unwrap();
    let text = String::from_utf8(text).unwrap();
    let values = "\nvalues 2001:db8::1 ::ffff:192.0.2.7 ::ffff:192.0.2.7 :: ::1 2001:db8::1\n";
    assert!(text.contains("\ntype IpAddr\n") && text.ends_with(values));
    assert_eq!(sheet::read(text.as_bytes()).unwrap(), sections);
}

/// A record counts addresses, the section words.
#[test]
fn wire_form() {
    let mut wire = Vec::new();
    let call = "mode ordered required IpAddr segment type IpAddr kind NewMultivalued rows 2 ids 1 \
        offsets 0 2 values 0x30000000000000004 0x10000000000000002 addresses 0:1 0:0";
    sections(call).write_wire(&mut wire).unwrap();
    let words = [
        &[2, 1, 6][..],
        &[1, 6, 4, 2, 1, 2, 2, 0, 0, 2, 0, 0],
        &[1, 1],
        &[2, 0, 2],
        &[4, 3, 4, 1, 2],
        &[0, 0, 0],
        &[2, 0, 1, 0, 0],
    ];
    let bytes: Vec<u8> = words
        .concat()
        .iter()
        .flat_map(|w: &u64| w.to_le_bytes())
        .collect();
    assert_eq!(wire, bytes);
    let read = Sections::read_wire(&wire[..]).unwrap();
    let joined = read.join().unwrap();
    assert_eq!((joined.ids(), joined.offsets()), (&[0][..], &[0, 2][..]));
    assert_eq!(joined.values(), [3, 4, 1, 2]);
}
