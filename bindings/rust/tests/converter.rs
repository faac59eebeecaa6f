//! The converter's examples, by the safe interface and by the sections.
mod common;

use common::{alive, sections};
use jadmirus::{
    AliveSet, ColumnType, Index, OldSegment, Order, Record, Refusal, Sections, Segment, Value,
    convert, join,
};

fn old(offsets: &[u32], values: &[u64]) -> OldSegment {
    let rows = offsets.len() as u32 - 1;
    OldSegment::new(ColumnType::U64, rows, offsets.to_vec(), values.to_vec())
}

fn new(rows: u32, ids: &[u32], offsets: &[u32], values: &[u64]) -> Segment {
    let (ids, offsets) = (ids.to_vec(), offsets.to_vec());
    Segment::new_multivalued(ColumnType::U64, rows, ids, offsets, values.to_vec())
}

/// The refusal of a sheet's old segments, after which the sections are what they were.
fn refused(sheet: &str) -> Refusal {
    let mut sections = sections(sheet);
    let before = sections.clone();
    let refusal = sections.convert().unwrap_err();
    assert_eq!(sections, before);
    refusal
}

#[test]
fn rows_keep_their_values() {
    let c5 = convert(old(&[0, 2, 2, 3], &[7, 8, 9])).unwrap();
    assert_eq!(c5, new(3, &[0, 2], &[0, 2, 3], &[7, 8, 9]));
    let joined = join(&[c5], Order::Stacked, None).unwrap();
    assert_eq!(joined.row(0).len(), 2);
    assert_eq!(joined.row(1).len(), 0);
    assert_eq!(joined.row(2).collect::<Vec<_>>(), [Value::U64(9)]);
}

#[test]
fn segments_without_values() {
    assert_eq!(convert(old(&[0], &[])), Ok(new(0, &[], &[0], &[])));
    assert_eq!(convert(old(&[0, 0, 0], &[])), Ok(new(2, &[], &[0], &[])));
}

#[test]
fn one_value_in_each_row() {
    let segment = convert(old(&[0, 1, 2], &[7, 8]));
    assert_eq!(segment, Ok(new(2, &[0, 1], &[0, 1, 2], &[7, 8])));
}

/// An alive set stays, and a withdrawn row keeps its values.
#[test]
fn alive_sets() {
    let segment = convert(old(&[0, 1, 1], &[7]).with_alive(alive(2)));
    assert_eq!(
        segment,
        Ok(new(2, &[0], &[0, 1], &[7]).with_alive(alive(2)))
    );
    let past = old(&[0, 1, 1], &[7]).with_alive(alive(4));
    assert_eq!(convert(past), Err(Refusal::AliveSet));
    let long = old(&[0, 1, 1], &[7]).with_alive(AliveSet::from_words(vec![1, 0]));
    assert_eq!(convert(long), Err(Refusal::Lengths));
}

#[test]
fn terms() {
    let names = |terms: [&str; 2], values: [u64; 2]| {
        let offsets = vec![0, 0, 2];
        convert(OldSegment::new(ColumnType::Str, 2, offsets, values.to_vec()).with_terms(terms))
    };
    let segment = names(["a", "b"], [1, 0]).unwrap();
    let (ids, offsets) = (vec![1], vec![0, 2]);
    assert_eq!(segment.index(), &Index::NewMultivalued { ids, offsets });
    assert_eq!(segment.values(), [1, 0]);
    assert!(segment.terms().iter().eq([b"a", b"b"]));
    assert_eq!(names(["b", "a"], [1, 0]), Err(Refusal::Contents));
    assert_eq!(names(["a", "b"], [1, 2]), Err(Refusal::Contents));
    let number = old(&[0, 1], &[7]).with_terms(["a"]);
    assert_eq!(convert(number), Err(Refusal::Contents));
    let bools = OldSegment::new(ColumnType::Bool, 1, vec![0, 2], vec![1, 2]);
    assert_eq!(convert(bools), Err(Refusal::Contents));
}

#[test]
fn lists_that_do_not_fit() {
    for offsets in [
        &[0, 2, 1, 3][..],
        &[1, 3],
        &[0, 2, 2, 4],
        &[0, 2],
        &[0, 0, 0],
    ] {
        assert_eq!(
            convert(old(offsets, &[7, 8, 9])),
            Err(Refusal::RowLists),
            "{offsets:?}"
        );
    }
    let of_rows = |rows, offsets| convert(OldSegment::new(ColumnType::U64, rows, offsets, vec![]));
    assert_eq!(of_rows(2, vec![0, 0]), Err(Refusal::RowLists));
    assert_eq!(of_rows(0, vec![]), Err(Refusal::RowLists));
    // It would need more offsets than 32 bits can count.
    assert_eq!(of_rows(u32::MAX, vec![0]), Err(Refusal::RowLists));
    let id = "segment type U64 kind OldMultivalued rows 1 ids 0 offsets 0 1 values 7";
    assert_eq!(refused(id), Refusal::RowLists);
}

/// The first fault in the order 2 3 4 5 6 is told.
#[test]
fn order_of_the_checks() {
    let bools = "segment type Bool kind OldMultivalued rows 1";
    let six = format!("{bools} offsets 0 1 values 1 alive 2");
    let five = format!("{bools} offsets 0 1 values 2 alive 2");
    let four = format!("{bools} offsets 0 2 values 2 alive 2");
    assert_eq!(refused(&six), Refusal::AliveSet);
    assert_eq!(refused(&five), Refusal::Contents);
    assert_eq!(refused(&four), Refusal::RowLists);
    let three = four.replace("Bool", "9");
    assert_eq!(refused(&three), Refusal::UnknownCode);
    let none = "segment type none kind OldMultivalued rows 0 offsets 0";
    assert_eq!(refused(none), Refusal::UnknownCode);
    let two = "record 9 3 1 0 2 1 0 0 1 0 0 offsets 0 1";
    assert_eq!(refused(two), Refusal::Lengths);
}

/// Of several segments, only the old ones change, and only in kind, row ids and offsets.
#[test]
fn whole_sections() {
    let sheet = "
        mode ordered
        required U64
        segment type U64 kind NewMultivalued rows 3 ids 2 offsets 0 2 values 1 2
        segment type U64 kind OldMultivalued rows 3 offsets 0 2 2 3 values 7 8 9 withdrawn 1
        segment type U64 kind Optional rows 2 ids 1 values 3
        segment type U64 kind OldMultivalued rows 2 offsets 0 0 1 values 4
        segment rows 1
        addresses 0:2 1:0
    ";
    let before = sections(sheet);
    assert!(before.has_old_segments());
    let mut after = before.clone();
    assert_eq!(after.convert(), Ok(()));
    assert!(!after.has_old_segments());
    assert_eq!(after.ids, [2, 0, 2, 1, 1]);
    assert_eq!(after.offsets, [0, 2, 0, 2, 3, 0, 1]);
    let numbers = |r: &Record| {
        let lists = [r.ids, r.offsets, r.values, r.terms];
        ([r.typ, r.kind, r.rows], lists, [r.flag, r.alive_rows])
    };
    let records = [
        ([1, 4, 3], [1, 2, 2, 0], [0, 3]),
        ([1, 4, 3], [2, 3, 3, 0], [1, 2]),
        ([1, 2, 2], [1, 0, 1, 0], [0, 2]),
        ([1, 4, 2], [1, 2, 1, 0], [0, 2]),
        ([255, 0, 1], [0, 0, 0, 0], [0, 1]),
    ];
    assert!(after.records.iter().map(numbers).eq(records));
    let all_else = Sections {
        records: after.records.clone(),
        ids: after.ids.clone(),
        offsets: after.offsets.clone(),
        ..before
    };
    assert_eq!(after, all_else);
    // Once more, there is nothing to do.
    let again = after.clone();
    assert_eq!(after.convert(), Ok(()));
    assert_eq!(after, again);
}

/// Segments that are not old are left alone, whatever is wrong with them; any number may be there.
#[test]
fn other_segments_are_not_checked() {
    let old = "segment type U64 kind OldMultivalued offsets 0 1 values 7\n";
    let wrong = "mode 9 segment type 8 kind 7 rows 1 \
        segment type U64 kind Optional rows 3 ids 1 1 values 0 0\n";
    let mut beside = sections(&format!("{wrong}{old}"));
    assert_eq!(beside.convert(), Ok(()));
    assert_eq!(
        (beside.records[2].kind, &beside.ids[..]),
        (4, &[1, 1, 0][..])
    );
    let mut unfit = sections("record 1 1 1 0 0 1 0 0 1 0 0");
    let before = unfit.clone();
    assert_eq!(unfit.convert(), Ok(()));
    assert_eq!(unfit, before);
    let mut many = sections(&old.repeat(300));
    assert_eq!(many.convert(), Ok(()));
    assert_eq!(many.ids.len(), 300);
}
