//! What several test files share; each takes what it needs.
#![allow(dead_code)]

pub mod chance;
pub mod program;

use jadmirus::{
    Address, AliveSet, Joined, Order, Refusal, Sections, Segment, explain, join, sheet,
};

pub fn stacked(segments: &[Segment]) -> Joined {
    join(segments, Order::Stacked, None).unwrap()
}

/// Rows of the first segment.
pub fn addresses(rows: &[u32]) -> Vec<Address> {
    let address = |&row| Address { segment: 0, row };
    rows.iter().map(address).collect()
}

pub fn ordered(segment: Segment, rows: &[u32]) -> Joined {
    join(&[segment], Order::Ordered(&addresses(rows)), None).unwrap()
}

/// An alive set of one word.
pub fn alive(word: u64) -> AliveSet {
    AliveSet::from_words(vec![word])
}

/// The sections of a sheet.
pub fn sections(sheet: &str) -> Sections {
    sheet::read(sheet.as_bytes()).unwrap()
}

/// The answers of a sheet's join and of its time order, each as the explanation has it.
pub fn answers(sheet: &str) -> [u32; 2] {
    let sections = sections(sheet);
    let answers = [sections.join().err(), sections.time_order().err()];
    let found = [explain::join(&sections), explain::time_order(&sections)];
    assert_eq!(found.map(|f| f.map(|f| f.refusal)), answers, "{sheet}");
    answers.map(|answer| answer.map_or(0, Refusal::number))
}

/// Lines of the answers of a join and of a time order, and the sheet that they are given to.
pub fn answered(lines: &str) {
    for line in lines.lines().map(str::trim) {
        let (join, rest) = line.split_once(' ').unwrap();
        let (times, sheet) = rest.split_once(' ').unwrap();
        let numbers = [join, times].map(|number| number.parse().unwrap());
        assert_eq!(answers(sheet), numbers, "{sheet}");
    }
}
