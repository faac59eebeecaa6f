//! Document 01's log sheets C1 to C12, those of multivalued segments in kind 4 as document 02 has them,
//! and columns of addresses: input, listing.
use crate::wire::{Input, from_words};

const SHEETS: &[(&str, &str, &str)] = &[
    (
        "C1",
        "0 255 4/2/2/ids=1/val=0/terms=b 4/1/2/val=1,0/terms=a,b",
        "answer 0\ntype 4\nclass 1\nrows 4\nids 3 1 2 3\noffsets 0\nvalues 3 1 1 0\nterms 2 61 62\nmaps 3 1 0 1\n",
    ),
    ("C2", "0 255", "answer 0\ntype 255\nclass 0\nrows 0\nids 0\noffsets 0\nvalues 0\nterms 0\nmaps 0\n"),
    ("C3", "0 1", "answer 0\ntype 1\nclass 0\nrows 0\nids 0\noffsets 0\nvalues 0\nterms 0\nmaps 0\n"),
    ("C4", "0 1 255/0/3", "answer 0\ntype 1\nclass 1\nrows 3\nids 0\noffsets 0\nvalues 0\nterms 0\nmaps 0\n"),
    (
        "C5",
        "0 255 1/4/3/ids=0,2/off=0,2,3/val=7,8,9",
        "answer 0\ntype 1\nclass 2\nrows 3\nids 2 0 2\noffsets 3 0 2 3\nvalues 3 7 8 9\nterms 0\nmaps 0\n",
    ),
    (
        "C6",
        "1 255 1/4/3/ids=0,2/off=0,2,3/val=7,8,9/alive=5 addr=0:2,0:0",
        "answer 0\ntype 1\nclass 2\nrows 2\nids 2 0 1\noffsets 3 0 1 3\nvalues 3 9 7 8\nterms 0\nmaps 0\n",
    ),
    (
        "C7",
        "1 255 1/4/3/ids=0,2/off=0,2,3/val=7,8,9/alive=4 addr=0:2",
        "answer 0\ntype 1\nclass 0\nrows 1\nids 0\noffsets 0\nvalues 1 9\nterms 0\nmaps 0\n",
    ),
    (
        "C8",
        "1 255 1/4/3/ids=0,2/off=0,2,3/val=7,8,9/alive=2 addr=0:1",
        "answer 0\ntype 255\nclass 0\nrows 1\nids 0\noffsets 0\nvalues 0\nterms 0\nmaps 0\n",
    ),
    (
        "C9, without an alive set",
        "1 255 1/2/2/ids=0,1/val=5,6 addr=0:1,0:0",
        "answer 0\ntype 1\nclass 1\nrows 2\nids 2 0 1\noffsets 0\nvalues 2 6 5\nterms 0\nmaps 0\n",
    ),
    (
        "C9, with one",
        "1 255 1/2/2/ids=0,1/val=5,6/alive=3 addr=0:1,0:0",
        "answer 0\ntype 1\nclass 0\nrows 2\nids 0\noffsets 0\nvalues 2 6 5\nterms 0\nmaps 0\n",
    ),
    (
        "C10, 9223372036854775806",
        "0 255 0/1/1/val=-1 1/1/1/val=9223372036854775806",
        "answer 0\ntype 0\nclass 0\nrows 2\nids 0\noffsets 0\nvalues 2 18446744073709551615 9223372036854775806\nterms 0\nmaps 0\n",
    ),
    (
        // bits BFF0000000000000 and 43E0000000000000
        "C10, 9223372036854775807",
        "0 255 0/1/1/val=-1 1/1/1/val=9223372036854775807",
        "answer 0\ntype 2\nclass 0\nrows 2\nids 0\noffsets 0\nvalues 2 13830554455654793216 4890909195324358656\nterms 0\nmaps 0\n",
    ),
    (
        "C11, 9223372036854775807",
        "0 0 1/1/1/val=9223372036854775807",
        "answer 0\ntype 0\nclass 0\nrows 1\nids 0\noffsets 0\nvalues 1 9223372036854775807\nterms 0\nmaps 0\n",
    ),
    ("C11, 9223372036854775808", "0 0 1/1/1/val=9223372036854775808", "answer 10\n"),
    (
        "C12",
        "1 255 4/1/2/val=0,1/terms=a,b/alive=2 addr=0:1",
        "answer 0\ntype 4\nclass 0\nrows 1\nids 0\noffsets 0\nvalues 1 0\nterms 1 62\nmaps 2 0 0\n",
    ),
];

/// Columns of addresses, by hand.
const LISTENERS: &[(&str, &str, &str)] = &[
    (
        "a full one",
        "0 255 6/1/1/val=3:4",
        "answer 0\ntype 6\nclass 0\nrows 1\nids 0\noffsets 0\nvalues 1 3 4\nterms 0\nmaps 0\n",
    ),
    (
        "two addresses",
        "0 255 6/1/2/val=1:2,3:4",
        "answer 0\ntype 6\nclass 0\nrows 2\nids 0\noffsets 0\nvalues 2 1 2 3 4\nterms 0\nmaps 0\n",
    ),
    (
        "a full and an optional one",
        "0 255 6/1/1/val=1:2 6/2/2/ids=1/val=18446744073709551615:0",
        "answer 0\ntype 6\nclass 1\nrows 3\nids 2 0 2\noffsets 0\nvalues 2 1 2 18446744073709551615 0\nterms 0\nmaps 0\n",
    ),
    (
        "a multivalued one",
        "0 255 6/4/2/ids=1/off=0,2/val=3:4,1:2",
        "answer 0\ntype 6\nclass 2\nrows 2\nids 1 1\noffsets 2 0 2\nvalues 2 3 4 1 2\nterms 0\nmaps 0\n",
    ),
    (
        "an alive row of one address",
        "1 255 6/1/1/val=1:2/alive=1 addr=0:0",
        "answer 0\ntype 6\nclass 0\nrows 1\nids 0\noffsets 0\nvalues 1 1 2\nterms 0\nmaps 0\n",
    ),
    (
        "an ordered multivalued one",
        "1 255 6/4/3/ids=0,2/off=0,2,3/val=1:2,3:4,5:6/alive=5 addr=0:2,0:0",
        "answer 0\ntype 6\nclass 2\nrows 2\nids 2 0 1\noffsets 3 0 1 3\nvalues 3 5 6 1 2 3 4\nterms 0\nmaps 0\n",
    ),
    (
        "one row of it",
        "1 255 6/4/3/ids=0,2/off=0,2,3/val=1:2,3:4,5:6/alive=4 addr=0:2",
        "answer 0\ntype 6\nclass 0\nrows 1\nids 0\noffsets 0\nvalues 1 5 6\nterms 0\nmaps 0\n",
    ),
    (
        "segments in turn, a dropped one and one without a column among them",
        "1 255 6/1/2/val=1:2,3:4 6/1/1/val=9:9/alive=0 255/0/1 6/2/2/ids=1/val=5:6 addr=3:1,0:1,2:0,0:0,3:0",
        "answer 0\ntype 6\nclass 1\nrows 5\nids 3 0 1 3\noffsets 0\nvalues 3 5 6 3 4 1 2\nterms 0\nmaps 0\n",
    ),
    (
        "required, nothing there",
        "0 6",
        "answer 0\ntype 6\nclass 0\nrows 0\nids 0\noffsets 0\nvalues 0\nterms 0\nmaps 0\n",
    ),
    (
        "required, rows without a column",
        "0 6 255/0/3",
        "answer 0\ntype 6\nclass 1\nrows 3\nids 0\noffsets 0\nvalues 0\nterms 0\nmaps 0\n",
    ),
    (
        "nothing held",
        "1 255 6/1/1/val=3:4/alive=0",
        "answer 0\ntype 255\nclass 0\nrows 0\nids 0\noffsets 0\nvalues 0\nterms 0\nmaps 0\n",
    ),
];

pub fn input(words: &str) -> Input {
    let words: Vec<String> = words.split_whitespace().map(String::from).collect();
    from_words(&words).unwrap()
}

/// Name, input, listing.
pub fn sheets() -> impl Iterator<Item = (&'static str, Input, &'static str)> {
    SHEETS.iter().chain(LISTENERS).map(|&(name, words, listing)| (name, input(words), listing))
}

#[cfg(test)]
mod tests {
    use super::*;
    use crate::convert::{self, Converted, Outcome, Space};
    use crate::run;
    use crate::table;
    use crate::wire::{Record, Sections, Seg, to_words};

    #[test]
    fn log_sheets() {
        assert_eq!(0xBFF0000000000000u64, 13830554455654793216);
        assert_eq!(0x43E0000000000000u64, 4890909195324358656);
        for (name, input, expected) in sheets() {
            let sections = input.sections();
            let bytes = sections.encode();
            assert_eq!(Sections::decode(&bytes).unwrap(), sections, "{name}");
            assert_eq!(sections.cut(), input, "{name}");
            let words: Vec<String> = to_words(&input).split(' ').map(String::from).collect();
            assert_eq!(from_words(&words).unwrap(), input, "{name}");
            assert_eq!(table::program(&bytes).print(), expected, "model {name}");
            match run::column(&input) {
                Err(text) => {
                    assert_eq!(expected, "answer 10\n", "{name}");
                    assert!(text.starts_with("error: "), "{name}");
                }
                Ok(l) => assert_eq!(l.print(), expected, "{name}"),
            }
        }
    }

    /// C5 to C8 as they were stored: refused as they are, and the same columns once converted. What
    /// the crate makes of the stored segments differs by C5's repeated offset alone.
    #[test]
    fn stored_log_sheets() {
        for (name, input, expected) in sheets().filter(|(name, ..)| ["C5", "C6", "C7", "C8"].contains(name)) {
            let mut stored = input.clone();
            let s = &mut stored.segs[0];
            (s.kind, s.ids, s.offsets) = (3, vec![], vec![0, 2, 2, 3]);
            assert_eq!(table::program(&stored.sections().encode()).print(), "answer 19\n", "{name}");
            assert_eq!(convert::input(&stored), input, "{name}");
            let mut theirs = run::column(&stored).unwrap();
            if name == "C5" {
                // document 01: "Rust 0 2 2 3"
                assert_eq!(theirs.offsets, [0, 2, 2, 3]);
            }
            assert_eq!(run::repeats(&stored), (name == "C5") as usize, "{name}");
            run::take_repeats_out(&stored, &mut theirs).unwrap();
            assert_eq!(theirs.print(), expected, "{name}");
        }
    }

    fn converted(words: &str, space: Space) -> Outcome {
        let sections = input(&format!("0 255 {words}")).sections();
        convert::outcome(&convert::Call { sections: &sections, space })
    }

    /// The converter: segment, record, new ids, new offsets.
    #[test]
    fn conversions() {
        let large = Space { ids: 9, offsets: 9 };
        let c5 = "1/3/3/off=0,2,2,3/val=7,8,9";
        for (words, numbers, pair, ids, offsets) in [
            (c5, [1, 4, 3, 2, 3, 3, 0, 0, 3], [7, 9], &[0, 2][..], &[0, 2, 3][..]),
            // I64, and a value of a withdrawn row
            (
                "0/3/2/off=0,1,2/val=3,-7/alive=1",
                [0, 4, 2, 2, 3, 2, 0, 1, 1],
                [-7i64 as u64, 3],
                &[0, 1],
                &[0, 1, 2],
            ),
            ("1/3/0/off=0", [1, 4, 0, 0, 1, 0, 0, 0, 0], [0, 0], &[], &[0]),
            ("1/3/2/off=0,0,0", [1, 4, 2, 0, 1, 0, 0, 0, 2], [0, 0], &[], &[0]),
            ("1/3/2/off=0,1,1/val=7/alive=2", [1, 4, 2, 1, 2, 1, 0, 1, 1], [7, 7], &[0], &[0, 1]),
            ("1/3/0/off=0/alive=", [1, 4, 0, 0, 1, 0, 0, 1, 0], [0, 0], &[], &[0]),
            ("4/3/2/off=0,0,2/val=1,0/terms=a,b", [4, 4, 2, 1, 2, 2, 2, 0, 2], [0, 0], &[1], &[0, 2]),
            ("3/3/1/off=0,0/terms=a", [3, 4, 1, 0, 1, 0, 1, 0, 1], [0, 0], &[], &[0]),
            ("5/3/3/off=0,1,2,3/val=0,1,1", [5, 4, 3, 3, 4, 3, 0, 0, 3], [0, 0], &[0, 1, 2], &[0, 1, 2, 3]),
            ("6/3/3/off=0,2,2,3/val=1:2,3:4,5:6", [6, 4, 3, 2, 3, 3, 0, 0, 3], [0, 0], &[0, 2], &[0, 2, 3]),
            ("6/3/2/off=0,0,1/val=0:1/alive=1", [6, 4, 2, 1, 2, 1, 0, 1, 1], [0, 0], &[1], &[0, 1]),
        ] {
            let record = Record::new(numbers, pair);
            let new = Converted { record, ids: ids.to_vec(), offsets: offsets.to_vec() };
            assert_eq!(converted(words, large), Outcome::Accepted(new.clone()), "{words}");
            let exact = Space { ids: ids.len(), offsets: offsets.len() };
            assert_eq!(converted(words, exact), Outcome::Accepted(new), "{words}");
        }
        for (number, words) in [
            (3, "1/1/1/val=7"),
            (3, "1/4/3/ids=0,2/off=0,2,3/val=7,8,9"),
            (3, "1/7/0"),
            (3, "1/0/0"),
            (3, "255/3/0"),
            (3, "255/0/0"),
            (3, "8/3/0/off=0"),
            (4, "1/3/3/off=0,2,1,3/val=7,8,9"),
            (4, "1/3/1/off=1,3/val=7,8"),
            (4, "1/3/1/off=0,1/val=7/ids=0"),
            (4, "1/3/0"),
            (4, "1/3/1/off=0"),
            (4, "1/3/1/off=0,1/val=7,8"),
            (4, "1/3/4294967295/off=0"),
            (4, "5/3/1/off=0,0/val=2"),
            (4, "6/3/1/off=0,2/val=3:4"),
            (5, "5/3/1/off=0,1/val=2"),
            (5, "4/3/1/off=0,1/val=1/terms=a"),
            (5, "4/3/1/off=0,1/val=0/terms=b,a"),
            (5, "1/3/0/off=0/terms=a"),
            (5, "6/3/1/off=0,1/val=3:4/terms=a"),
            (5, "5/3/1/off=0,1/val=2/alive=2"),
            (6, "1/3/1/off=0,1/val=7/alive=2"),
            (6, "1/3/1/off=0,1/val=7/alive=2/count=0"),
            (6, "1/3/1/off=0,1/val=7/count=0"),
            (6, "1/3/2/off=0,1,1/val=7/alive=2/count=2"),
            (6, "1/3/0/off=0/count=1"),
            (5, "5/3/1/off=0,1/val=2/count=0"),
            (5, "1/3/2/off=0,1,2/val=3,4/pair=0:4"),
            (5, "1/3/2/off=0,1,2/val=3,4/pair=3:5"),
            (5, "0/3/2/off=0,1,2/val=-1,1/pair=1:-1"),
            (5, "1/3/2/off=0,1,2/val=3,9/alive=1/pair=3:3"),
            (5, "7/3/1/off=0,1/val=5/pair=5:5"),
            (5, "1/3/0/off=0/pair=1:1"),
            (5, "1/3/1/off=0,1/val=7/pair=7:8/count=0"),
            (4, "1/3/1/off=1,3/val=7,8/pair=0:0"),
            (3, "1/4/1/ids=0/off=0,1/val=7/pair=0:0"),
        ] {
            assert_eq!(converted(words, large), Outcome::Refused(number), "{words}");
            // 11 comes last
            assert_eq!(converted(words, Space::default()), Outcome::Refused(number), "{words}");
        }
        for (ids, offsets) in [(1, 9), (9, 2), (0, 9), (9, 0), (1, 2)] {
            assert_eq!(converted(c5, Space { ids, offsets }), Outcome::Refused(11), "{ids} {offsets}");
        }
        assert_eq!(converted("1/3/0/off=0", Space::default()), Outcome::Refused(11));
        // 2: one value announced, none there; and before 3
        let mut s = input("0 255 9/3/1/off=0,1/val=7").sections();
        let answer = |s: &Sections| convert::outcome(&convert::Call { sections: s, space: large }).number();
        assert_eq!(answer(&s), 3);
        s.values.clear();
        assert_eq!(answer(&s), 2);
        // Two words an address.
        let mut s = input("0 255 6/3/1/off=0,1/val=3:4").sections();
        for (words, number) in [(1, 2), (2, 0), (3, 2)] {
            s.values = vec![7; words];
            assert_eq!(answer(&s), number);
        }
        // Only flag 1 adds alive words.
        let mut s = input("0 255 1/3/1/off=0,1/val=7/alive=1").sections();
        s.records[0][7] = 2;
        assert_eq!(answer(&s), 2);
        s.alive.clear();
        assert_eq!(answer(&s), 3);
        let mut s = input("0 255 4/3/0/off=0/terms=a").sections();
        s.term_bytes.push(0);
        assert_eq!(answer(&s), 2);
    }

    /// Full, sparse and several blocks of the stand-ins for row ids.
    #[test]
    fn blocks() {
        for step in [1u32, 2, 3, 11, 40, 1000] {
            let rows = 200_000;
            let ids: Vec<u32> = (0..rows).filter(|r| r % step == 0 || r / 65536 == 1).collect();
            let values: Vec<u128> = ids.iter().map(|&i| i as u128 * 3).collect();
            let s = Seg { ty: 1, kind: 2, rows, ids: ids.clone(), values: values.clone(), ..Seg::default() };
            let none = Seg { ty: 255, rows: 5, ..Seg::default() };
            let mut input = Input { mode: 0, required: 255, ..Input::default() };
            input.segs = vec![s.clone(), none, s.clone()];
            let l = run::column(&input).unwrap();
            let mut expected = ids.clone();
            expected.extend(ids.iter().map(|i| i + rows + 5));
            assert_eq!(l.ids, expected);
            assert_eq!(l.values, [&values[..], &values[..]].concat());
            // ordered, backwards
            input.mode = 1;
            input.segs = vec![s];
            input.addresses = (0..rows).rev().map(|r| [0, r]).collect();
            let l = run::column(&input).unwrap();
            let expected: Vec<u32> = ids.iter().rev().map(|i| rows - 1 - i).collect();
            assert_eq!(l.ids, expected);
            let mut back = values.clone();
            back.reverse();
            assert_eq!(l.values, back);
        }
    }

    /// The differences that docs/DIFFERENCES.md names, as the crate shows them.
    #[test]
    fn differences() {
        // Two categories under one name: a column for each.
        let two = input("0 255 4/1/1/val=0/terms=a 5/1/1/val=1");
        assert!(table::two_categories(&two));
        assert_eq!(run::column(&two), Err("2 columns".to_string()));
        assert_eq!(run::column(&input("0 6 6/1/1/val=3:4 1/1/1/val=7")), Err("2 columns".to_string()));
        // Very many rows.
        let many = input("0 255 1/2/4294901761/ids=0/val=7");
        assert!(run::beyond_the_crate(&many));
        assert!(run::column(&many).unwrap_err().starts_with("panic: "));
        let less = input("0 255 1/2/4294901760/ids=0/val=7");
        assert!(!run::beyond_the_crate(&less));
        assert_eq!(run::column(&less).unwrap().ids, [0]);
        // Nothing held, nothing required: no column.
        assert_eq!(run::column(&input("0 255 255/0/3")).unwrap().ty, 255);
    }
}
