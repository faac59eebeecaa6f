//! Document 01's table of answers ("Answers of the joiner"), 1 to 11, with document 02's 19, its addresses,
//! its number of alive rows and its least and greatest value, and what the joining program does with standard
//! input: written from the documents' words alone.
use std::cell::OnceCell;
use std::cmp::Ordering;
use std::collections::HashSet;

use crate::model;
use crate::wire::{Input, Listing, Outcome, Pair, Record, Sections, Seg, width};

/// How many elements are lent, of values words.
#[derive(Clone, Copy, Debug, Default, PartialEq, Eq)]
pub struct Lent {
    pub working: usize,
    pub ids: usize,
    pub offsets: usize,
    pub values: usize,
    pub term_lengths: usize,
    pub term_bytes: usize,
    pub map: usize,
}

/// "It lends 65,536 working bytes and 8,192 elements of each output list."
pub const PROGRAM: Lent = Lent {
    working: 65_536,
    ids: 8_192,
    offsets: 8_192,
    values: 8_192,
    term_lengths: 8_192,
    term_bytes: 8_192,
    map: 8_192,
};
pub const PROGRAM_BYTES: usize = 65_536;

/// One call: what is lent. The cut and the join are made when first asked for.
pub struct Call<'a> {
    pub sections: &'a Sections,
    pub lent: Lent,
    cut: OnceCell<Input>,
    joined: OnceCell<Listing>,
}

impl<'a> Call<'a> {
    pub fn new(sections: &'a Sections, lent: Lent) -> Call<'a> {
        Call { sections, lent, cut: OnceCell::new(), joined: OnceCell::new() }
    }
    /// The segments with their runs: to be asked only once check 2 has passed.
    pub fn input(&self) -> &Input {
        self.cut.get_or_init(|| self.sections.cut())
    }
    /// The join: to be asked only once check 10 has passed.
    pub fn joined(&self) -> &Listing {
        self.joined.get_or_init(|| model::join(self.input()))
    }
    pub fn any_segment(&self, fails: impl Fn(&Seg) -> bool) -> bool {
        self.input().segs.iter().any(fails)
    }
}

pub type Check = fn(&Call) -> bool;

/// Each number with its check, true where the number is to be given, in the order of the checks:
/// "19 .. tested right after 3".
pub const CHECKS: [(u32, Check); 12] = [
    (1, segments),
    (2, section_lengths),
    (3, unknown),
    (19, old_multivalued),
    (4, runs),
    (5, contents),
    (6, alive_sets),
    (7, sums),
    (8, working_bytes),
    (9, addresses),
    (10, types),
    (11, space),
];

/// The first check that fails, each over all segments. "0 is acceptance."
pub fn answer_by(checks: &[(u32, Check)], call: &Call) -> u32 {
    checks.iter().find(|(_, fails)| fails(call)).map_or(0, |(number, _)| *number)
}

pub fn answer(call: &Call) -> u32 {
    answer_by(&CHECKS, call)
}

pub fn outcome(sections: &Sections, lent: Lent) -> Outcome {
    let call = Call::new(sections, lent);
    match answer(&call) {
        0 => Outcome::Accepted(call.joined().clone()),
        number => Outcome::Refused(number),
    }
}

/// "A cut input, a first count other than 2, bytes after the last section, a number too wide or
/// more than 65,536 bytes gives 2, before all other checks." None there; the sections else.
pub fn program_sections(bytes: &[u8]) -> Option<Sections> {
    if bytes.len() > PROGRAM_BYTES { None } else { Sections::decode(bytes).ok() }
}

/// The joining program on what it reads.
pub fn program(bytes: &[u8]) -> Outcome {
    match program_sections(bytes) {
        None => Outcome::Refused(2),
        Some(sections) => outcome(&sections, PROGRAM),
    }
}

/// 1: more than 256 segments
pub fn segments(call: &Call) -> bool {
    call.sections.records.len() > 256
}

/// 2: section lengths differ from the records' sums (only flag 1 adds alive words), or term bytes
/// from the term lengths' sum. "Section lengths" count the values' words; 3 has not been asked yet.
pub fn section_lengths(call: &Call) -> bool {
    let s = call.sections;
    let sum = |of: &dyn Fn(&Record) -> u128| s.records.iter().map(of).sum::<u128>();
    sum(&|r| r[3] as u128) != s.ids.len() as u128
        || sum(&|r| r[4] as u128) != s.offsets.len() as u128
        || sum(&|r| r[5] as u128 * width(r[0]) as u128) != s.values.len() as u128
        || sum(&|r| r[6] as u128) != s.term_lengths.len() as u128
        || sum(&|r| if r[7] == 1 { r[2].div_ceil(64) as u128 } else { 0 }) != s.alive.len() as u128
        || s.term_lengths.iter().map(|&n| n as u128).sum::<u128>() != s.term_bytes.len() as u128
}

pub fn known_type(ty: u32) -> bool {
    ty <= 7 || ty == 255
}

/// 3: unknown mode, type, required type, kind or flag; type 255 with a kind or lengths
pub fn unknown(call: &Call) -> bool {
    !matches!(call.sections.mode, 0 | 1)
        || !known_type(call.sections.required)
        || call.sections.records.iter().any(unknown_record)
}

/// 3 of one record. The number of alive rows is no length: with type 255 it is that of the rows. Nor are the
/// least and greatest value.
pub fn unknown_record(record: &Record) -> bool {
    let [ty, kind, _rows, ids, offsets, values, terms, flag, _count] = record.numbers();
    !known_type(ty)
        || kind > 4
        || flag > 1
        || ty == 255 && (kind, ids, offsets, values, terms) != (0, 0, 0, 0, 0)
}

/// 19: a record of kind 3
pub fn old_multivalued(call: &Call) -> bool {
    call.sections.records.iter().any(|r| r[1] == 3)
}

/// 4: ids not ascending or not below rows; wrong number of ids, offsets or values; offsets not from
/// 0, falling (kind 3) or not rising (kind 4)
pub fn runs(call: &Call) -> bool {
    call.any_segment(runs_of)
}

/// 4 of one segment; of kind 3 it is the converter's.
///
/// "Kind 1 has a value for each row; 2 a value for each id; 3 rows + 1 offsets; 4 one offset more
/// than ids; the last offset is the number of values. Lists not named here are empty, and kind 0
/// has none."
pub fn runs_of(s: &Seg) -> bool {
    let (ids, offsets, values) = (s.ids.len() as u64, s.offsets.len() as u64, s.values.len() as u64);
    let rows = s.rows as u64;
    let right_numbers = match s.kind {
        0 => ids == 0 && offsets == 0 && values == 0,
        1 => ids == 0 && offsets == 0 && values == rows,
        2 => offsets == 0 && values == ids,
        3 => ids == 0 && offsets == rows + 1,
        _ => offsets == ids + 1,
    };
    let ids_right = s.ids.windows(2).all(|w| w[0] < w[1]) && s.ids.iter().all(|&id| id < s.rows);
    let offsets_right = s.kind < 3
        || s.offsets.first() == Some(&0)
            && s.offsets.windows(2).all(|w| if s.kind == 3 { w[0] <= w[1] } else { w[0] < w[1] })
            && s.offsets.last().map(|&o| o as u64) == Some(values);
    !(right_numbers && ids_right && offsets_right)
}

/// 5: Bool above 1, ordinal not below the terms, terms not strictly ascending, terms on another
/// type or on kind 0; "also given when a pair is untrue"
pub fn contents(call: &Call) -> bool {
    call.any_segment(contents_of) || pairs(call)
}

/// An untrue pair, of any segment by itself.
pub fn pairs(call: &Call) -> bool {
    paired(call).any(|(stored, s)| untrue(stored, s))
}

/// The stored pairs and the segments.
pub fn paired<'a>(call: &'a Call) -> impl Iterator<Item = (Pair, &'a Seg)> {
    call.sections.records.iter().map(Record::pair).zip(&call.input().segs)
}

/// "The least and greatest stored value", be the column held or dropped.
pub fn untrue(stored: Pair, s: &Seg) -> bool {
    stored != model::pair(s.ty, &s.values)
}

/// 5 of one segment but for its pair.
pub fn contents_of(s: &Seg) -> bool {
    let bytewise = |a: &[u8], b: &[u8]| {
        for (x, y) in a.iter().zip(b) {
            if x != y {
                return x.cmp(y);
            }
        }
        a.len().cmp(&b.len())
    };
    let words = s.ty == 3 || s.ty == 4;
    s.ty == 5 && s.values.iter().any(|&v| v > 1)
        || words && s.values.iter().any(|&v| v >= s.terms.len() as u128)
        || s.terms.windows(2).any(|w| bytewise(&w[0], &w[1]) != Ordering::Less)
        || !s.terms.is_empty() && (!words || s.kind == 0)
}

/// 6: an alive bit past the rows, or an alive set in a stacked join; "also given when the stored number
/// is wrong"
pub fn alive_sets(call: &Call) -> bool {
    alive_bits(call) || counts(call)
}

/// 6 without the stored numbers.
pub fn alive_bits(call: &Call) -> bool {
    call.any_segment(|s| s.alive.is_some() && call.sections.mode == 0 || past_the_rows(s))
}

/// A wrong stored number, of any segment by itself.
pub fn counts(call: &Call) -> bool {
    counted(call).any(|(stored, s)| wrong_count(stored, s))
}

/// The stored numbers and the segments.
pub fn counted<'a>(call: &'a Call) -> impl Iterator<Item = (u32, &'a Seg)> {
    call.sections.records.iter().map(|r| r[8]).zip(&call.input().segs)
}

/// "Each record gains that number", of alive rows; "a record without an alive set holds its row count".
pub fn wrong_count(stored: u32, s: &Seg) -> bool {
    stored as u64 != alive_rows(s)
}

/// An alive bit past the rows.
pub fn past_the_rows(s: &Seg) -> bool {
    let past = |i: usize, bit: u64| i as u64 * 64 + bit >= s.rows as u64;
    let mut words = s.alive.iter().flatten().enumerate();
    words.any(|(i, word)| (0..64).any(|bit| word >> bit & 1 == 1 && past(i, bit)))
}

/// 7: rows, values or term bytes sum above 4294967294. "Values are counted as addresses."
pub fn sums(call: &Call) -> bool {
    let s = call.sections;
    s.records.iter().map(|r| r[2] as u128).sum::<u128>() > 4294967294
        || s.records.iter().map(|r| r[5] as u128).sum::<u128>() > 4294967294
        || s.term_bytes.len() as u128 > 4294967294
}

/// 8: ordered, working bytes fewer than all rows plus all terms
pub fn working_bytes(call: &Call) -> bool {
    let rows: u128 = call.sections.records.iter().map(|r| r[2] as u128).sum();
    let terms = call.sections.term_lengths.len() as u128;
    call.sections.mode == 1 && (call.lent.working as u128) < rows + terms
}

/// 9: an address absent from the segments, withdrawn or repeated; an alive row not listed; any
/// address when stacked
pub fn addresses(call: &Call) -> bool {
    let list = &call.sections.addresses;
    if call.sections.mode == 0 {
        return !list.is_empty();
    }
    let segs = &call.input().segs;
    let mut listed: HashSet<[u32; 2]> = HashSet::new();
    for &[segment, row] in list {
        let Some(s) = segs.get(segment as usize) else { return true };
        if row >= s.rows || !s.is_alive(row) || !listed.insert([segment, row]) {
            return true;
        }
    }
    // Each address is another alive row: all alive rows are listed if there are no more of them.
    segs.iter().map(alive_rows).sum::<u64>() != listed.len() as u64
}

/// How many rows of a segment are alive.
pub fn alive_rows(s: &Seg) -> u64 {
    match &s.alive {
        None => s.rows as u64,
        Some(_) => (0..s.rows).filter(|&r| s.is_alive(r)).count() as u64,
    }
}

/// Numbers (0, 1, 2) are one category, each other type is one alone.
fn category(ty: u32) -> u32 {
    if ty <= 2 { 0 } else { ty }
}

/// Present or required types of two categories.
pub fn two_categories(input: &Input) -> bool {
    let types = input.segs.iter().map(|s| s.ty).chain([input.required]);
    types.filter(|&ty| ty != 255).map(category).collect::<HashSet<u32>>().len() > 1
}

/// 10: present or required types of two categories, or a held column that can't be coerced
pub fn types(call: &Call) -> bool {
    let input = call.input();
    let to = model::joined_type(input);
    two_categories(input) || call.any_segment(|s| model::held(s) && !model::coercible(s, to))
}

/// What the outputs must hold: the lists, and for terms and map the held columns' sums.
pub fn needed(call: &Call) -> Lent {
    let joined = call.joined();
    let held = || call.input().segs.iter().filter(|s| model::held(s));
    let terms = held().map(|s| s.terms.len()).sum();
    Lent {
        working: match call.sections.mode {
            0 => 0,
            _ => {
                let rows: usize = call.sections.records.iter().map(|r| r[2] as usize).sum();
                rows + call.sections.term_lengths.len()
            }
        },
        ids: joined.ids.len(),
        offsets: joined.offsets.len(),
        values: joined.words().len(),
        term_lengths: terms,
        term_bytes: held().flat_map(|s| &s.terms).map(|t| t.len()).sum(),
        map: terms,
    }
}

/// 11: an output shorter than its list; for terms and map, than the held columns' sums. "Output space"
/// counts the values' words.
pub fn space(call: &Call) -> bool {
    let (needed, lent) = (needed(call), call.lent);
    lent.ids < needed.ids
        || lent.offsets < needed.offsets
        || lent.values < needed.values
        || lent.term_lengths < needed.term_lengths
        || lent.term_bytes < needed.term_bytes
        || lent.map < needed.map
}

#[cfg(test)]
mod tests {
    use super::*;
    use crate::wire::from_words;

    const PLENTY: Lent = PROGRAM;

    fn input(text: &str) -> Input {
        let words: Vec<String> = text.split_whitespace().map(String::from).collect();
        from_words(&words).unwrap()
    }
    fn number(text: &str, lent: Lent) -> u32 {
        outcome(&input(text).sections(), lent).number()
    }

    /// The table's column of examples, and the readings of its words.
    #[test]
    fn examples() {
        let refused = |n: u32, text: &str| assert_eq!(number(text, PLENTY), n, "{text}");
        // 1
        refused(0, &format!("0 255{}", " 255/0/0".repeat(256)));
        refused(1, &format!("0 255{}", " 255/0/0".repeat(257)));
        refused(1, &format!("9 9{}", " 9/9/9".repeat(257)));
        // 2: one value announced, none there
        let mut s = input("0 255 1/1/1/val=7").sections();
        s.values.clear();
        assert_eq!(outcome(&s, PLENTY), Outcome::Refused(2));
        // Errors of two records can cancel: the sums are compared. Here 4 finds them.
        let mut s = input("0 255 1/1/1/val=7 1/1/1/val=8").sections();
        (s.records[0][5], s.records[1][5]) = (0, 2);
        assert_eq!(outcome(&s, PLENTY), Outcome::Refused(4));
        // Only flag 1 adds alive words.
        let mut s = input("1 255 255/0/3/alive=0").sections();
        assert_eq!(outcome(&s, PLENTY).number(), 0);
        s.records[0][7] = 2;
        assert_eq!(outcome(&s, PLENTY), Outcome::Refused(2));
        s.alive.clear();
        assert_eq!(outcome(&s, PLENTY), Outcome::Refused(3));
        // 3: type 8
        for text in [
            "0 255 8/1/1/val=0",
            "2 255",
            "0 8",
            "0 254",
            "0 256",
            "0 255 8/0/0",
            "0 255 1/5/0",
            "0 255 255/1/0",
            "0 255 255/1/1/val=0",
            "0 255 255/0/1/val=0",
            "0 255 255/0/0/terms=a",
            "0 255 255/0/0/off=0",
            "0 255 255/2/1/ids=0/val=0",
        ] {
            refused(3, text);
        }
        // 19: any kind 3, whatever its lists are, after 3 and before 4
        for text in [
            "0 255 1/3/3/off=0,2,2,3/val=7,8,9",
            "1 255 1/3/3/off=0,2,2,3/val=7,8,9/alive=5 addr=0:2,0:0",
            "0 255 1/3/0/off=0",
            "0 255 1/3/0",
            "0 255 1/3/2/off=0,2,1/val=0",
            "0 255 1/3/1/off=0,1/val=0/ids=0",
            "0 255 1/3/4294967295/off=0",
            "0 255 5/3/1/off=0,1/val=2",
            "0 255 1/3/1/off=0,1/val=7 1/2/3/ids=1,1/val=0,0",
            "0 255 1/2/3/ids=1,1/val=0,0 1/3/1/off=0,1/val=7",
            "0 255 1/3/1/off=0,1/val=7/alive=1",
            "0 255 1/3/0/off=0 255/0/4294967295",
            "0 255 1/3/0/off=0 5/1/1/val=1",
        ] {
            refused(19, text);
        }
        refused(1, &format!("0 255{}", " 1/3/0/off=0".repeat(257)));
        refused(19, &format!("0 255{}", " 1/3/0/off=0".repeat(256)));
        let mut s = input("0 255 1/3/1/off=0,1/val=7").sections();
        s.values.clear();
        assert_eq!(outcome(&s, PLENTY), Outcome::Refused(2));
        for text in [
            "0 255 1/3/1/off=0,1/val=7 9/1/1/val=0",
            "0 255 9/1/1/val=0 1/3/1/off=0,1/val=7",
            "0 255 9/3/1/off=0,1/val=7",
            "0 255 255/3/0",
            "0 255 255/3/1/off=0,1/val=7",
            "2 255 1/3/0/off=0",
            "0 8 1/3/0/off=0",
        ] {
            refused(3, text);
        }
        // 4: ids 1 1
        for text in [
            "0 255 1/2/3/ids=1,1/val=0,0",
            "0 255 1/2/3/ids=2,1/val=0,0",
            "0 255 1/2/1/ids=1/val=0",
            "0 255 1/2/1/ids=0",
            "0 255 1/2/1/val=0",
            "0 255 1/1/2/val=0",
            "0 255 1/1/0/val=0",
            "0 255 1/0/1/val=0",
            "0 255 1/0/1/ids=0",
            "0 255 1/0/1/off=0",
            "0 255 1/1/1/val=0/off=0",
            "0 255 1/1/1/val=0/ids=0",
            "0 255 1/2/1/ids=0/val=0/off=0,1",
            "0 255 1/4/0",
            "0 255 1/4/1/ids=0/off=0,0",
            "0 255 1/4/2/ids=0,1/off=0,1,1/val=0",
            "0 255 1/4/0/off=1",
            "0 255 1/4/1/off=0,1/val=0",
            "0 255 1/4/1/ids=0/off=0,1/val=0,0",
        ] {
            refused(4, text);
        }
        refused(0, "0 255 1/4/0/off=0");
        // 5: terms b a
        for text in [
            "0 255 4/1/1/val=0/terms=b,a",
            "0 255 4/1/1/val=0/terms=a,a",
            "0 255 4/1/1/val=0/terms=aa,b,ab",
            "0 255 4/1/1/val=1/terms=a",
            "0 255 3/1/1/val=0",
            "0 255 5/1/1/val=2",
            "0 255 1/1/1/val=0/terms=a",
            "0 255 4/0/1/terms=a",
            "0 255 1/0/1/terms=a",
        ] {
            refused(5, text);
        }
        refused(0, "0 255 4/1/1/val=0/terms=-,0x00,a,aa,b");
        untrue_pairs(&refused);
        // 6: 1 row, word 2, be it counted or not
        refused(6, "1 255 1/1/1/val=0/alive=2");
        refused(6, "1 255 1/1/1/val=0/alive=2/count=0");
        refused(6, "0 255 1/1/1/val=0/alive=1");
        refused(6, "0 255 255/0/0/alive=");
        refused(0, "1 255 255/0/0/alive=");
        // 6: a wrong number of alive rows, in both modes, of any segment by itself
        for text in [
            "0 255 1/1/1/val=7/count=0",
            "1 255 1/1/1/val=7/count=0 addr=0:0",
            "0 255 1/1/1/val=7/count=2",
            "1 255 1/1/2/val=7,8/alive=2/count=2 addr=0:1",
            "1 255 1/1/2/val=7,8/alive=2/count=0 addr=0:1",
            "1 255 1/1/2/val=7,8/alive=3/count=1 addr=0:0,0:1",
            "0 255 1/1/1/val=7/count=0 1/1/1/val=8/count=2",
            "1 255 1/1/1/val=7/count=0 1/1/1/val=8/count=2 addr=0:0,1:0",
            "1 255 1/1/2/val=7,8/alive=1/count=2 1/1/2/val=7,8/alive=3/count=1 addr=0:0,1:0,1:1",
            "0 255 255/0/3/count=0",
            "0 255 255/0/0/count=1",
            "0 255 1/0/3/count=0",
            "1 255 255/0/0/alive=/count=1",
            // before 7 and 9
            "0 255 255/0/4294967295/count=0",
            "0 255 255/0/4294967294/count=4294967295",
            "1 255 1/1/1/val=7/count=0",
            "0 255 4/1/1/val=0/terms=a 5/1/1/val=1/count=0",
        ] {
            refused(6, text);
        }
        // after 3, 19, 4 and 5
        refused(3, "0 255 8/1/1/val=0/count=0");
        refused(19, "0 255 1/3/0/off=0 255/0/1/count=0");
        refused(4, "0 255 1/1/2/val=0/count=0");
        refused(5, "0 255 5/1/1/val=2/count=0");
        refused(0, "0 255 255/0/3/count=3");
        refused(0, "1 255 1/1/2/val=7,8/alive=2/count=1 addr=0:1");
        // 7: one no-column segment of 4294967295 rows
        refused(7, "0 255 255/0/4294967295");
        refused(0, "0 255 255/0/4294967294");
        refused(7, "1 255 255/0/4294967294 255/0/1");
        refused(8, "1 255 255/0/4294967294");
        // 8: 3 rows, 2 bytes
        let working = |working: usize| Lent { working, ..PLENTY };
        let text = "1 255 255/0/3 addr=0:0,0:1,0:2";
        assert_eq!((number(text, working(2)), number(text, working(3))), (8, 0));
        let text = "1 255 4/2/1/terms=a,b,c addr=0:0";
        assert_eq!((number(text, working(3)), number(text, working(4))), (8, 0));
        // 9: (0,0) twice
        for text in [
            "1 255 255/0/1 addr=0:0,0:0",
            "1 255 255/0/1 addr=0:1",
            "1 255 255/0/1 addr=1:0",
            "1 255 255/0/1/alive=0 addr=0:0",
            "1 255 255/0/2/alive=3 addr=0:1",
            "1 255 255/0/1",
            "0 255 255/0/1 addr=0:0",
            "1 255 addr=0:0",
        ] {
            refused(9, text);
        }
        refused(0, "1 255 255/0/2/alive=2 addr=0:1");
        // 10: Str with Bool
        for text in [
            "0 255 4/1/1/val=0/terms=a 5/1/1/val=1",
            "0 255 4/0/1 5/1/1/val=1",
            "0 5 4/0/1",
            "0 0 1/1/1/val=9223372036854775808",
            "0 1 0/1/1/val=-1",
            "0 0 2/1/1/val=0",
            "0 1 2/1/1/val=0",
            "1 0 1/1/2/val=1,9223372036854775808/alive=1 addr=0:0",
        ] {
            refused(10, text);
        }
        refused(0, "0 0 2/0/1");
        refused(0, "1 0 1/1/1/val=9223372036854775808/alive=0");
        // 11: 2 values, space for 1
        let text = "0 255 1/1/2/val=7,8";
        assert_eq!(number(text, Lent { values: 1, ..PLENTY }), 11);
        let text = "1 255 4/1/2/val=0,1/terms=ab,cd/alive=2 addr=0:1";
        let exact = Lent { working: 4, values: 1, term_lengths: 2, term_bytes: 4, map: 2, ..Lent::default() };
        assert_eq!(number(text, exact), 0);
        assert_eq!(number(text, Lent { term_lengths: 1, ..exact }), 11);
        assert_eq!(number(text, Lent { term_bytes: 3, ..exact }), 11);
        assert_eq!(number(text, Lent { map: 1, ..exact }), 11);
        let text = "0 255 1/4/2/ids=0/off=0,2/val=7,8";
        let exact = Lent { ids: 1, offsets: 2, values: 2, ..Lent::default() };
        assert_eq!(number(text, exact), 0);
        assert_eq!(number(text, Lent { ids: 0, ..exact }), 11);
        assert_eq!(number(text, Lent { offsets: 1, ..exact }), 11);
    }

    /// 5: "also given when a pair is untrue"
    fn untrue_pairs(refused: &dyn Fn(u32, &str)) {
        for text in [
            // a bound that is not reached, one that is passed, either of the two
            "0 255 1/1/2/val=3,4/pair=2:4",
            "0 255 1/1/2/val=3,4/pair=4:4",
            "0 255 1/1/2/val=3,4/pair=3:3",
            "0 255 1/1/2/val=3,4/pair=3:5",
            // a fold from 0, exchanged, nothing stored
            "0 255 1/1/2/val=3,4/pair=0:4",
            "0 255 0/1/2/val=-3,-4/pair=-4:0",
            "0 255 1/1/2/val=3,4/pair=4:3",
            "0 255 1/1/2/val=3,4/pair=0:0",
            // the other type's order
            "0 255 0/1/2/val=-1,1/pair=1:-1",
            "0 255 1/1/2/val=-1,1/pair=-1:1",
            "0 255 0/1/2/val=9223372036854775807,0x8000000000000000/pair=9223372036854775807:0x8000000000000000",
            // one half
            "0 255 1/1/1/val=4294967296/pair=0:4294967296",
            "0 255 1/1/1/val=4294967296/pair=4294967296:0",
            "0 255 1/1/1/val=7/pair=4294967303:7",
            "0 255 1/1/1/val=7/pair=7:4294967303",
            // the values of alive rows alone, of a column that is held or dropped
            "1 255 1/1/2/val=3,9/alive=1/pair=3:3 addr=0:0",
            "1 255 1/1/2/val=9,3/alive=1/pair=9:9 addr=0:0",
            "1 255 1/1/1/val=9/alive=0/pair=0:0",
            // two segments' exchanged, or put together
            "0 255 1/1/1/val=3/pair=4:4 1/1/1/val=4/pair=3:3",
            "0 255 1/1/1/val=3/pair=3:4 1/1/1/val=4/pair=3:4",
            // other types, columns without values, no column
            "0 255 7/1/1/val=5/pair=5:5",
            "0 255 2/1/1/val=5/pair=5:5",
            "0 255 3/1/1/val=1/terms=a,b/pair=1:1",
            "0 255 4/1/1/val=1/terms=a,b/pair=1:1",
            "0 255 5/1/1/val=1/pair=0:1",
            "0 255 6/1/1/val=5:5/pair=5:5",
            "0 255 1/2/1/pair=1:0",
            "0 255 1/2/1/pair=-1:0",
            "0 255 0/0/1/pair=0:1",
            "0 255 1/1/0/pair=0:1",
            "0 255 0/4/0/off=0/pair=0x8000000000000000:9223372036854775807",
            "0 255 255/0/1/pair=0:1",
            "0 255 255/0/0/pair=1:0",
            // in both modes, of any segment by itself, before 6, 7, 8, 9 and 10
            "1 255 1/1/1/val=7/pair=7:8 addr=0:0",
            "0 255 1/1/1/val=7 255/0/1 1/1/1/val=7/pair=6:7",
            "0 255 1/1/1/val=7/pair=6:7/count=0",
            "0 255 1/1/1/val=7/pair=6:7/alive=1",
            "0 255 1/1/1/val=7/pair=6:7 255/0/4294967295",
            "1 255 255/0/65537/pair=6:7",
            "1 255 1/1/1/val=7/pair=6:7",
            "0 255 4/1/1/val=0/terms=a 5/1/1/val=1/pair=1:1",
            "0 0 1/1/1/val=9223372036854775808/pair=0:0",
        ] {
            refused(5, text);
        }
        // after 3, 19 and 4
        refused(3, "0 255 255/1/1/val=7/pair=7:7");
        refused(3, "0 255 255/1/0/pair=0:1");
        refused(3, "0 255 8/1/1/val=7/pair=7:7");
        refused(19, "0 255 1/3/0/off=0/pair=1:1");
        refused(4, "0 255 1/2/3/ids=1,1/val=7,7/pair=0:0");
        refused(10, "0 0 1/1/1/val=9223372036854775808");
        for text in [
            "0 255 0/1/2/val=-1,1/pair=-1:1",
            "0 255 1/1/2/val=-1,1/pair=1:-1",
            "1 255 1/1/2/val=3,9/alive=1/pair=3:9 addr=0:0",
            "1 255 1/1/1/val=9/alive=0/pair=9:9",
            "0 255 1/2/1/pair=0:0",
            "0 255 7/1/1/val=5/pair=0:0",
            "0 255 255/0/1/pair=0:0",
        ] {
            refused(0, text);
        }
    }

    /// "Values are counted as addresses, and section lengths and output space as words."
    #[test]
    fn addresses_and_words() {
        let refused = |n: u32, text: &str| assert_eq!(number(text, PLENTY), n, "{text}");
        // 2: two words an address, no more and no less
        let words = |records: &[Record], words: &[u64]| {
            let (records, values) = (records.to_vec(), words.to_vec());
            outcome(&Sections { required: 255, records, values, ..Sections::default() }, PLENTY).number()
        };
        let record = |numbers: [u32; 9]| Record::new(numbers, [0, 0]);
        let full = |ty: u32, values: u32| record([ty, 1, values, 0, 0, values, 0, 0, values]);
        let of_pair = |record: Record, pair: Pair| Record::new(record.numbers(), pair);
        assert_eq!(words(&[full(6, 1)], &[3, 4]), 0);
        assert_eq!(words(&[full(6, 1)], &[3]), 2);
        assert_eq!(words(&[full(6, 1)], &[3, 4, 5]), 2);
        assert_eq!(words(&[full(6, 2)], &[1, 2]), 2);
        assert_eq!(words(&[full(6, 2)], &[1, 2, 3, 4]), 0);
        assert_eq!(words(&[full(6, 4)], &[1, 2, 3, 4]), 2);
        // an unknown type has one word a value, since 2 comes before 3
        assert_eq!(words(&[full(8, 1)], &[3]), 3);
        assert_eq!(words(&[full(8, 1)], &[3, 4]), 2);
        assert_eq!(words(&[full(4_294_967_295, 2)], &[3, 4]), 3);
        // errors of two records cancel in words, and 4 finds them
        assert_eq!(words(&[full(6, 1), of_pair(full(1, 2), [3, 4])], &[1, 2, 3, 4]), 10);
        let (two_for_one, none) = ([6, 1, 1, 0, 0, 2, 0, 0, 1], [1, 1, 2, 0, 0, 0, 0, 0, 2]);
        assert_eq!(words(&[two_for_one, none].map(record), &[1, 2, 3, 4]), 4);
        let one = [1, 1, 2, 0, 0, 1, 0, 0, 2];
        assert_eq!(words(&[two_for_one, one].map(record), &[1, 2, 3, 4]), 2);
        // a segment's words start after the words of the segments before it
        let (records, values) = (vec![full(6, 1), full(1, 1)], vec![1, 2, 9]);
        let segs = Sections { records, values, ..Sections::default() }.cut().segs;
        assert_eq!((&segs[0].values[..], &segs[1].values[..]), (&[(1 << 64) + 2][..], &[9][..]));
        assert_eq!(words(&[full(6, 1), full(5, 1)], &[7, 7, 1]), 10);
        assert_eq!(words(&[full(6, 1), full(5, 1)], &[1, 1, 7]), 5);
        // 3: known, and so as required type
        for text in ["0 255 6/1/1/val=3:4", "0 6", "0 6 6/1/1/val=3:4", "0 255 6/0/1", "0 6 255/0/1"] {
            refused(0, text);
        }
        refused(3, "0 255 255/0/1/val=3");
        refused(19, "0 255 6/3/1/off=0,1/val=3:4");
        // 4: numbers of values, ids and offsets are of addresses
        for text in [
            "0 255 6/1/2/val=3:4",
            "0 255 6/1/4/val=1:2,3:4",
            "0 255 6/2/2/ids=0,1/val=3:4",
            "0 255 6/4/1/ids=0/off=0,2/val=3:4",
            "0 255 6/0/1/val=3:4",
        ] {
            refused(4, text);
        }
        // 5: terms on another type; no check looks into an address
        refused(5, "0 255 6/1/1/val=3:4/terms=a");
        refused(5, "0 255 6/2/1/terms=a");
        refused(5, "0 255 6/0/1/terms=a");
        refused(0, "0 255 6/1/4/val=0:0,-1:-1,0:-1,-1:0");
        // 10: "a category of its own and is never coerced"
        for text in [
            "0 255 6/1/1/val=1:2 1/1/1/val=9",
            "0 255 6/1/1/val=1:2 0/0/1",
            "0 255 6/0/1 1/1/1/val=9",
            "0 255 6/1/1/val=0:1 5/1/1/val=1",
            "0 255 6/1/1/val=0:1 7/1/1/val=1",
            "0 255 6/1/1/val=0:0 4/1/1/val=0/terms=a",
            "0 255 6/1/1/val=0:0 3/1/1/val=0/terms=a",
            "0 0 6/1/1/val=0:1",
            "0 1 6/1/1/val=0:1",
            "0 2 6/1/1/val=0:1",
            "0 6 1/1/1/val=1",
            "0 6 1/0/1",
        ] {
            refused(10, text);
        }
        // 11: a place for each word
        let of_values = |text: &str, values: usize| number(text, Lent { values, ..Lent::default() });
        let one = "0 255 6/1/1/val=1:2";
        assert_eq!([0, 1, 2].map(|n| of_values(one, n)), [11, 11, 0]);
        let two = "0 255 6/1/2/val=1:2,3:4";
        assert_eq!([2, 3, 4].map(|n| of_values(two, n)), [11, 11, 0]);
        assert_eq!(of_values("0 6", 0), 0);
        assert_eq!(of_values("0 255 1/1/1/val=7", 1), 0);
    }

    #[test]
    fn program_form() {
        let bytes = |ty: u32, values: usize| {
            let mut s = input("0 255 1/1/0").sections();
            let n = values as u32;
            let pair = if ty == 1 { [7, 7] } else { [0, 0] };
            s.records[0] = Record::new([ty, 1, n, 0, 0, n, 0, 0, n], pair);
            s.values = vec![7; values * width(ty)];
            s.encode()
        };
        // 11 + 11 words without the values
        assert_eq!(bytes(1, 8_170).len(), 65_536);
        assert_eq!(program(&bytes(1, 8_170)).number(), 0);
        assert_eq!(program(&bytes(1, 8_171)), Outcome::Refused(2));
        assert_eq!(bytes(6, 4_085).len(), 65_536);
        assert_eq!(program(&bytes(6, 4_085)).number(), 0);
        assert_eq!(program(&bytes(6, 4_086)), Outcome::Refused(2));
        assert_eq!(program(&[]), Outcome::Refused(2));
        // the number of alive rows has 32 bits: wider gives 2, also where its low ones are right
        let mut wide = bytes(1, 1);
        assert_eq!(wide[8 * 12], 1);
        for (high, low, number) in [(0, 1, 0), (0, 0, 6), (1, 1, 2), (1, 0, 2)] {
            (wide[8 * 12 + 4], wide[8 * 12]) = (high, low);
            assert_eq!(program(&wide).number(), number);
        }
        // the least and the greatest value have 64: their high bits are compared
        let mut wide = bytes(1, 1);
        assert_eq!((wide[8 * 13], wide[8 * 14]), (7, 7));
        for place in [8 * 13 + 4, 8 * 13 + 7, 8 * 14 + 4, 8 * 14 + 7] {
            wide[place] = 1;
            assert_eq!(program(&wide), Outcome::Refused(5));
            wide[place] = 0;
        }
        assert_eq!(program(&wide).number(), 0);
        assert_eq!(program(&input("0 255 1/1/1/val=-1").sections().encode()).number(), 0);
    }
}
