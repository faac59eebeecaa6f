//! Joiners that go wrong where a value has two words. Check 7 by words is not among them: it would take
//! more than 2147483647 addresses.
use super::{How, Slip, slip};
use crate::model;
use crate::ours::Lists;
use crate::table::{self, Call};
use crate::wire::{IP, Input, Listing, Outcome, Seg, values_of, width, words_of};

pub const SLIPS: &[Slip] = &[
    slip("2 by one word an address", How::Check(2, |c| lengths_by(c, |_| 1))),
    slip("2 by two words a value of any type", How::Check(2, |c| lengths_by(c, |_| 2))),
    slip("2 by two words a value of an unknown type", How::Check(2, |c| lengths_by(c, two_if_unknown))),
    slip(
        "2 not for half an address more",
        How::Check(2, |c| {
            let mut s = c.sections.clone();
            if s.values.len() % 2 == 1 && s.records.iter().all(|r| r[0] == IP) {
                s.values.pop();
            }
            table::section_lengths(&Call::new(&s, c.lent))
        }),
    ),
    slip(
        "3 for type 6",
        How::Check(3, |c| table::unknown(c) || c.sections.records.iter().any(|r| r[0] == IP)),
    ),
    slip("3 for type 6 required", How::Check(3, |c| table::unknown(c) || c.sections.required == IP)),
    slip(
        "3 not for type 8",
        How::Check(3, |c| {
            let mut s = c.sections.clone();
            s.records.iter_mut().filter(|r| r[0] == 8).for_each(|r| r[0] = 1);
            table::unknown(&Call::new(&s, c.lent))
        }),
    ),
    slip("4 by words", How::Check(4, |c| c.any_segment(|s| table::runs_of(&in_words(s))))),
    slip(
        "5 not for terms on addresses",
        How::Check(5, |c| table::pairs(c) || c.any_segment(|s| table::contents_of(&termless(s)))),
    ),
    slip(
        "5 for the address of zeros",
        How::Check(5, |c| table::contents(c) || c.any_segment(|s| s.ty == IP && s.values.contains(&0))),
    ),
    slip(
        "5 for an address as an ordinal",
        How::Check(5, |c| {
            let above = |s: &Seg| s.values.iter().any(|&v| v >= s.terms.len() as u128);
            table::contents(c) || c.any_segment(|s| s.ty == IP && above(s))
        }),
    ),
    slip(
        "5 of the words after the values of the segments before",
        How::Check(5, |c| {
            let mut input = c.input().clone();
            misread(&mut input, |s| s.values.len());
            table::pairs(c) || input.segs.iter().any(table::contents_of)
        }),
    ),
    slip("10 not for addresses beside numbers", How::Check(10, |c| types_if(c, |input| as_type(input, 1)))),
    slip("10 not for addresses beside times", How::Check(10, |c| types_if(c, |input| as_type(input, 7)))),
    slip(
        "10 not for numbers required of addresses",
        How::Check(10, |c| {
            types_if(c, |input| {
                if input.required <= 2 && input.segs.iter().any(|s| s.ty == IP) {
                    input.required = IP;
                }
            })
        }),
    ),
    slip(
        "10 not for addresses required of numbers",
        How::Check(10, |c| {
            types_if(c, |input| {
                if input.required == IP && input.segs.iter().any(|s| s.ty <= 2) {
                    input.required = 255;
                }
            })
        }),
    ),
    slip("11 by addresses", How::Check(11, |c| space_by(c, |l| l.values.len()))),
    slip("11 by two words a value of any type", How::Check(11, |c| space_by(c, |l| 2 * l.values.len()))),
    slip(
        "11 not for an address's last word",
        How::Check(11, |c| space_by(c, |l| l.words().len().saturating_sub((l.ty == IP) as usize))),
    ),
    slip(
        "11 by an address more",
        How::Check(11, |c| space_by(c, |l| l.words().len() + 2 * (l.ty == IP) as usize)),
    ),
    slip(
        "11 by all stored words",
        How::Check(11, |c| table::space(c) || c.lent.values < c.sections.values.len()),
    ),
    slip(
        "words found after the values of the segments before",
        How::Read(|input| misread(input, |s| s.values.len())),
    ),
    slip(
        "the words of a dropped column not passed over",
        How::Read(|input| misread(input, |s| if model::held(s) { s.values.len() * width(s.ty) } else { 0 })),
    ),
    slip("an address at the word of its number", How::Read(|input| overlap(input, &[1, 2, 4]))),
    slip("an address at the word of its rank", How::Read(|input| overlap(input, &[2]))),
    slip("an address at the word of its offset", How::Read(|input| overlap(input, &[4]))),
    slip("the low word first", How::Column(|_, l| each(l, |v| v.rotate_left(64)))),
    slip("high words alone", How::Column(|_, l| each(l, |v| v >> 64 << 64))),
    slip("low words alone", How::Column(|_, l| each(l, |v| v as u64 as u128))),
    slip("the high word twice", How::Column(|_, l| each(l, |v| v >> 64 << 64 | v >> 64))),
    slip(
        "an IPv4 address out of its mapped form",
        How::Column(|_, l| each(l, |v| if v >> 32 == 0xFFFF { v as u32 as u128 } else { v })),
    ),
    slip("low words of 32 bits", How::Column(|_, l| each(l, |v| v >> 64 << 64 | v as u32 as u128))),
    slip(
        "all high words before all low ones",
        How::Column(|_, l| {
            if l.ty == IP {
                let half = |shift: u32| l.values.iter().map(move |v| (v >> shift) as u64);
                l.values = values_of(IP, &half(64).chain(half(0)).collect::<Vec<u64>>());
            }
        }),
    ),
    slip("of a row as many words as it has addresses", How::Column(|_, l| by_rows(l, |n| n))),
    slip("of a row the first word alone", How::Column(|_, l| by_rows(l, |_| 1))),
    slip("of a row the first address alone", How::Column(|_, l| by_rows(l, |_| 2))),
    slip(
        "class by words",
        How::Column(|input, l| {
            let filled = |s: &Seg| model::filled(s).iter().any(|(row, _)| s.is_alive(*row));
            if l.ty == IP && input.segs.iter().any(|s| s.alive.is_some() && model::held(s) && filled(s)) {
                multivalued(l);
            }
        }),
    ),
    slip(
        "class 2 for a full column of addresses",
        How::Column(|_, l| {
            if l.ty == IP && l.class == 0 {
                multivalued(l);
            }
        }),
    ),
    slip(
        "offsets by words",
        How::Column(|_, l| {
            if l.ty == IP {
                l.offsets.iter_mut().for_each(|offset| *offset *= 2);
            }
        }),
    ),
    slip(
        "a row id for each word",
        How::Column(|_, l| {
            if l.ty == IP {
                l.ids = l.ids.iter().flat_map(|&id| [id; 2]).collect();
            }
        }),
    ),
    slip(
        "type 255 where nothing is held though type 6 is required",
        How::Column(|_, l| {
            if l.ty == IP && l.values.is_empty() {
                *l = Listing { ty: 255, rows: l.rows, ..Listing::default() };
            }
        }),
    ),
    slip("addresses named numbers", How::Leave(|outcome, lists| number(outcome, lists, 0, |_| 1))),
    slip("the number of values in words", How::Leave(|outcome, lists| number(outcome, lists, 5, |n| 2 * n))),
    slip(
        "a word beyond the addresses",
        How::Leave(|outcome, lists| {
            if let Outcome::Accepted(l) = outcome
                && l.ty == IP
                && let Some(place) = lists.values.lent().get_mut(2 * l.values.len())
            {
                *place = 0;
            }
        }),
    ),
    slip(
        "high words one after another",
        How::Leave(|outcome, lists| {
            if let Outcome::Accepted(l) = outcome
                && l.ty == IP
            {
                let high = l.values.iter().map(|v| (v >> 64) as u64);
                lists.values.lent().iter_mut().zip(high).for_each(|(place, word)| *place = word);
            }
        }),
    ),
    slip("listing: values counted in words", How::List(|l| listed(l, l.words().len(), l.words()))),
    slip("listing: an address as one number", How::List(|l| listed(l, l.values.len(), l.values.clone()))),
    slip(
        "listing: the low word first",
        How::List(|l| {
            let mut words = l.words();
            words.chunks_mut(width(l.ty)).for_each(|pair| pair.reverse());
            listed(l, l.values.len(), words)
        }),
    ),
];

pub fn two_if_unknown(ty: u32) -> usize {
    if table::known_type(ty) { width(ty) } else { 2 }
}

/// Check 2 by another number of words that a value of a type has.
pub fn lengths_by(call: &Call, words: fn(u32) -> usize) -> bool {
    let s = call.sections;
    let sum = |words: fn(u32) -> usize| s.records.iter().map(|r| r[5] as usize * words(r[0])).sum::<usize>();
    sum(words) != s.values.len() || {
        let mut other = s.clone();
        other.values = vec![0; sum(width)];
        table::section_lengths(&Call::new(&other, call.lent))
    }
}

/// As many values as there are words.
pub fn in_words(s: &Seg) -> Seg {
    Seg { values: vec![0; s.values.len() * width(s.ty)], ..s.clone() }
}

/// A column of addresses without terms.
pub fn termless(s: &Seg) -> Seg {
    Seg { terms: if s.ty == IP { vec![] } else { s.terms.clone() }, ..s.clone() }
}

/// Check 10 of another input.
fn types_if(call: &Call, change: fn(&mut Input)) -> bool {
    let mut input = call.input().clone();
    change(&mut input);
    table::types(&Call::new(&input.sections(), call.lent))
}

/// Addresses as if they were of another type.
fn as_type(input: &mut Input, ty: u32) {
    input.segs.iter_mut().filter(|s| s.ty == IP).for_each(|s| s.ty = ty);
    if input.required == IP {
        input.required = ty;
    }
}

/// Check 11 by another space for the values.
fn space_by(call: &Call, values: fn(&Listing) -> usize) -> bool {
    let (mut lent, l) = (call.lent, call.joined());
    let enough = lent.values >= values(l);
    lent.values = l.words().len();
    let others = table::space(&Call::new(call.sections, lent));
    others || !enough
}

/// Cuts the words as if a segment's began where `step` of each segment before it leads.
fn misread(input: &mut Input, step: fn(&Seg) -> usize) {
    let words = input.sections().values;
    let mut at = 0;
    for s in &mut input.segs {
        let next = at + step(s);
        s.values = values_of(s.ty, &words[at..at + s.values.len() * width(s.ty)]);
        at = next;
    }
}

/// Of these kinds, address i is words i and i + 1.
fn overlap(input: &mut Input, kinds: &[u32]) {
    for s in input.segs.iter_mut().filter(|s| s.ty == IP && kinds.contains(&s.kind)) {
        let pairs: Vec<u64> = words_of(IP, &s.values).windows(2).flatten().copied().collect();
        let n = s.values.len();
        s.values = values_of(IP, &pairs[..2 * n]);
    }
}

fn each(l: &mut Listing, f: fn(u128) -> u128) {
    if l.ty == IP {
        l.values.iter_mut().for_each(|v| *v = f(*v));
    }
}

/// Of each row's words so many, by the number of its addresses, and zeros for the others.
fn by_rows(l: &mut Listing, kept: fn(usize) -> usize) {
    if l.ty != IP {
        return;
    }
    let mut words = l.words();
    let mut rows: Vec<usize> = l.offsets.iter().map(|&offset| 2 * offset as usize).collect();
    if l.class < 2 {
        rows = (0..=l.values.len()).map(|i| 2 * i).collect();
    }
    for row in rows.windows(2) {
        let addresses = (row[1] - row[0]) / 2;
        words[row[0]..row[1]].iter_mut().skip(kept(addresses)).for_each(|word| *word = 0);
    }
    l.values = values_of(IP, &words);
}

/// The same column as one of class 2.
fn multivalued(l: &mut Listing) {
    if l.class == 0 {
        l.ids = (0..l.rows).collect();
    }
    if l.class < 2 {
        l.offsets = (0..=l.ids.len() as u32).collect();
    }
    l.class = 2;
}

/// Another number of an accepted column of addresses.
fn number(outcome: &Outcome, lists: &mut Lists, place: usize, f: fn(u64) -> u64) {
    if let Outcome::Accepted(l) = outcome
        && l.ty == IP
    {
        let number = &mut lists.numbers.lent()[place];
        *number = f(*number);
    }
}

/// The listing with another line of values.
fn listed<T: ToString>(l: &Listing, count: usize, elements: Vec<T>) -> String {
    let words = [count.to_string()].into_iter().chain(elements.iter().map(T::to_string));
    let values = format!("values {}", words.collect::<Vec<_>>().join(" "));
    let line = |line: &str| if line.starts_with("values ") { values.clone() } else { line.to_string() };
    l.print().lines().map(|text| line(text) + "\n").collect()
}
