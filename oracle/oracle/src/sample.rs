//! The stored sample: small inputs of the joining program and the listings that it must print, for
//! a replay without Rust.
use std::collections::{BTreeMap, HashSet};

use crate::cases::{input, sheets};
use crate::compare::{expected_text, program_inputs};
use crate::model;
use crate::table;
use crate::wire::{Input, Outcome, Seg};

/// The longest input taken from the random ones, in bytes.
const LONGEST: usize = 424;

/// Each answer by hand, the readings of document 01 at their edges among them.
const BY_HAND: &[&str] = &[
    // 0: the greatest row count, alive sets without words, nothing alive
    "0 255 255/0/4294967294",
    "0 255 1/2/4294967290/ids=0,4294967289/val=7,8 255/0/4",
    "1 255 255/0/0/alive=",
    "1 1 255/0/3/alive=5 addr=0:2,0:0",
    "0 0 2/0/1",
    "1 0 1/1/1/val=9223372036854775808/alive=0",
    "0 255 4/1/1/val=0/terms=-,0x00,a,aa,b",
    "1 255 4/1/2/val=1,0/terms=-,a/alive=1 4/1/1/val=0/terms=- addr=1:0,0:0",
    // a withdrawn value counts for the type
    "1 255 1/1/2/val=9223372036854775807,1/alive=2 0/1/1/val=-1 addr=1:0,0:1",
    // addresses: corners in both words, equal halves, a required type, dropped ones
    "0 255 6/1/6/val=0:0,-1:-1,0:-1,-1:0,0:281473902969345,0:1",
    "0 255 6/4/3/ids=0,2/off=0,3,5/val=5:1,5:2,5:1,1:5,2:5 255/0/2 6/1/1/val=7:7",
    "1 255 6/1/3/val=1:2,3:4,5:6 6/2/3/ids=0,2/val=7:8,9:10 addr=1:2,0:2,1:1,0:0,1:0,0:1",
    "1 6 6/1/1/val=3:4/alive=0 255/0/1 addr=1:0",
    "0 6 6/0/0",
    // doubles: ties to even, both ways and both signs, and the ends
    "0 2 1/1/6/val=9007199254740993,9007199254740995,18446744073709551615,18446744073709550592,18446744073709550591,1",
    "0 2 0/1/6/val=-9007199254740993,-9007199254740995,0x8000000000000000,9223372036854775807,-1,0",
    // 3
    "0 255 8/1/1/val=0",
    "2 255",
    "0 8",
    "0 256",
    "0 255 1/5/0",
    "0 255 255/1/0",
    "0 255 255/0/0/terms=a",
    // 19: after 3 and before 4, whatever the lists are
    "0 255 1/3/3/off=0,2,2,3/val=7,8,9",
    "1 255 1/3/3/off=0,2,2,3/val=7,8,9/alive=5 addr=0:2,0:0",
    "0 255 1/3/0/off=0",
    "0 255 1/3/2/off=0,2,1/val=0",
    "0 255 1/3/4294967295",
    "0 255 6/3/1/off=0,1/val=3:4",
    "0 255 1/3/1/off=0,1/val=7 1/2/3/ids=1,1/val=0,0",
    "0 255 1/2/3/ids=1,1/val=0,0 5/3/1/off=0,1/val=2",
    "0 255 1/3/1/off=0,1/val=7 9/1/1/val=0",
    "0 255 255/3/1/off=0,1/val=7",
    // 4
    "0 255 1/2/3/ids=1,1/val=0,0",
    "0 255 1/2/3/ids=2,1/val=0,0",
    "0 255 1/2/1/ids=1/val=0",
    "0 255 1/1/2/val=0",
    "0 255 1/0/1/val=0",
    "0 255 1/4/1/ids=0/off=1,1/val=0",
    "0 255 1/4/2/ids=0,1/off=0,2,1/val=0",
    "0 255 1/4/2/ids=0,1/off=0,1,1/val=0",
    "0 255 1/4/4294967295",
    "0 255 6/1/4/val=1:2,3:4",
    "0 255 6/4/1/ids=0/off=0,2/val=3:4",
    // 5
    "0 255 4/1/1/val=0/terms=b,a",
    "0 255 4/1/1/val=0/terms=a,a",
    "0 255 3/1/1/val=1/terms=a",
    "0 255 5/1/1/val=2",
    "0 255 1/1/1/val=0/terms=a",
    "0 255 4/0/1/terms=a",
    "0 255 6/1/1/val=3:4/terms=a",
    "0 255 6/1/1/val=1:1 5/1/1/val=7",
    // 5: an untrue pair, in both modes, of each segment by itself, and its true neighbours
    "0 255 0/1/2/val=-1,1/pair=1:-1",
    "0 255 0/1/2/val=-1,1",
    "0 255 1/1/2/val=-1,1/pair=-1:1",
    "0 255 1/1/2/val=-1,1",
    "0 255 1/1/2/val=3,4/pair=0:4",
    "0 255 1/1/2/val=3,4/pair=3:5",
    "0 255 1/1/2/val=3,4/pair=0:0",
    "0 255 1/1/1/val=4294967303/pair=7:4294967303",
    "1 255 1/1/2/val=3,9/alive=1 addr=0:0",
    "1 255 1/1/2/val=3,9/alive=1/pair=3:3 addr=0:0",
    "1 255 1/1/1/val=9/alive=0/pair=0:0 1/1/1/val=5 addr=1:0",
    "0 255 1/1/1/val=3/pair=3:4 1/1/1/val=4/pair=3:4",
    "0 255 7/1/1/val=5/pair=5:5",
    "0 255 1/2/1/pair=1:0",
    "0 255 255/0/1/pair=0:1",
    // and after 3, 19 and 4, before 6 and 10
    "0 255 255/1/0/pair=0:1",
    "0 255 1/3/0/off=0/pair=1:1",
    "0 255 1/2/3/ids=1,1/val=7,7/pair=0:0",
    "0 255 1/1/1/val=7/pair=6:7/count=0",
    "0 255 4/1/1/val=0/terms=a 5/1/1/val=1/pair=1:1",
    // 6
    "1 255 1/1/1/val=0/alive=2",
    "0 255 1/1/1/val=0/alive=1",
    "0 255 255/0/0/alive=",
    // 6: a wrong number of alive rows, in both modes, of each segment by itself, before 7, 9 and 10
    "0 255 1/1/1/val=7/count=0",
    "0 255 1/1/1/val=7/count=2",
    "1 255 1/1/1/val=7/count=0 addr=0:0",
    "1 255 1/1/2/val=7,8/alive=2/count=2 addr=0:1",
    "1 255 1/1/2/val=7,8/alive=2/count=0 addr=0:1",
    "0 255 1/1/1/val=7/count=0 1/1/1/val=8/count=2",
    "1 255 1/1/2/val=7,8/alive=1/count=2 1/1/2/val=7,8/alive=3/count=1 addr=0:0,1:0,1:1",
    "0 255 255/0/3/count=0",
    "0 255 255/0/4294967295/count=0",
    "1 255 255/0/1/count=2",
    "0 255 4/1/1/val=0/terms=a 5/1/1/val=1/count=0",
    // and after 3, 19, 4 and 5
    "0 255 8/1/1/val=0/count=0",
    "0 255 1/3/0/off=0/count=1",
    "0 255 1/1/2/val=0/count=1",
    "0 255 5/1/1/val=2/count=0",
    // 7
    "0 255 255/0/4294967295",
    "1 255 255/0/4294967294 255/0/1",
    // 8
    "1 255 255/0/65537",
    "1 255 4/2/65535/terms=a,b",
    // 9
    "1 255 255/0/1 addr=0:0,0:0",
    "1 255 255/0/1 addr=0:1",
    "1 255 255/0/1 addr=1:0",
    "1 255 255/0/1/alive=0 addr=0:0",
    "1 255 255/0/2/alive=3 addr=0:1",
    "0 255 255/0/1 addr=0:0",
    // 10
    "0 255 4/1/1/val=0/terms=a 5/1/1/val=1",
    "0 255 4/0/1 5/1/1/val=1",
    "0 5 4/0/1",
    "0 1 0/1/1/val=-1",
    "0 0 2/1/1/val=0",
    "1 0 1/1/2/val=1,9223372036854775808/alive=1 addr=0:0",
    "0 255 6/1/1/val=1:2 1/1/1/val=9",
    "0 255 6/1/1/val=7:7 5/1/1/val=1",
    "0 1 6/1/1/val=0:1",
    "0 6 1/0/1",
];

/// Wire forms that are answered with 2, most of them before all other checks, and their neighbours.
fn wire_forms() -> Vec<Vec<u8>> {
    let words = |list: &[u64]| list.iter().flat_map(|w| w.to_le_bytes()).collect::<Vec<u8>>();
    let good = [2, 0, 255, 0, 0, 0, 0, 0, 0, 0, 0];
    let with = |place: usize, word: u64| {
        let mut list = good;
        list[place] = word;
        words(&list)
    };
    let mut forms = vec![
        vec![],
        vec![2],
        words(&good)[..87].to_vec(),
        [words(&good), vec![0]].concat(),
        [words(&good), vec![0; 8]].concat(),
        with(0, 0),
        with(0, 3),
        with(1, 1 << 32),
        with(1, 2),
        with(2, 1 << 32),
        with(2, u32::MAX as u64),
    ];
    for place in 3..11 {
        forms.push(with(place, 1));
        forms.push(with(place, 1 << 61));
    }
    // eleven times the second wraps to 1
    for wide in [with(3, 1 << 58), with(3, 0x2E8BA2E8BA2E8BA3), with(3, u64::MAX), with(10, 1 << 60)] {
        forms.push(wide);
    }
    // the number of alive rows in 33 bits, the low ones right or not, and a wrong one in 32
    for count in [1 << 32 | 3, 1 << 32, u32::MAX as u64] {
        forms.push(words(&[2, 0, 255, 1, 255, 0, 3, 0, 0, 0, 0, 0, count, 0, 0, 0, 0, 0, 0, 0, 0, 0]));
    }
    // a pair of any words is not too wide: true, and untrue in one of the four halves; a record of nine numbers is cut
    for [least, greatest] in
        [[-2i64 as u64; 2], [u32::MAX as u64 - 1, -2i64 as u64], [-2i64 as u64, u64::MAX]]
    {
        let record = [2, 0, 255, 1, 1, 1, 1, 0, 0, 1, 0, 0, 1, least, greatest, 0, 0];
        forms.push(words(&[&record[..], &[1, -2i64 as u64, 0, 0, 0, 0]].concat()));
    }
    forms.push(words(&[2, 0, 255, 1, 255, 0, 3, 0, 0, 0, 0, 0, 3, 0, 0, 0, 0, 0, 0, 0]));
    // too wide: a row id, a term byte, an address; not too wide: a value, which gives 2 by the
    // sums, as it isn't announced
    forms.push(words(&[2, 0, 255, 0, 1, 1 << 32, 0, 0, 0, 0, 0, 0]));
    forms.push(words(&[2, 0, 255, 0, 0, 0, 0, 0, 1, 256, 0, 0]));
    forms.push(words(&[2, 1, 255, 0, 0, 0, 0, 0, 0, 0, 1, 0, 1 << 32]));
    forms.push(words(&[2, 0, 255, 0, 0, 0, 1, u64::MAX, 0, 0, 0, 0]));
    // a value of type 6 with one word, with two and with three, and one of type 8 with one and with two
    for (ty, count) in [(6, 1), (6, 2), (6, 3), (8, 1), (8, 2)] {
        let record = [2, 0, 255, 1, ty, 1, 1, 0, 0, 1, 0, 0, 1, 0, 0, 0, 0];
        let values = &[count, 3, 4, 5][..1 + count as usize];
        forms.push(words(&[&record, values, &[0; 4]].concat()));
    }
    forms
}

/// What kind of case it is: the sample has some of each.
fn key(outcome: &Outcome, input: Option<&Input>) -> String {
    match (outcome, input) {
        (Outcome::Accepted(l), Some(input)) => {
            let held = || input.segs.iter().filter(|s| model::held(s));
            let terms: HashSet<&Vec<u8>> = held().flat_map(|s| &s.terms).collect();
            format!(
                "0 mode {} type {} class {}{}{}{}{}",
                input.mode,
                l.ty,
                l.class,
                if input.segs.iter().any(|s| s.alive.is_some()) { " alive" } else { "" },
                if input.required != 255 { " required" } else { "" },
                if held().any(|s| s.ty != l.ty) { " coerced" } else { "" },
                if terms.len() > l.terms.len() { " unkept" } else { "" },
            )
        }
        (outcome, Some(input)) => format!("{} mode {}", outcome.number(), input.mode),
        (outcome, None) => format!("{} wire", outcome.number()),
    }
}

/// The inputs, each after its length (64 bits, little-endian), and the listings, one after another.
pub fn sample(seed: u64, count: usize) -> Result<(Vec<u8>, Vec<u8>), String> {
    let mut inputs: Vec<Vec<u8>> = sheets().map(|(_, input, _)| input.sections().encode()).collect();
    inputs.extend(BY_HAND.iter().map(|words| input(words).sections().encode()));
    inputs.extend(wire_forms());
    // The long ones stand last: 257 segments, and one word more than 65,536 bytes.
    let segs = vec![Seg { ty: 255, ..Seg::default() }; 257];
    let many = Input { mode: 0, required: 255, segs, addresses: vec![] };
    let long = Seg { ty: 1, kind: 1, rows: 8_171, values: vec![0; 8_171], ..Seg::default() };
    let long = Input { mode: 0, required: 255, segs: vec![long], addresses: vec![] };
    let last = [many.sections().encode(), long.sections().encode()];
    assert_eq!(last[1].len(), 65_544);

    let mut of_key: BTreeMap<String, u64> = BTreeMap::new();
    let mut seen: HashSet<Vec<u8>> = inputs.iter().cloned().collect();
    let cut = |bytes: &[u8]| {
        let sections = table::program_sections(bytes)?;
        let call = table::Call::new(&sections, table::PROGRAM);
        if table::section_lengths(&call) { None } else { Some(sections.cut()) }
    };
    let mut most = 1;
    let mut case = 0;
    while inputs.len() + last.len() < count {
        case += 1;
        // Once new kinds have become rare, one more of each.
        if case % 20_000 == 0 {
            most += 1;
        }
        for bytes in program_inputs(seed, case) {
            if bytes.len() > LONGEST || inputs.len() + last.len() == count || seen.contains(&bytes) {
                continue;
            }
            let outcome = table::program(&bytes);
            let taken = of_key.entry(key(&outcome, cut(&bytes).as_ref())).or_default();
            // There are fewer kinds of refusals, and more in each.
            if *taken < if outcome.number() == 0 { most } else { 4 * most } {
                *taken += 1;
                seen.insert(bytes.clone());
                inputs.push(bytes);
            }
        }
    }
    inputs.extend(last);

    let (mut input_file, mut listing_file) = (Vec::new(), Vec::new());
    let mut numbers: BTreeMap<u32, u32> = BTreeMap::new();
    for bytes in &inputs {
        // Here the crate is asked, and disagreement with the model is an error.
        let (outcome, text) = expected_text(bytes)?;
        *numbers.entry(outcome.number()).or_default() += 1;
        input_file.extend((bytes.len() as u64).to_le_bytes());
        input_file.extend(bytes);
        listing_file.extend(text.as_bytes());
    }
    for (name, listing) in sheets().map(|(name, _, listing)| (name, listing)) {
        assert!(String::from_utf8_lossy(&listing_file).contains(listing), "{name}");
    }
    eprintln!("{} inputs, {} bytes; listings {} bytes", inputs.len(), input_file.len(), listing_file.len());
    eprintln!("by answer: {numbers:?}; {} kinds of random ones, at most {most} of each", of_key.len());
    Ok((input_file, listing_file))
}
