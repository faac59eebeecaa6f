//! The stored sample of the joining program, input by input: 64-bit lengths before each input, the
//! listings one after another.
use jadmirus::{Refusal, Sections, WireError, explain, sheet};
use std::fs;
use std::path::PathBuf;

const PROGRAM_BYTES: usize = 65_536;

fn stored(name: &str) -> Vec<u8> {
    let path = PathBuf::from(env!("CARGO_MANIFEST_DIR"))
        .join("../../crates/replay")
        .join(name);
    fs::read(path).unwrap()
}

fn inputs() -> Vec<Vec<u8>> {
    let stored = stored("stdin");
    let (mut rest, mut inputs) = (&stored[..], Vec::new());
    while let Some((length, behind)) = rest.split_first_chunk::<8>() {
        let (input, behind) = behind.split_at(u64::from_le_bytes(*length) as usize);
        inputs.push(input.to_vec());
        rest = behind;
    }
    inputs
}

fn listings() -> Vec<String> {
    let stored = String::from_utf8(stored("stdout")).unwrap();
    let mut listings: Vec<String> = Vec::new();
    for line in stored.lines() {
        if line.starts_with("answer ") {
            listings.push(String::new());
        }
        let last = listings.last_mut().unwrap();
        last.push_str(line);
        last.push('\n');
    }
    listings
}

fn refused(answer: u32) -> String {
    format!("answer {answer}\n")
}

/// The listing, and the sections if there are any.
fn listing(input: &[u8]) -> (String, Option<Sections>) {
    let sections = match Sections::read_wire(input) {
        Ok(sections) => sections,
        Err(WireError::Fault(_)) => return (refused(2), None),
        Err(WireError::Io(error)) => panic!("{error}"),
    };
    let mut listing = Vec::new();
    match sections.join() {
        Ok(joined) => joined.write_listing(&mut listing).unwrap(),
        Err(refusal) => listing = refused(refusal.number()).into_bytes(),
    }
    (String::from_utf8(listing).unwrap(), Some(sections))
}

#[test]
fn sample() {
    let (inputs, listings) = (inputs(), listings());
    assert_eq!(inputs.len(), listings.len());
    assert!(inputs.len() >= 400);
    for (i, (input, expected)) in inputs.iter().zip(&listings).enumerate() {
        let (listing, sections) = listing(input);
        let Some(sections) = sections else {
            assert_eq!(&listing, expected, "input {i}");
            continue;
        };
        // The program has bounds of its own: input bytes and working bytes.
        if input.len() > PROGRAM_BYTES {
            assert_eq!(expected, &refused(2), "input {i}");
        } else if expected != &refused(Refusal::WorkingSpace.number()) {
            assert_eq!(&listing, expected, "input {i}");
        }
        explained(&sections, &listing);
        comes_back(&sections, input);
    }
}

/// The explanation gives the library's answer.
fn explained(sections: &Sections, listing: &str) {
    let number = explain::join(sections).map_or(0, |fault| fault.refusal.number());
    assert_eq!(listing.lines().next(), Some(&*format!("answer {number}")));
}

/// A sheet keeps everything.
fn comes_back(sections: &Sections, input: &[u8]) {
    let (mut text, mut wire) = (Vec::new(), Vec::new());
    sheet::write(sections, &mut text).unwrap();
    let again = sheet::read(&text[..]).unwrap();
    assert_eq!(&again, sections);
    again.write_wire(&mut wire).unwrap();
    assert_eq!(wire, input);
}
