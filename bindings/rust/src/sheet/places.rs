//! Where the entries of a sheet's segments stand in its text, and the text with some of them changed.
use super::reader::Keyword;
use super::tokens::{Token, tokens};
use std::io::{self, Write};
use std::ops::Range;

/// An entry of a segment. Its elements, if it has any that are no quoted texts, stand from the
/// first to the last of them.
pub struct Entry {
    keyword: Keyword,
    pub word: Range<usize>,
    pub elements: Option<Range<usize>>,
}

impl Entry {
    /// From the keyword to the last element.
    pub fn whole(&self) -> Range<usize> {
        let end = self.elements.as_ref().unwrap_or(&self.word).end;
        self.word.start..end
    }

    fn take(&mut self, element: Range<usize>) {
        let elements = self.elements.get_or_insert(element.clone());
        elements.end = element.end;
    }
}

/// One segment's entries.
#[derive(Default)]
pub struct Places(Vec<Entry>);

impl Places {
    pub fn entry(&self, keyword: Keyword) -> Option<&Entry> {
        self.0.iter().find(|entry| entry.keyword == keyword)
    }
}

/// The places of each segment of a sheet that can be read.
pub fn segments(text: &str) -> Vec<Places> {
    let mut segments: Vec<Places> = Vec::new();
    let words = text
        .trim_start_matches('\u{feff}')
        .split('\n')
        .flat_map(tokens)
        .filter_map(|token| match token {
            Ok(Token::Word(word)) => Some(word),
            _ => None,
        });
    for word in words {
        let start = word.as_ptr() as usize - text.as_ptr() as usize;
        let place = start..start + word.len();
        let keyword = Keyword::of(word);
        if keyword == Some(Keyword::Segment) {
            segments.push(Places::default());
            continue;
        }
        let Some(Places(entries)) = segments.last_mut() else {
            continue;
        };
        match (keyword, entries.last_mut()) {
            (Some(keyword), _) => entries.push(Entry {
                keyword,
                word: place,
                elements: None,
            }),
            (None, Some(entry)) => entry.take(place),
            (None, None) => {}
        }
    }
    segments
}

/// What is to stand at a place of the text.
pub type Edit = (Range<usize>, Vec<u8>);

/// Writes the text with these edits, whose places don't overlap; all else stays as it stands.
pub fn write_edited(text: &str, mut edits: Vec<Edit>, out: &mut dyn Write) -> io::Result<()> {
    edits.sort_by_key(|(place, _)| place.start);
    let mut end = 0;
    for (place, new) in edits {
        out.write_all(&text.as_bytes()[end..place.start])?;
        out.write_all(&new)?;
        end = place.end;
    }
    out.write_all(&text.as_bytes()[end..])
}
