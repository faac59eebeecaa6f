//! A sheet's entries.
use super::SheetFault;
use super::draft::{Draft, Seen};
use super::elements;
use super::tokens::Token;
use crate::codes::{NO_TYPE, mode};
use crate::sections::{Record, Sections};

/// The words that begin an entry.
#[derive(Clone, Copy, Debug, PartialEq, Eq)]
pub enum Keyword {
    Mode,
    Required,
    Segment,
    Type,
    Kind,
    Rows,
    Flag,
    Ids,
    Offsets,
    Values,
    Terms,
    Alive,
    Withdrawn,
    AliveRows,
    Least,
    Greatest,
    Addresses,
    Record,
    TermLengths,
    TermBytes,
}

impl Keyword {
    const ALL: [(Keyword, &'static str); 20] = [
        (Keyword::Mode, "mode"),
        (Keyword::Required, "required"),
        (Keyword::Segment, "segment"),
        (Keyword::Type, "type"),
        (Keyword::Kind, "kind"),
        (Keyword::Rows, "rows"),
        (Keyword::Flag, "flag"),
        (Keyword::Ids, "ids"),
        (Keyword::Offsets, "offsets"),
        (Keyword::Values, "values"),
        (Keyword::Terms, "terms"),
        (Keyword::Alive, "alive"),
        (Keyword::Withdrawn, "withdrawn"),
        (Keyword::AliveRows, "alive-rows"),
        (Keyword::Least, "least"),
        (Keyword::Greatest, "greatest"),
        (Keyword::Addresses, "addresses"),
        (Keyword::Record, "record"),
        (Keyword::TermLengths, "term-lengths"),
        (Keyword::TermBytes, "term-bytes"),
    ];

    pub fn of(word: &str) -> Option<Keyword> {
        Keyword::ALL
            .into_iter()
            .find(|(_, w)| *w == word)
            .map(|(keyword, _)| keyword)
    }

    pub fn word(self) -> &'static str {
        Keyword::ALL
            .into_iter()
            .find(|(k, _)| *k == self)
            .map_or("", |(_, word)| word)
    }

    /// How many words the entry takes; none if it takes any number.
    fn words(self) -> Option<usize> {
        match self {
            Keyword::Segment => Some(0),
            Keyword::Record => Some(11),
            Keyword::Mode | Keyword::Required => Some(1),
            Keyword::Type | Keyword::Kind | Keyword::Rows => Some(1),
            Keyword::Flag | Keyword::AliveRows => Some(1),
            Keyword::Least | Keyword::Greatest => Some(1),
            _ => None,
        }
    }
}

/// The entry being read.
struct Entry {
    keyword: Keyword,
    line: usize,
    words: usize,
}

#[derive(Default)]
pub struct Reader {
    entry: Option<Entry>,
    seen: Seen,
    mode: Option<u32>,
    required: Option<u32>,
    /// The segment being read; those before it are in the sections.
    draft: Option<Draft>,
    /// The sections are given as wholes, not by segments.
    whole: bool,
    record: Vec<u64>,
    sections: Sections,
}

impl Reader {
    /// Takes the next word.
    pub fn take(&mut self, token: Token<'_>, line: usize) -> Result<(), SheetFault> {
        if let Token::Word(word) = token
            && let Some(keyword) = Keyword::of(word)
        {
            self.complete()?;
            return self.begin(keyword, line);
        }
        let Some(entry) = &mut self.entry else {
            return Err(SheetFault {
                line,
                text: no_entry(&token),
            });
        };
        entry.words += 1;
        let keyword = entry.keyword;
        let result = match keyword.words() {
            Some(words) if entry.words > words => Err(too_many(&token, words)),
            _ => self.element(keyword, token),
        };
        result.map_err(|text| SheetFault {
            line,
            text: format!("{}: {text}", keyword.word()),
        })
    }

    /// The sections, once the sheet has ended in this line.
    pub fn finish(mut self, line: usize) -> Result<Sections, SheetFault> {
        self.complete()?;
        if self.entry.is_none() {
            return Err(SheetFault {
                line,
                text: "there is nothing in this sheet".to_string(),
            });
        }
        if let Some(draft) = self.draft.take() {
            draft.finish(&mut self.sections)?;
        }
        Ok(Sections {
            mode: self.mode.unwrap_or(mode::STACKED),
            required: self.required.unwrap_or(NO_TYPE),
            ..self.sections
        })
    }

    /// Whether the entry that ends has all its words.
    fn complete(&self) -> Result<(), SheetFault> {
        let Some(Entry {
            keyword,
            line,
            words,
        }) = self.entry
        else {
            return Ok(());
        };
        match keyword.words() {
            Some(wanted) if words < wanted => {
                let what = if wanted == 1 {
                    "a word"
                } else {
                    "eleven numbers"
                };
                let text = format!("'{}' wants {what} after it", keyword.word());
                Err(SheetFault { line, text })
            }
            _ => Ok(()),
        }
    }

    fn begin(&mut self, keyword: Keyword, line: usize) -> Result<(), SheetFault> {
        self.entry = Some(Entry {
            keyword,
            line,
            words: 0,
        });
        let fault = |text| SheetFault { line, text };
        match keyword {
            // They may stand again if they say the same, so that sheets can be put together.
            Keyword::Mode | Keyword::Required => Ok(()),
            Keyword::Segment if self.whole => Err(fault(MIXED.to_string())),
            Keyword::Segment => match self.draft.replace(Draft::new(line)) {
                Some(draft) => draft.finish(&mut self.sections),
                None => Ok(()),
            },
            Keyword::Addresses => self.seen.add(keyword, line).map_err(fault),
            _ => match &mut self.draft {
                Some(draft) if !keyword.is_whole() => draft.begin(keyword, line).map_err(fault),
                Some(_) => Err(fault(MIXED.to_string())),
                None => self.begin_whole(keyword, line).map_err(fault),
            },
        }
    }

    fn begin_whole(&mut self, keyword: Keyword, line: usize) -> Result<(), String> {
        self.whole = true;
        match keyword {
            Keyword::Record => Ok(()),
            Keyword::Ids | Keyword::Offsets | Keyword::Values | Keyword::Alive => {
                self.seen.add(keyword, line)
            }
            Keyword::TermLengths | Keyword::TermBytes => self.seen.add(keyword, line),
            _ => Err(format!(
                "'{}' stands before the first 'segment'",
                keyword.word()
            )),
        }
    }

    fn element(&mut self, keyword: Keyword, token: Token<'_>) -> Result<(), String> {
        let sheet_wide = matches!(
            keyword,
            Keyword::Mode | Keyword::Required | Keyword::Addresses
        );
        if let (Some(draft), false) = (&mut self.draft, sheet_wide) {
            return draft.take(keyword, token);
        }
        let Token::Word(word) = token else {
            return Err("a quoted text can't stand here".to_string());
        };
        let s = &mut self.sections;
        match keyword {
            Keyword::Mode => same(&mut self.mode, elements::mode(word)?)?,
            Keyword::Required => same(&mut self.required, elements::typ(word)?)?,
            Keyword::Addresses => s.addresses.push(elements::address(word)?),
            Keyword::Ids => s.ids.push(elements::number(word)?),
            Keyword::Offsets => s.offsets.push(elements::number(word)?),
            Keyword::Values => s.values.push(elements::number(word)?),
            Keyword::Alive => s.alive.push(elements::number(word)?),
            Keyword::TermLengths => s.term_lengths.push(elements::number(word)?),
            Keyword::TermBytes => s.term_bytes.extend(elements::hex_bytes(word)?),
            _ => self.record_number(word)?,
        }
        Ok(())
    }

    /// Nine numbers of 32 bits, and the least and the greatest value as words.
    fn record_number(&mut self, word: &str) -> Result<(), String> {
        self.record.push(match self.record.len() {
            0..9 => elements::number::<u32>(word)?.into(),
            _ => elements::number(word)?,
        });
        if let Ok(numbers) = <[u64; 11]>::try_from(&self.record[..]) {
            let record = Record::of_numbers(numbers);
            self.sections.records.push(record);
            self.record.clear();
        }
        Ok(())
    }
}

impl Keyword {
    /// Whether the entry belongs to sections given as wholes only.
    fn is_whole(self) -> bool {
        matches!(
            self,
            Keyword::Record | Keyword::TermLengths | Keyword::TermBytes
        )
    }
}

const MIXED: &str = "a sheet has either segments, or records and sections as wholes";

fn no_entry(token: &Token<'_>) -> String {
    match token {
        Token::Word(word) => {
            let words: Vec<&str> = Keyword::ALL.iter().map(|(_, word)| *word).collect();
            format!(
                "'{word}' begins no entry; the words that do are {}",
                words.join(", ")
            )
        }
        Token::Text(_) => "a quoted text stands before the first entry".to_string(),
    }
}

/// Often a misspelt word that was to begin an entry.
fn too_many(token: &Token<'_>, words: usize) -> String {
    let takes = match words {
        0 => "nothing after it but entries".to_string(),
        1 => "one word".to_string(),
        _ => format!("{words} numbers"),
    };
    match token {
        Token::Word(word) => format!("takes {takes}, and '{word}' begins no entry"),
        Token::Text(_) => format!("takes {takes}, and no quoted text"),
    }
}

fn same(slot: &mut Option<u32>, code: u32) -> Result<(), String> {
    match slot.replace(code) {
        Some(before) if before != code => Err("it is given twice, and differs".to_string()),
        _ => Ok(()),
    }
}
