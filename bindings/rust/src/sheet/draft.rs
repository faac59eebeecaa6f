//! A segment while it is read.
use super::SheetFault;
use super::elements;
use super::reader::Keyword;
use super::tokens::Token;
use crate::alive::{AliveSet, alive_number, words_for};
use crate::codes::{ColumnType, NO_TYPE, kind, words_per_value};
use crate::pair::Pair;
use crate::sections::{Record, Sections};
use crate::terms::Terms;
use std::collections::{BTreeMap, HashMap};

/// The lines in which entries begin: each may stand once.
#[derive(Default)]
pub struct Seen(Vec<(Keyword, usize)>);

impl Seen {
    pub fn add(&mut self, keyword: Keyword, line: usize) -> Result<(), String> {
        if let Some(before) = self.line_of(keyword) {
            return Err(format!(
                "'{}' stands before, in line {before}",
                keyword.word()
            ));
        }
        self.0.push((keyword, line));
        Ok(())
    }

    pub fn line_of(&self, keyword: Keyword) -> Option<usize> {
        self.0
            .iter()
            .find(|(k, _)| *k == keyword)
            .map(|(_, line)| *line)
    }
}

#[derive(Default)]
pub struct Draft {
    /// The line in which the segment begins.
    line: usize,
    seen: Seen,
    typ: Option<u32>,
    kind: Option<u32>,
    rows: Option<u32>,
    flag: Option<u32>,
    ids: Vec<u32>,
    offsets: Vec<u32>,
    /// The values' words.
    values: Vec<u64>,
    /// Values written as texts, each with its number in the order of coming; then the values are
    /// these numbers.
    texts: BTreeMap<Vec<u8>, u64>,
    terms: Terms,
    alive: Vec<u64>,
    withdrawn: Vec<u32>,
    /// The number of alive rows, if it is given; else they are counted.
    alive_rows: Option<u32>,
    /// The least and the greatest value, if they are given; else they are found.
    least: Option<u64>,
    greatest: Option<u64>,
}

impl Draft {
    pub fn new(line: usize) -> Draft {
        Draft {
            line,
            ..Draft::default()
        }
    }

    /// Begins an entry.
    pub fn begin(&mut self, keyword: Keyword, line: usize) -> Result<(), String> {
        self.seen.add(keyword, line).map_err(|text| {
            format!("{text}, for the same segment: a new one begins with 'segment'")
        })?;
        match keyword {
            Keyword::Values if self.typ.is_none() => {
                Err("the segment's 'type' must stand before its values".to_string())
            }
            Keyword::Least | Keyword::Greatest if self.typ.is_none() => Err(format!(
                "the segment's 'type' must stand before its {} value",
                keyword.word()
            )),
            _ => Ok(()),
        }
    }

    /// Takes a word of an entry.
    pub fn take(&mut self, keyword: Keyword, token: Token<'_>) -> Result<(), String> {
        if let (Keyword::Values, Token::Text(bytes)) = (keyword, &token) {
            return self.take_text(bytes);
        }
        if keyword == Keyword::Terms {
            let bytes = match token {
                Token::Text(bytes) => bytes,
                Token::Word(word) => elements::hex_bytes(word)?,
            };
            self.terms.push(&bytes);
            return Ok(());
        }
        let Token::Word(word) = token else {
            return Err("a quoted text can't stand here".to_string());
        };
        match keyword {
            Keyword::Type => self.typ = Some(elements::typ(word)?),
            Keyword::Kind => self.kind = Some(elements::kind(word)?),
            Keyword::Rows => self.rows = Some(elements::number(word)?),
            Keyword::Flag => self.flag = Some(elements::number(word)?),
            Keyword::Ids => self.ids.push(elements::number(word)?),
            Keyword::Offsets => self.offsets.push(elements::number(word)?),
            Keyword::Alive => self.alive.push(elements::number(word)?),
            Keyword::Withdrawn => self.withdrawn.push(elements::number(word)?),
            Keyword::AliveRows => self.alive_rows = Some(elements::number(word)?),
            Keyword::Least => self.least = Some(elements::value(word, self.column_type())?),
            Keyword::Greatest => self.greatest = Some(elements::value(word, self.column_type())?),
            Keyword::Values => self.take_value(word)?,
            _ => return Err(format!("'{word}' can't stand here")),
        }
        Ok(())
    }

    fn take_value(&mut self, word: &str) -> Result<(), String> {
        if !self.texts.is_empty() {
            return Err(format!("'{word}' stands among values that are texts"));
        }
        match self.column_type() {
            Some(ColumnType::IpAddr) => self.values.extend(elements::ip_addr(word)?),
            typ => self.values.push(elements::value(word, typ)?),
        }
        Ok(())
    }

    /// The type, if it is given and known.
    fn column_type(&self) -> Option<ColumnType> {
        self.typ.and_then(ColumnType::from_code)
    }

    /// How many values there are, not words.
    fn value_count(&self) -> usize {
        self.values.len() / words_per_value(self.column_type())
    }

    fn take_text(&mut self, bytes: &[u8]) -> Result<(), String> {
        if !self.column_type().is_some_and(ColumnType::has_terms) {
            return Err("only values of type Str or Bytes can be texts".to_string());
        }
        if self.texts.is_empty() && !self.values.is_empty() {
            return Err("a text stands among values that are ordinals".to_string());
        }
        let next = self.texts.len() as u64;
        self.values
            .push(*self.texts.entry(bytes.to_vec()).or_insert(next));
        Ok(())
    }

    /// Adds the segment to the sections.
    pub fn finish(mut self, sections: &mut Sections) -> Result<(), SheetFault> {
        self.resolve_texts()?;
        let (kind, rows) = self.kind_and_rows()?;
        let (flag, alive) = self.alive_set(rows)?;
        let lengths: Vec<usize> = self.terms.iter().map(<[u8]>::len).collect();
        for length in lengths {
            sections.term_lengths.push(self.count(length)?);
        }
        let counted = alive_number(rows.into(), (flag == 1).then_some(&alive[..]));
        let typ = self.typ.unwrap_or(NO_TYPE);
        sections.records.push(Record {
            typ,
            kind,
            rows,
            ids: self.count(self.ids.len())?,
            offsets: self.count(self.offsets.len())?,
            values: self.count(self.value_count())?,
            terms: self.count(self.terms.len())?,
            flag,
            alive_rows: self.alive_rows.unwrap_or(counted),
            pair: self.pair(typ),
        });
        sections.ids.append(&mut self.ids);
        sections.offsets.append(&mut self.offsets);
        sections.values.append(&mut self.values);
        sections.term_bytes.extend_from_slice(self.terms.bytes());
        sections.alive.extend(alive);
        Ok(())
    }

    /// What is given, and what is not as the values have it.
    fn pair(&self, typ: u32) -> Pair {
        let found = Pair::of_code(typ, &self.values);
        Pair::new(
            self.least.unwrap_or(found.least()),
            self.greatest.unwrap_or(found.greatest()),
        )
    }

    /// A fault of the segment, at an entry's line or where the segment begins.
    fn fault(&self, keyword: Option<Keyword>, text: impl Into<String>) -> SheetFault {
        let line = keyword
            .and_then(|keyword| self.seen.line_of(keyword))
            .unwrap_or(self.line);
        SheetFault {
            line,
            text: text.into(),
        }
    }

    fn count(&self, number: usize) -> Result<u32, SheetFault> {
        u32::try_from(number).map_err(|_| {
            self.fault(
                None,
                "a list of this segment has more than 4294967295 elements",
            )
        })
    }

    /// Turns values written as texts into ordinals: of the terms that are given, else of the texts
    /// themselves, sorted.
    fn resolve_texts(&mut self) -> Result<(), SheetFault> {
        if self.texts.is_empty() {
            return Ok(());
        }
        if self.seen.line_of(Keyword::Terms).is_none() {
            self.terms = self.texts.keys().collect();
        }
        let given: HashMap<&[u8], u64> = self.terms.iter().zip(0..).collect();
        let mut ordinals = vec![0; self.texts.len()];
        for (text, number) in &self.texts {
            let Some(ordinal) = given.get(&text[..]) else {
                let text = elements::term_text(text);
                let fault = format!("value {text} is not among the segment's terms");
                return Err(self.fault(Some(Keyword::Values), fault));
            };
            ordinals[*number as usize] = *ordinal;
        }
        self.values
            .iter_mut()
            .for_each(|value| *value = ordinals[*value as usize]);
        Ok(())
    }

    /// A segment without a column needs no kind. Rows follow from the values of a Full segment and
    /// from the offsets of an old multivalued one.
    fn kind_and_rows(&self) -> Result<(u32, u32), SheetFault> {
        let kind = match (self.kind, self.typ) {
            (Some(kind), _) => kind,
            (None, None | Some(NO_TYPE)) => kind::EMPTY,
            (None, Some(_)) => return Err(self.fault(None, "this segment has no 'kind'")),
        };
        let rows = match (self.rows, kind) {
            (Some(rows), _) => rows,
            (None, kind::FULL) => self.count(self.value_count())?,
            (None, kind::OLD_MULTIVALUED) => self.count(self.offsets.len().saturating_sub(1))?,
            (None, _) => return Err(self.fault(None, "this segment has no 'rows'")),
        };
        Ok((kind, rows))
    }

    /// The flag and the alive words.
    fn alive_set(&self, rows: u32) -> Result<(u32, Vec<u64>), SheetFault> {
        let given = |keyword| self.seen.line_of(keyword).is_some();
        if given(Keyword::Alive) && given(Keyword::Withdrawn) {
            let text = "a segment has 'alive' or 'withdrawn', not both";
            return Err(self.fault(Some(Keyword::Withdrawn), text));
        }
        let words = match (given(Keyword::Alive), given(Keyword::Withdrawn)) {
            (true, _) => self.alive.clone(),
            (_, true) => self.withdrawn_words(rows)?,
            _ => return self.flag_alone(),
        };
        if self.flag.is_some_and(|flag| flag != 1) {
            let text = "a segment with an alive set has flag 1";
            return Err(self.fault(Some(Keyword::Flag), text));
        }
        let wanted = words_for(rows);
        if words.len() != wanted {
            let text = format!(
                "an alive set has a word for each 64 rows or part of them, so {wanted} for {rows}; \
                 given: {}",
                words.len()
            );
            return Err(self.fault(Some(Keyword::Alive), text));
        }
        Ok((1, words))
    }

    fn flag_alone(&self) -> Result<(u32, Vec<u64>), SheetFault> {
        match self.flag {
            Some(1) => {
                let text = "flag 1 says that an alive set follows, and 'alive' is missing";
                Err(self.fault(Some(Keyword::Flag), text))
            }
            flag => Ok((flag.unwrap_or(0), Vec::new())),
        }
    }

    fn withdrawn_words(&self, rows: u32) -> Result<Vec<u64>, SheetFault> {
        if let Some(row) = self.withdrawn.iter().find(|&&row| row >= rows) {
            let text = format!("row {row} is not below the number of rows, {rows}");
            return Err(self.fault(Some(Keyword::Withdrawn), text));
        }
        let mut alive = AliveSet::all(rows);
        self.withdrawn.iter().for_each(|&row| alive.withdraw(row));
        Ok(alive.words().to_vec())
    }
}
