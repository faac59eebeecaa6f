//! Sheets: a call's sections as text that people read and write.
//!
//! A sheet is a run of words. Some begin an entry (`mode`, `segment`, `rows`, `values`, ...), the
//! others belong to the entry before them; where a line ends doesn't matter, and `#` begins a
//! comment. FORMAT.md, beside this crate's manifest, has the whole of it.
//!
//! ```
//! let sheet = "
//!     mode stacked
//!     segment type Str kind Optional rows 2 ids 1 values 0 terms \"b\"
//!     segment type Str kind Full values \"b\" \"a\"   # terms and ordinals are made
//! ";
//! let sections = jadmirus::sheet::read(sheet.as_bytes()).unwrap();
//! assert_eq!(sections.join().unwrap().values(), [1, 1, 0]);
//! ```
mod converted;
mod draft;
mod elements;
mod marked;
mod places;
mod reader;
mod tokens;
mod writer;

use crate::sections::Sections;
use std::error::Error;
use std::fmt;
use std::io::{self, BufRead};

pub use converted::write_converted;
pub(crate) use elements::{term_text, word_text};
pub use marked::write_marked;
pub use writer::{write, write_addresses, write_segments};

/// Why a sheet could not be read.
#[derive(Debug)]
pub enum SheetError {
    Io(io::Error),
    Fault(SheetFault),
}

/// What is wrong in a sheet, and in which line, counted from 1.
#[derive(Clone, Debug, PartialEq, Eq)]
pub struct SheetFault {
    pub line: usize,
    pub text: String,
}

impl fmt::Display for SheetFault {
    fn fmt(&self, f: &mut fmt::Formatter<'_>) -> fmt::Result {
        write!(f, "line {}: {}", self.line, self.text)
    }
}

impl fmt::Display for SheetError {
    fn fmt(&self, f: &mut fmt::Formatter<'_>) -> fmt::Result {
        match self {
            SheetError::Io(error) => error.fmt(f),
            SheetError::Fault(fault) => fault.fmt(f),
        }
    }
}

impl Error for SheetError {}

/// Reads a sheet to its end.
pub fn read(mut input: impl BufRead) -> Result<Sections, SheetError> {
    let mut reader = reader::Reader::default();
    let mut line = Vec::new();
    let mut number = 0;
    while input.read_until(b'\n', &mut line).map_err(SheetError::Io)? > 0 {
        number += 1;
        let fault = |text| SheetError::Fault(SheetFault { line: number, text });
        let text = str::from_utf8(&line).map_err(|_| fault("this is no UTF-8 text".to_string()))?;
        // Some editors begin a file with a mark of its encoding.
        let text = if number == 1 {
            text.trim_start_matches('\u{feff}')
        } else {
            text
        };
        for token in tokens::tokens(text) {
            reader
                .take(token.map_err(fault)?, number)
                .map_err(SheetError::Fault)?;
        }
        line.clear();
    }
    reader.finish(number.max(1)).map_err(SheetError::Fault)
}
