//! The listing of a joined column, and its numbers.
use crate::codes::code_of;
use crate::joined::Joined;
use std::fmt::Display;
use std::io::{self, Write};

impl Joined {
    /// Writes the column's listing. A list stands after its name and its number of elements;
    /// values as unsigned words, an IpAddr as its two, terms in hexadecimal, an empty one as `-`.
    /// (A refusal's listing is the line `answer` with its number alone.)
    pub fn write_listing(&self, out: &mut dyn Write) -> io::Result<()> {
        writeln!(out, "answer 0")?;
        writeln!(out, "type {}", code_of(self.column_type()))?;
        writeln!(out, "class {}", self.class().code())?;
        writeln!(out, "rows {}", self.rows())?;
        write_list(out, "ids", self.ids())?;
        write_list(out, "offsets", self.offsets())?;
        write_counted(out, "values", self.value_count(), self.values())?;
        write!(out, "terms {}", self.terms().len())?;
        for term in self.terms().iter() {
            out.write_all(b" ")?;
            write_term(out, term)?;
        }
        writeln!(out)?;
        write_list(out, "maps", self.map())
    }

    /// Writes the numbers that come with acceptance, each in a line after its name: the listing's
    /// without the lists, the number of term bytes, how many of them were copied, and the least and
    /// the greatest value as unsigned words.
    pub fn write_numbers(&self, out: &mut dyn Write) -> io::Result<()> {
        let numbers = [
            ("answer", 0),
            ("type", u64::from(code_of(self.column_type()))),
            ("class", u64::from(self.class().code())),
            ("rows", u64::from(self.rows())),
            ("ids", self.ids().len() as u64),
            ("offsets", self.offsets().len() as u64),
            ("values", self.value_count() as u64),
            ("terms", self.terms().len() as u64),
            ("term-bytes", self.terms().bytes().len() as u64),
            ("maps", self.map().len() as u64),
            ("term-bytes-copied", self.term_bytes_copied()),
            ("least", self.pair().least()),
            ("greatest", self.pair().greatest()),
        ];
        numbers
            .iter()
            .try_for_each(|(name, number)| writeln!(out, "{name} {number}"))
    }
}

fn write_list<T: Display>(out: &mut dyn Write, name: &str, list: &[T]) -> io::Result<()> {
    write_counted(out, name, list.len(), list)
}

/// An element may be of several numbers.
fn write_counted<T: Display>(
    out: &mut dyn Write,
    name: &str,
    count: usize,
    numbers: &[T],
) -> io::Result<()> {
    write!(out, "{name} {count}")?;
    numbers
        .iter()
        .try_for_each(|number| write!(out, " {number}"))?;
    writeln!(out)
}

fn write_term(out: &mut dyn Write, term: &[u8]) -> io::Result<()> {
    match term {
        [] => out.write_all(b"-"),
        bytes => bytes.iter().try_for_each(|byte| write!(out, "{byte:02x}")),
    }
}
