//! Sections as a sheet.
use super::elements::{hex_text, kind_text, mode_text, term_text, typ_text, value_text, word_text};
use crate::codes::ColumnType;
use crate::explain;
use crate::pair::Pair;
use crate::sections::{Address, Cut, Sections};
use std::io::{self, Write};

/// Writes a sheet from which [`read`](super::read) makes the same sections: by segments if the
/// sections fit the records, else as wholes.
pub fn write(sections: &Sections, out: &mut dyn Write) -> io::Result<()> {
    writeln!(out, "mode {}", mode_text(sections.mode))?;
    writeln!(out, "required {}", typ_text(sections.required))?;
    match sections.cut() {
        Some(segments) => {
            for segment in &segments {
                writeln!(out)?;
                write_segment(segment, out)?;
            }
        }
        None => write_wholes(sections, out)?,
    }
    if !sections.addresses.is_empty() {
        writeln!(out)?;
        write_addresses(&sections.addresses, out)?;
    }
    Ok(())
}

/// Writes the segments alone, to be put together with other sheets; the sections fit the records.
pub fn write_segments(sections: &Sections, out: &mut dyn Write) -> io::Result<()> {
    let segments = sections.cut().unwrap_or_default();
    segments
        .iter()
        .try_for_each(|segment| write_segment(segment, out))
}

/// Writes addresses as an entry of a sheet.
pub fn write_addresses(addresses: &[Address], out: &mut dyn Write) -> io::Result<()> {
    let text = |a: &Address| format!("{}:{}", a.segment, a.row);
    write_list("addresses", addresses.iter().map(text), out)
}

fn write_segment(cut: &Cut<'_>, out: &mut dyn Write) -> io::Result<()> {
    let r = &cut.record;
    writeln!(out, "segment")?;
    writeln!(out, "type {}", typ_text(r.typ))?;
    writeln!(out, "kind {}", kind_text(r.kind))?;
    writeln!(out, "rows {}", r.rows)?;
    if !cut.ids.is_empty() {
        write_list("ids", cut.ids.iter().map(u32::to_string), out)?;
    }
    if !cut.offsets.is_empty() {
        write_list("offsets", cut.offsets.iter().map(u32::to_string), out)?;
    }
    if !cut.values.is_empty() {
        let values = cut.values.chunks_exact(r.words_per_value());
        write_list(
            "values",
            values.map(|words| value_text(words, cut.typ())),
            out,
        )?;
    }
    if !cut.term_lengths.is_empty() {
        write_list("terms", cut.terms().map(term_text), out)?;
    }
    match (cut.alive, r.flag) {
        (Some(words), _) => write_list("alive", alive_texts(words), out)?,
        (None, 0) => {}
        (None, flag) => writeln!(out, "flag {flag}")?,
    }
    // A right number follows from the rest.
    if r.alive_rows != cut.alive_number() {
        writeln!(out, "alive-rows {}", r.alive_rows)?;
    }
    write_pair(cut, out)
}

/// The pair of a column that has one, whose values can be many, is worth its lines; of another
/// column it is written if it is untrue, that is, not 0 and 0.
fn write_pair(cut: &Cut<'_>, out: &mut dyn Write) -> io::Result<()> {
    let (typ, pair) = (cut.typ(), cut.record.pair);
    let has_pair = typ.is_some_and(ColumnType::has_pair) && !cut.values.is_empty();
    if has_pair || pair != Pair::default() {
        writeln!(out, "least {}", word_text(pair.least(), typ))?;
        writeln!(out, "greatest {}", word_text(pair.greatest(), typ))?;
    }
    Ok(())
}

pub fn alive_texts(words: &[u64]) -> impl Iterator<Item = String> {
    words.iter().map(|word| format!("{word:#x}"))
}

fn write_wholes(s: &Sections, out: &mut dyn Write) -> io::Result<()> {
    writeln!(out)?;
    if let Some(fault) = explain::lengths(s) {
        writeln!(
            out,
            "# The lists don't fit the records, so they stand as wholes."
        )?;
        writeln!(out, "# {fault}")?;
    }
    writeln!(
        out,
        "# type, kind, rows, numbers of ids, offsets, values and terms, flag, alive rows,\n\
         # least and greatest value"
    )?;
    for r in &s.records {
        write_list("record", r.numbers().iter().map(u64::to_string), out)?;
    }
    write_list("ids", s.ids.iter().map(u32::to_string), out)?;
    write_list("offsets", s.offsets.iter().map(u32::to_string), out)?;
    write_list("values", s.values.iter().map(u64::to_string), out)?;
    write_list(
        "term-lengths",
        s.term_lengths.iter().map(u32::to_string),
        out,
    )?;
    write_list("term-bytes", s.term_bytes.chunks(40).map(hex_text), out)?;
    write_list("alive", alive_texts(&s.alive), out)
}

/// How long a line may become.
const WIDTH: usize = 96;

fn write_list(
    name: &str,
    elements: impl Iterator<Item = String>,
    out: &mut dyn Write,
) -> io::Result<()> {
    write_entry(name, elements, out)?;
    writeln!(out)
}

/// Writes an entry without the end of its line, on several lines if it is long.
pub fn write_entry(
    name: &str,
    elements: impl Iterator<Item = String>,
    out: &mut dyn Write,
) -> io::Result<()> {
    out.write_all(name.as_bytes())?;
    let mut column = name.len();
    for element in elements {
        if column + 1 + element.len() > WIDTH {
            out.write_all(b"\n ")?;
            column = 1;
        }
        write!(out, " {element}")?;
        column += 1 + element.len();
    }
    Ok(())
}
