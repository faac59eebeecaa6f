//! A sheet's own text, with its old segments converted.
use super::elements;
use super::places::{Edit, Entry, Places, segments, write_edited};
use super::reader::Keyword;
use super::writer::{write, write_entry};
use crate::codes::kind;
use crate::sections::{Cut, Sections};
use std::io::{self, Write};
use std::ops::Range;

/// Writes a sheet with old segments anew, after [`Sections::convert`] has converted its sections.
/// In the text, kind, ids and offsets of these segments are changed, and their rows are put in if
/// they followed from the offsets; all else stays as it stands, comments too (but for those amid
/// the offsets). If the sheet gives records and sections as wholes, it becomes one of segments.
pub fn write_converted(text: &str, converted: &Sections, out: &mut dyn Write) -> io::Result<()> {
    let segments = segments(text);
    let cuts = converted.cut().unwrap_or_default();
    if segments.len() != cuts.len() {
        return write(converted, out);
    }
    let mut edits = Vec::new();
    for (segment, cut) in segments.iter().zip(&cuts) {
        edits.extend(edits_of(segment, text, cut)?);
    }
    write_edited(text, edits, out)
}

/// What a conversion changes in a segment's entries.
fn edits_of(segment: &Places, text: &str, new: &Cut<'_>) -> io::Result<Vec<Edit>> {
    let is_old = |place: &Range<usize>| {
        let kind = elements::kind(&text[place.clone()]);
        kind == Ok(kind::OLD_MULTIVALUED)
    };
    let kind = segment.entry(Keyword::Kind);
    let Some(kind) = kind.and_then(|entry| entry.elements.clone()).filter(is_old) else {
        return Ok(Vec::new());
    };
    let name = elements::kind_text(new.record.kind);
    let mut edits = vec![(kind, name.into_bytes())];
    if let Some(offsets) = segment.entry(Keyword::Offsets) {
        let has_rows = segment.entry(Keyword::Rows).is_some();
        edits.push((offsets.whole(), lists(offsets, text, has_rows, new)?));
    }
    // An old segment has no ids behind the word.
    let ids = segment.entry(Keyword::Ids);
    edits.extend(ids.map(|entry| (entry.word.clone(), Vec::new())));
    Ok(edits)
}

/// What stands in the place of the old offsets: on lines of its own, if these began one.
fn lists(offsets: &Entry, text: &str, has_rows: bool, new: &Cut<'_>) -> io::Result<Vec<u8>> {
    let before = &text[..offsets.word.start];
    let line = &before[before.rfind('\n').map_or(0, |end| end + 1)..];
    let apart = match line.trim().is_empty() {
        true => format!("\n{line}"),
        false => " ".to_string(),
    };
    let mut lists = Vec::new();
    if !has_rows {
        write!(lists, "rows {}{apart}", new.record.rows)?;
    }
    if !new.ids.is_empty() {
        write_entry("ids", new.ids.iter().map(u32::to_string), &mut lists)?;
        lists.write_all(apart.as_bytes())?;
    }
    write_entry(
        "offsets",
        new.offsets.iter().map(u32::to_string),
        &mut lists,
    )?;
    Ok(lists)
}

#[cfg(test)]
mod tests {
    use super::*;
    use crate::sheet::read;

    /// The text, which must mean what the sections have become.
    fn converted(text: &str) -> String {
        let mut sections = read(text.as_bytes()).unwrap();
        sections.convert().unwrap();
        let mut out = Vec::new();
        write_converted(text, &sections, &mut out).unwrap();
        assert_eq!(read(&out[..]).unwrap(), sections);
        String::from_utf8(out).unwrap()
    }

    #[test]
    fn comments_and_layout_stay() {
        let old = "\u{feff}# kind OldMultivalued\r\n\
            segment # Friday\r\n  type Str kind OldMultivalued # old\r\n\
            \x20 offsets 0 2 2 # amid\r\n\r\n     3 # behind\r\n\
            values \"b\" \"kind 3 offsets\" \"b\"\r\n\
            segment kind Full type U64 values 1\r\n# end";
        let new = "\u{feff}# kind OldMultivalued\r\n\
            segment # Friday\r\n  type Str kind NewMultivalued # old\r\n\
            \x20 rows 3\n  ids 0 2\n  offsets 0 2 3 # behind\r\n\
            values \"b\" \"kind 3 offsets\" \"b\"\r\n\
            segment kind Full type U64 values 1\r\n# end";
        assert_eq!(converted(old), new);
        assert_eq!(converted(new), new);
    }

    /// Entries in any order, mode and addresses among them, and a kind by its number. A pair that is
    /// given stays.
    #[test]
    fn entries_in_any_order() {
        let old = "segment offsets 0 1 1 mode ordered type U64 least 0x7 ids values 7 addresses 0:0 \
            kind 3 rows 2 alive 1 greatest 7 segment type I64 offsets 0 0 kind oldmultivalued";
        let new = "segment ids 0 offsets 0 1 mode ordered type U64 least 0x7  values 7 addresses 0:0 \
            kind NewMultivalued rows 2 alive 1 greatest 7 \
            segment type I64 rows 1 offsets 0 kind NewMultivalued";
        assert_eq!(converted(old), new);
    }

    #[test]
    fn long_lists() {
        let offsets: Vec<String> = (0..500)
            .map(|row: u32| row.div_ceil(2).to_string())
            .collect();
        let values = "1 ".repeat(250);
        let old = format!(
            "segment type Bool kind OldMultivalued\noffsets {}\nvalues {values}",
            offsets.join(" ")
        );
        let new = converted(&old);
        assert!(new.starts_with("segment type Bool kind NewMultivalued\nrows 499\nids 0 2 4 "));
        assert!(new.lines().count() > 10);
    }

    #[test]
    fn records_become_segments() {
        let new = converted("record 1 3 1 0 2 1 0 0 1 7 7 offsets 0 1 values 7");
        let lists = "rows 1\nids 0\noffsets 0 1\nvalues 7\nleast 7\ngreatest 7\n";
        assert!(
            new.ends_with(&format!("kind NewMultivalued\n{lists}")),
            "{new}"
        );
    }
}
