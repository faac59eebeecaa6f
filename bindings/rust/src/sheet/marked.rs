//! A sheet's own text, with rows of a segment withdrawn or reinstated.
use super::places::{Edit, Places, segments, write_edited};
use super::reader::Keyword;
use super::writer::{alive_texts, write, write_entry};
use crate::alive::is_alive;
use crate::sections::{Record, Sections};
use std::io::{self, Write};

/// Writes a sheet anew, after [`Sections::withdraw_rows`] or [`Sections::reinstate_rows`] has
/// changed its sections. In the text, the segment's `withdrawn` (its rows ascending) or `alive` is
/// changed, and the number of alive rows if it stands there; all else stays as it stands, comments
/// too (but for those amid these entries). If the sheet gives records and sections as wholes, it
/// becomes one of segments if it can. Panics if there is no such segment.
pub fn write_marked(
    text: &str,
    marked: &Sections,
    segment: usize,
    out: &mut dyn Write,
) -> io::Result<()> {
    let (segments, record) = (segments(text), &marked.records[segment]);
    let words = match marked.alive_part(segment) {
        Some(part) if segments.len() == marked.records.len() => &marked.alive[part],
        _ => return write(marked, out),
    };
    write_edited(text, edits_of(&segments[segment], record, words)?, out)
}

fn edits_of(segment: &Places, record: &Record, words: &[u64]) -> io::Result<Vec<Edit>> {
    let (mut edits, mut text) = (Vec::new(), Vec::new());
    if let Some(entry) = segment.entry(Keyword::Withdrawn) {
        let withdrawn = (0..record.rows).filter(|&row| !is_alive(words, row));
        write_entry("withdrawn", withdrawn.map(|row| row.to_string()), &mut text)?;
        edits.push((entry.whole(), text));
    } else if let Some(entry) = segment.entry(Keyword::Alive) {
        write_entry("alive", alive_texts(words), &mut text)?;
        edits.push((entry.whole(), text));
    }
    let number = segment.entry(Keyword::AliveRows);
    let number = number.and_then(|entry| entry.elements.clone());
    edits.extend(number.map(|place| (place, record.alive_rows.to_string().into_bytes())));
    Ok(edits)
}

#[cfg(test)]
mod tests {
    use super::*;
    use crate::sheet::read;

    /// The text with rows withdrawn, and with them reinstated again; each must mean what the
    /// sections have become.
    fn marked(text: &str, segment: usize, rows: &[u32]) -> [String; 2] {
        let mut sections = read(text.as_bytes()).unwrap();
        let written = |text: &str, sections: &Sections| {
            let mut out = Vec::new();
            write_marked(text, sections, segment, &mut out).unwrap();
            assert_eq!(&read(&out[..]).unwrap(), sections);
            String::from_utf8(out).unwrap()
        };
        assert_ne!(sections.withdraw_rows(segment, rows), Ok(0));
        let withdrawn = written(text, &sections);
        assert_ne!(sections.reinstate_rows(segment, rows), Ok(0));
        let reinstated = written(&withdrawn, &sections);
        [withdrawn, reinstated]
    }

    #[test]
    fn comments_and_layout_stay() {
        let before = "\u{feff}# withdrawn 1\r\n\
            segment # Friday\r\n  type Str kind Full\r\n\
            \x20 withdrawn 3 # logged twice\r\n  values \"b\" \"withdrawn 1\" \"b\" \"a\"\r\n\
            segment rows 4 withdrawn alive-rows 4\r\n\
            segment type I64 greatest 0x5 kind Full values 5 -7 withdrawn least -7 # worst\r\n# end";
        let [withdrawn, reinstated] = marked(before, 0, &[1, 0]);
        assert_eq!(
            withdrawn,
            before.replace("withdrawn 3 #", "withdrawn 0 1 3 #")
        );
        assert_eq!(reinstated, before);
        let [withdrawn, reinstated] = marked(before, 1, &[2]);
        let after = before.replace("withdrawn alive-rows 4", "withdrawn 2 alive-rows 3");
        assert_eq!((withdrawn, &*reinstated), (after, before));
        // A withdrawn value counts in the pair that is given.
        let [withdrawn, reinstated] = marked(before, 2, &[1]);
        let after = before.replace("withdrawn least", "withdrawn 1 least");
        assert_eq!((withdrawn, &*reinstated), (after, before));
    }

    /// An alive set by its words, entries in any order, and addresses, which stay.
    #[test]
    fn alive_words() {
        let before = "mode ordered segment rows 66 alive-rows 65 addresses 0:0 \
            alive 0xffffffffffffffff # amid\n 2 # behind\nsegment rows 1";
        let [withdrawn, reinstated] = marked(before, 0, &[65, 0]);
        let after = "mode ordered segment rows 66 alive-rows 63 addresses 0:0 \
            alive 0xfffffffffffffffe 0x0 # behind\nsegment rows 1";
        assert_eq!(withdrawn, after);
        let after = after.replace("63", "65");
        let after = after.replace("0xfffffffffffffffe 0x0", "0xffffffffffffffff 0x2");
        assert_eq!(reinstated, after);
    }

    #[test]
    fn long_lists() {
        let rows: Vec<u32> = (0..500).collect();
        let [withdrawn, reinstated] = marked("segment rows 500 withdrawn", 0, &rows);
        assert!(withdrawn.starts_with("segment rows 500 withdrawn 0 1 2 "));
        assert!(withdrawn.lines().count() > 10);
        assert_eq!(reinstated, "segment rows 500 withdrawn");
    }

    /// They become segments if their lists fit, and stay wholes if not.
    #[test]
    fn records() {
        let [withdrawn, _] = marked("record 1 1 1 0 0 1 0 1 1 7 7 values 7 alive 1", 0, &[0]);
        assert!(
            withdrawn.ends_with("kind Full\nrows 1\nvalues 7\nalive 0x0\nleast 7\ngreatest 7\n")
        );
        let [withdrawn, _] = marked(
            "record 1 1 1 0 0 1 0 1 1 3 18446744073709551615 alive 1",
            0,
            &[0],
        );
        assert!(withdrawn.contains("\nrecord 1 1 1 0 0 1 0 1 0 3 18446744073709551615\n"));
        assert!(withdrawn.ends_with("\nalive 0x0\n"));
    }
}
