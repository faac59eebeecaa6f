//! Answers 5 to 7: values, terms, pairs, alive sets, totals.
use super::words::{element, of_type, value_of};
use crate::codes::{ColumnType, kind};
use crate::sections::{Cut, Record, Sections};
use crate::sheet::{term_text, word_text};

pub fn values_and_terms(cut: &Cut<'_>) -> Option<String> {
    terms_allowed(cut)
        .or_else(|| values(cut))
        .or_else(|| terms_rise(cut))
        .or_else(|| pair(cut))
}

fn terms_allowed(cut: &Cut<'_>) -> Option<String> {
    if cut.term_lengths.is_empty() {
        return None;
    }
    if !cut.typ().is_some_and(ColumnType::has_terms) {
        return Some(format!("terms: a column of type {} has none", of_type(cut)));
    }
    (cut.record.kind == kind::EMPTY).then(|| "terms: kind Empty has none".to_string())
}

fn values(cut: &Cut<'_>) -> Option<String> {
    let terms = cut.term_lengths.len();
    let (limit, why) = match cut.typ()? {
        ColumnType::Bool => (2, "a Bool is 0 or 1".to_string()),
        ColumnType::Bytes | ColumnType::Str => (
            terms as u64,
            format!("an ordinal, and not below the number of terms, {terms}"),
        ),
        _ => return None,
    };
    let place = cut.values.iter().position(|&value| value >= limit)?;
    Some(format!(
        "{}: {why}",
        value_of(cut, "value", cut.values[place], place)
    ))
}

fn terms_rise(cut: &Cut<'_>) -> Option<String> {
    let mut terms = cut.terms().enumerate();
    let (_, mut before) = terms.next()?;
    for (place, next) in terms {
        if next <= before {
            let next = element("term", term_text(next), place);
            return Some(format!(
                "{next}: not above the one before it, {}",
                term_text(before)
            ));
        }
        before = next;
    }
    None
}

/// The least and the greatest value, each beside the one that is found.
fn pair(cut: &Cut<'_>) -> Option<String> {
    let key = |&place: &usize| match cut.typ() {
        Some(ColumnType::I64) => i128::from(cut.values[place] as i64),
        _ => i128::from(cut.values[place]),
    };
    let places = match cut.typ().is_some_and(ColumnType::has_pair) {
        true => 0..cut.values.len(),
        false => 0..0,
    };
    let pair = cut.record.pair;
    // Of equal ones the first is named.
    let (least, greatest) = (places.clone().min_by_key(key), places.rev().max_by_key(key));
    untrue(cut, "least", pair.least(), least)
        .or_else(|| untrue(cut, "greatest", pair.greatest(), greatest))
}

/// One of the two, which is that of the value at the place, or 0 if there is none.
fn untrue(cut: &Cut<'_>, name: &str, stored: u64, place: Option<usize>) -> Option<String> {
    let found = place.map_or(0, |place| cut.values[place]);
    if stored == found {
        return None;
    }
    let text = |word| word_text(word, cut.typ());
    let why = match (place, cut.typ()) {
        (Some(place), _) => {
            let value = value_of(cut, "value", text(found), place);
            format!("{value} is the {name}")
        }
        (None, None) => "it is 0 for a segment without a column".to_string(),
        (None, Some(typ)) if typ.has_pair() => "it is 0 for a column without values".to_string(),
        (None, Some(typ)) => format!("it is 0 for a column of type {}", typ.name()),
    };
    Some(format!("{name} value {}: {why}", text(stored)))
}

pub fn alive_set(cut: &Cut<'_>, stacked: bool) -> Option<String> {
    if stacked && cut.alive.is_some() {
        return Some("alive set: a stacked join takes none".to_string());
    }
    alive_rows(&cut.record, cut.alive.unwrap_or_default())
}

/// A record's number of alive rows, and its alive words, which are as many as it announces.
pub fn alive_rows(record: &Record, words: &[u64]) -> Option<String> {
    past_the_rows(record, words).or_else(|| {
        let (stored, counted) = (record.alive_rows, record.alive_number(words));
        let why = match record.flag {
            1 => format!("the alive set has {counted}"),
            _ => format!("without an alive set all rows are alive, {counted}"),
        };
        (stored != counted).then(|| format!("alive rows {stored}: {why}"))
    })
}

fn past_the_rows(record: &Record, words: &[u64]) -> Option<String> {
    // Only the last word can mark a row past the last.
    let (last, rows) = (words.len().checked_sub(1)?, u64::from(record.rows));
    let first_row = last as u64 * 64;
    let row = (first_row..first_row + 64)
        .find(|&row| row >= rows && words[last] >> (row - first_row) & 1 == 1)?;
    let word = element("alive word", words[last], last);
    Some(format!(
        "{word}: marks row {row}, not below the number of rows, {rows}"
    ))
}

pub fn totals(s: &Sections) -> Option<String> {
    const MOST: u64 = 4294967294;
    let sums = [
        ("rows", s.all_rows()),
        ("values", s.all_values()),
        ("term bytes", s.term_bytes.len() as u64),
    ];
    let (name, sum) = sums.into_iter().find(|(_, sum)| *sum > MOST)?;
    Some(format!(
        "{name}: all segments have {sum} together, above {MOST}"
    ))
}

#[cfg(test)]
mod tests {
    use super::*;

    /// Words that 32 bits can't count are no matter. (So many addresses are not made for a test.)
    #[test]
    fn totals_of_addresses() {
        let of_addresses = |values| {
            let records = vec![Record {
                typ: ColumnType::IpAddr.code(),
                values,
                ..Record::default()
            }];
            totals(&Sections {
                records,
                ..Sections::default()
            })
        };
        assert_eq!(of_addresses(4294967294), None);
        let text = "values: all segments have 4294967295 together, above 4294967294";
        assert_eq!(of_addresses(4294967295).as_deref(), Some(text));
    }
}
