//! Answers 1 to 4 and 19: number of segments, lengths, codes, old kind, row ids and offsets.
use super::not_above;
use super::words::{are, element, kind_name, nth};
use crate::codes::{ColumnType, NO_TYPE, kind, mode};
use crate::sections::{Cut, Record, Sections};

pub fn segments(s: &Sections) -> Option<String> {
    let number = s.records.len();
    (number > 256).then(|| format!("segments: {number} are there, and a call takes at most 256"))
}

pub fn lengths(s: &Sections) -> Option<String> {
    let ends = |name, of: fn(&Record) -> usize, there| announced(s, name, of, there);
    ends("row ids", |r| r.ids as usize, s.ids.len())
        .or_else(|| ends("offsets", |r| r.offsets as usize, s.offsets.len()))
        .or_else(|| ends(values_name(s), Record::value_words, s.values.len()))
        .or_else(|| ends("terms", |r| r.terms as usize, s.term_lengths.len()))
        .or_else(|| alive_words(s))
        .or_else(|| term_bytes(s))
}

pub fn alive_words(s: &Sections) -> Option<String> {
    announced(s, "alive words", Record::alive_words, s.alive.len())
}

/// Words are spoken of only where they are not the values themselves.
fn values_name(s: &Sections) -> &'static str {
    match s.records.iter().any(|r| r.words_per_value() > 1) {
        true => "words of values (an IpAddr has two)",
        false => "values",
    }
}

/// Compares the records' sum with the elements that are there.
fn announced(s: &Sections, name: &str, of: fn(&Record) -> usize, there: usize) -> Option<String> {
    let mut sum = 0;
    for (i, record) in s.records.iter().enumerate() {
        sum += of(record) as u128;
        if sum > there as u128 {
            return Some(format!(
                "segment {i}, {name}: the segments up to this one announce {sum}, and {there} {} \
                 there",
                are(there)
            ));
        }
    }
    (sum < there as u128).then(|| {
        format!(
            "{name}: the segments announce {sum}, and {there} {} there",
            are(there)
        )
    })
}

fn term_bytes(s: &Sections) -> Option<String> {
    let there = s.term_bytes.len();
    let mut sum = 0;
    for (i, &length) in s.term_lengths.iter().enumerate() {
        sum += u128::from(length);
        if sum > there as u128 {
            let term = nth(i);
            return Some(format!(
                "term bytes: the {term} term ends at {sum}, and {there} {} there",
                are(there)
            ));
        }
    }
    (sum < there as u128).then(|| {
        format!(
            "term bytes: the terms have {sum}, and {there} {} there",
            are(there)
        )
    })
}

fn known_type(code: u32) -> bool {
    code == NO_TYPE || ColumnType::from_code(code).is_some()
}

pub fn call_codes(s: &Sections) -> Option<String> {
    if s.mode as usize >= mode::NAMES.len() {
        return Some(format!(
            "mode {}: the modes are 0 (stacked) and 1 (ordered)",
            s.mode
        ));
    }
    (!known_type(s.required)).then(|| format!("required type {}: no known type", s.required))
}

pub fn codes(cut: &Cut<'_>) -> Option<String> {
    let r = &cut.record;
    if !known_type(r.typ) {
        return Some(format!("type {}: no known type", r.typ));
    }
    if r.kind as usize >= kind::NAMES.len() {
        return Some(format!("kind {}: the kinds are 0 to 4", r.kind));
    }
    if let Some(text) = flag(r) {
        return Some(text);
    }
    if r.typ != NO_TYPE {
        return None;
    }
    if r.kind != kind::EMPTY {
        let kind = kind_name(r.kind);
        return Some(format!(
            "kind {kind}: a segment without a column is of kind Empty"
        ));
    }
    let lists = [
        ("row ids", r.ids),
        ("offsets", r.offsets),
        ("values", r.values),
        ("terms", r.terms),
    ];
    let (name, _) = lists.into_iter().find(|(_, number)| *number > 0)?;
    Some(format!("{name}: a segment without a column has none"))
}

pub fn flag(record: &Record) -> Option<String> {
    let flag = record.flag;
    (flag > 1).then(|| format!("flag {flag}: 1 stands for an alive set, 0 for none"))
}

pub fn old(cut: &Cut<'_>) -> Option<String> {
    cut.record.is_old().then(|| {
        let kind = kind_name(cut.record.kind);
        format!("kind {kind}: convert it first ('jadmirus convert')")
    })
}

pub fn row_lists(cut: &Cut<'_>) -> Option<String> {
    numbers(cut).or_else(|| ids(cut)).or_else(|| offsets(cut))
}

/// The numbers of elements that the kind asks for.
fn numbers(cut: &Cut<'_>) -> Option<String> {
    let r = &cut.record;
    let [rows, ids, offsets, values] = [r.rows, r.ids, r.offsets, r.values].map(u64::from);
    let wanted = match r.kind {
        kind::EMPTY => [0, 0, 0],
        kind::FULL => [0, 0, rows],
        kind::OPTIONAL => [ids, 0, ids],
        kind::OLD_MULTIVALUED => [0, rows + 1, values],
        _ => [ids, ids + 1, values],
    };
    let there = [ids, offsets, values];
    let list = (0..3).find(|&list| there[list] != wanted[list])?;
    let (name, there, wanted) = (
        ["row ids", "offsets", "values"][list],
        there[list],
        wanted[list],
    );
    let has = match (r.kind, name) {
        (kind::FULL, "values") => format!("{wanted}, one for each row"),
        (kind::OPTIONAL, "values") => format!("{wanted}, one for each row id"),
        (kind::OLD_MULTIVALUED, "offsets") => format!("{wanted}, one more than rows"),
        (kind::NEW_MULTIVALUED, "offsets") => format!("{wanted}, one more than row ids"),
        _ => "none".to_string(),
    };
    let kind = kind_name(r.kind);
    Some(format!("{name}: {there} there, and kind {kind} has {has}"))
}

fn ids(cut: &Cut<'_>) -> Option<String> {
    if let Some(place) = not_above(cut.ids) {
        let id = element("row id", cut.ids[place], place);
        return Some(format!("{id}: not above the one before it"));
    }
    let rows = cut.record.rows;
    let place = cut.ids.iter().position(|&id| id >= rows)?;
    let id = element("row id", cut.ids[place], place);
    Some(format!("{id}: not below the number of rows, {rows}"))
}

fn offsets(cut: &Cut<'_>) -> Option<String> {
    let (first, last) = (*cut.offsets.first()?, *cut.offsets.last()?);
    if first != 0 {
        return Some(format!(
            "{}: the first offset is 0",
            element("offset", first, 0)
        ));
    }
    let falls = |pair: &[u32]| match cut.record.kind {
        kind::OLD_MULTIVALUED => pair[0] > pair[1],
        _ => pair[0] >= pair[1],
    };
    if let Some(before) = cut.offsets.windows(2).position(falls) {
        let offset = element("offset", cut.offsets[before + 1], before + 1);
        let how = match cut.record.kind {
            kind::OLD_MULTIVALUED => "below",
            _ => "not above",
        };
        return Some(format!("{offset}: {how} the one before it"));
    }
    let values = cut.record.values;
    (last != values).then(|| {
        let offset = element("offset", last, cut.offsets.len() - 1);
        format!("{offset}: the last offset is the number of values, {values}")
    })
}
