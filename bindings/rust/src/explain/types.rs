//! Answer 10: types that can't be one column.
use super::each;
use super::words::{type_name, value_of};
use crate::codes::{ColumnType, NO_TYPE};
use crate::joined::Value;
use crate::sections::{Cut, Sections};

pub fn types(s: &Sections, segments: &[Cut<'_>]) -> Option<String> {
    categories(s, segments).or_else(|| {
        // Without a required type, one is taken that every value fits.
        let to = ColumnType::from_code(s.required)?;
        each(segments, |cut| not_coerced(cut, to))
    })
}

/// Numbers are one category, every other type is one alone.
fn category(typ: u32) -> u32 {
    let number = ColumnType::from_code(typ).is_some_and(ColumnType::is_number);
    if number { ColumnType::I64.code() } else { typ }
}

/// A dropped column's type counts too.
fn categories(s: &Sections, segments: &[Cut<'_>]) -> Option<String> {
    let required = (s.required, "the required type".to_string());
    let of_segment = |(i, cut): (usize, &Cut<'_>)| (cut.record.typ, format!("segment {i}"));
    let mut types = std::iter::once(required)
        .chain(segments.iter().enumerate().map(of_segment))
        .filter(|(typ, _)| *typ != NO_TYPE);
    let (typ, whose) = types.next()?;
    let (other, others) = types.find(|(other, _)| category(*other) != category(typ))?;
    Some(format!(
        "types: {whose} is {}, {others} is {}, and these can't be one column",
        type_name(typ),
        type_name(other)
    ))
}

fn not_coerced(cut: &Cut<'_>, to: ColumnType) -> Option<String> {
    let from = cut.typ()?;
    let fits: fn(u64) -> bool = match (from, to) {
        (ColumnType::U64, ColumnType::I64) | (ColumnType::I64, ColumnType::U64) => {
            |word| word <= i64::MAX as u64
        }
        (ColumnType::F64, ColumnType::I64 | ColumnType::U64) => |_| false,
        _ => return None,
    };
    if !cut.is_held() {
        return None;
    }
    let place = cut.values.iter().position(|&word| !fits(word))?;
    let word = cut.values[place];
    let value = match from {
        ColumnType::I64 => value_of(cut, "value", word as i64, place),
        ColumnType::F64 => value_of(cut, "value", Value::F64(f64::from_bits(word)), place),
        _ => value_of(cut, "value", word, place),
    };
    let (from, to) = (from.name(), to.name());
    Some(format!(
        "{value}: of type {from}, and can't become the required type {to}"
    ))
}
