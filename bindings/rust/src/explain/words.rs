//! Names and numbers as they are said.
use crate::codes::{ColumnType, NO_TYPE, kind};
use crate::sections::Cut;

/// A place in a list, from 0, as "1st", "2nd", ...
pub fn nth(place: usize) -> String {
    let number = place as u64 + 1;
    let ending = match (number % 10, number % 100) {
        (_, 11..=13) => "th",
        (1, _) => "st",
        (2, _) => "nd",
        (3, _) => "rd",
        _ => "th",
    };
    format!("{number}{ending}")
}

/// An element of a list with its place, as "row id 7 (the 2nd)".
pub fn element(name: &str, element: impl std::fmt::Display, place: usize) -> String {
    format!("{name} {element} (the {})", nth(place))
}

/// A value with its row and its place, as "row 4, value 7 (the 2nd)". A withdrawn row's value is
/// looked at like the others, which is worth a word.
pub fn value_of(cut: &Cut<'_>, name: &str, value: impl std::fmt::Display, place: usize) -> String {
    let value = element(name, value, place);
    match cut.row_of(place) {
        Some(row) if cut.is_alive(row) => format!("row {row}, {value}"),
        Some(row) => format!("row {row} (withdrawn), {value}"),
        None => value,
    }
}

pub fn of_type(cut: &Cut<'_>) -> String {
    type_name(cut.record.typ)
}

pub fn type_name(code: u32) -> String {
    match (ColumnType::from_code(code), code) {
        (Some(typ), _) => typ.name().to_string(),
        (None, NO_TYPE) => "none".to_string(),
        (None, unknown) => unknown.to_string(),
    }
}

pub fn kind_name(code: u32) -> String {
    kind::NAMES
        .get(code as usize)
        .map_or(code.to_string(), |name| name.to_string())
}

/// "is" or "are", for so many.
pub fn are(number: usize) -> &'static str {
    if number == 1 { "is" } else { "are" }
}

#[cfg(test)]
mod tests {
    #[test]
    fn places() {
        let places = [0, 1, 2, 3, 9, 10, 11, 12, 20, 21, 110, 111, 120].map(super::nth);
        let said = "1st 2nd 3rd 4th 10th 11th 12th 13th 21st 22nd 111th 112th 121st";
        assert_eq!(places.join(" "), said);
    }
}
