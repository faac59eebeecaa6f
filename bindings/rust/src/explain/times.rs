//! Answer 12: what the time order takes.
use super::words::{of_type, value_of};
use crate::codes::ColumnType;
use crate::sections::Cut;

pub fn times(cut: &Cut<'_>) -> Option<String> {
    match cut.typ() {
        None => return None,
        Some(ColumnType::DateTime) => {}
        Some(_) => {
            return Some(format!(
                "type {}: the time order takes DateTime columns",
                of_type(cut)
            ));
        }
    }
    if let Some((row, part)) = cut.cells().find(|(_, part)| part.len() > 1) {
        return Some(format!(
            "row {row}: it has {} times, and may have one",
            part.len()
        ));
    }
    let falls = |pair: &[u64]| (pair[0] as i64) > pair[1] as i64;
    let place = cut.values.windows(2).position(falls)? + 1;
    let [before, time] = [place - 1, place].map(|place| cut.values[place] as i64);
    Some(format!(
        "{}: earlier than the one before it, {before}",
        value_of(cut, "time", time, place)
    ))
}
