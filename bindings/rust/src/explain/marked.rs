//! Answers 15 and 16: rows that can't be withdrawn or reinstated.
use crate::sections::Record;

pub fn absent(record: &Record, rows: &[u32]) -> Option<String> {
    let row = rows.iter().find(|&&row| row >= record.rows)?;
    Some(format!(
        "row {row}: not below the number of rows, {}",
        record.rows
    ))
}

pub fn no_alive_set(record: &Record) -> Option<String> {
    (record.flag == 0).then(|| {
        "alive set: there is none; in a sheet, the entry 'withdrawn' gives one, even without a row"
            .to_string()
    })
}
