//! Answer 9: the addresses.
use super::words::nth;
use crate::codes::mode;
use crate::sections::{Address, Cut, Sections};
use std::collections::HashMap;

pub fn addresses(s: &Sections, segments: &[Cut<'_>]) -> Option<String> {
    if s.mode == mode::STACKED {
        let number = s.addresses.len();
        return (number > 0)
            .then(|| format!("addresses: a stacked join takes none, and it is given {number}"));
    }
    let mut places: HashMap<Address, usize> = HashMap::new();
    for (place, &address) in s.addresses.iter().enumerate() {
        let wrong = absent(address, segments).or_else(|| {
            let before = places.insert(address, place)?;
            Some(format!("listed before, as the {}", nth(before)))
        });
        if let Some(why) = wrong {
            let Address { segment, row } = address;
            return Some(format!(
                "address {segment}:{row} (the {}): {why}",
                nth(place)
            ));
        }
    }
    segments.iter().enumerate().find_map(|(i, cut)| {
        let listed = |row| {
            places.contains_key(&Address {
                segment: i as u32,
                row,
            })
        };
        let row = (0..cut.record.rows).find(|&row| cut.is_alive(row) && !listed(row))?;
        Some(format!(
            "segment {i}, row {row}: not withdrawn, and no address names it"
        ))
    })
}

/// Why an address names no alive row.
fn absent(address: Address, segments: &[Cut<'_>]) -> Option<String> {
    let Some(cut) = segments.get(address.segment as usize) else {
        return Some(match segments.len() {
            0 => "there are no segments".to_string(),
            n => format!("the last segment is {}", n - 1),
        });
    };
    let rows = cut.record.rows;
    if address.row >= rows {
        return Some(format!("not below the segment's number of rows, {rows}"));
    }
    (!cut.is_alive(address.row)).then(|| "the row is withdrawn".to_string())
}
