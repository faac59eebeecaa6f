// WRAPPER around the crate's column/serialize.rs (serialize_unchanged.rs, byte for byte):
// what the merge hands to the serializers is recorded, then the crate's ones are called.
#[path = "serialize_unchanged.rs"]
mod unchanged;

use std::io::{self, Write};

use hook::{Captured, Mode};
pub(crate) use unchanged::serialize_generated_tie_breaker_column;
pub use unchanged::{
    open_column_bytes, open_column_str, open_column_u64, open_column_u128,
    open_column_u128_as_compact_u64,
};

use crate::column_index::{SerializableColumnIndex, SerializableOptionalIndex};
use crate::column_values::{MonotonicallyMappableToU64, MonotonicallyMappableToU128};
use crate::iterable::Iterable;

fn drain(iterable: &dyn Iterable<u32>) -> Vec<u32> {
    let mut list = hook::list32();
    for el in iterable.boxed_iter() {
        list.push(el);
    }
    list
}

fn record_index(index: &SerializableColumnIndex<'_>) -> Captured {
    let mut captured = Captured { class: index.get_cardinality().to_code(), ..Captured::default() };
    let mut optional = |optional: &SerializableOptionalIndex<'_>| {
        captured.index_rows = Some(optional.num_rows);
        captured.ids = drain(&*optional.non_null_row_ids);
    };
    match index {
        SerializableColumnIndex::Full => {}
        SerializableColumnIndex::Optional(index) => optional(index),
        SerializableColumnIndex::Multivalued(index) => {
            optional(&index.doc_ids_with_values);
            captured.offsets = drain(&*index.start_offsets);
        }
    }
    captured
}

/// Records index and values, these by the function given; false if nothing is to be written.
fn record(
    index: &SerializableColumnIndex<'_>,
    record_values: impl FnOnce(&mut Captured),
) -> bool {
    let mode = hook::mode();
    if mode == Mode::Off {
        return true;
    }
    let now = || if mode == Mode::Drain { hook::now() } else { Default::default() };
    let t0 = now();
    let mut captured = record_index(index);
    let t1 = now();
    record_values(&mut captured);
    let t2 = now();
    hook::with(|s| {
        s.columns.push(captured);
        s.index_time += t1 - t0;
        s.values_time += t2 - t1;
    });
    mode != Mode::Drain
}

pub fn serialize_column_mappable_to_u64<T: MonotonicallyMappableToU64>(
    column_index: SerializableColumnIndex<'_>,
    column_values: &impl Iterable<T>,
    output: &mut impl Write,
) -> io::Result<()> {
    let to_write = record(&column_index, |captured| {
        captured.values = hook::list64();
        for value in column_values.boxed_iter() {
            captured.values.push(value.to_u64());
        }
    });
    if !to_write {
        return Ok(());
    }
    unchanged::serialize_column_mappable_to_u64(column_index, column_values, output)
}

pub fn serialize_column_mappable_to_u128<T: MonotonicallyMappableToU128>(
    column_index: SerializableColumnIndex<'_>,
    iterable: &dyn Iterable<T>,
    output: &mut impl Write,
) -> io::Result<()> {
    let to_write = record(&column_index, |captured| {
        captured.values128 = hook::list128();
        for value in iterable.boxed_iter() {
            captured.values128.push(value.to_u128());
        }
    });
    if !to_write {
        return Ok(());
    }
    unchanged::serialize_column_mappable_to_u128(column_index, iterable, output)
}
