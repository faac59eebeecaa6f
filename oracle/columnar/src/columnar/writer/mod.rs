// STAND-IN for columnar/writer/mod.rs. Instead of the crate's writer, ColumnarWriter here makes
// the file of one segment with at most one column from lists, with the crate's own
// ColumnarSerializer and serializers (unchanged), so that the crate's reader opens it.
mod column_operation;
mod column_writers;
mod serializer;

use std::io::{self, Write};
use std::net::Ipv6Addr;

use common::DateTime;
use sstable::{SSTable, VoidSSTable};

pub(crate) use column_writers::CompatibleNumericalTypes;
pub(crate) use serializer::ColumnarSerializer;

use crate::column::{serialize_column_mappable_to_u64, serialize_column_mappable_to_u128};
use crate::column_index::{
    SerializableColumnIndex, SerializableMultivalueIndex, SerializableOptionalIndex,
};
use crate::column_values::{
    CodecType, MonotonicallyMappableToU64, serialize_column_values_u128,
    serialize_u64_based_column_values,
};
use crate::{ColumnType, RowId, Version};

pub struct ColumnarWriter;

/// A column as document 01 gives it, each value as one number: of an address the high word times 2^64
/// plus the low one.
#[derive(Clone, Debug, Default)]
pub struct ColumnLists {
    pub kind: u32,
    pub ids: Vec<u32>,
    pub offsets: Vec<u32>,
    pub values: Vec<u128>,
    pub terms: Vec<Vec<u8>>,
}

impl ColumnarWriter {
    pub fn lists() -> ColumnLists {
        ColumnLists::default()
    }

    /// Document 01's word -> the crate's monotonic u64.
    pub fn word_to_internal(column_type: ColumnType, word: u64) -> u64 {
        match column_type {
            ColumnType::I64 => (word as i64).to_u64(),
            ColumnType::F64 => f64::from_bits(word).to_u64(),
            ColumnType::DateTime => DateTime::from_timestamp_nanos(word as i64).to_u64(),
            _ => word,
        }
    }

    /// The crate's monotonic u64 -> document 01's word.
    pub fn internal_to_word(column_type: ColumnType, val: u64) -> u64 {
        match column_type {
            ColumnType::I64 => i64::from_u64(val) as u64,
            ColumnType::F64 => f64::from_u64(val).to_bits(),
            ColumnType::DateTime => DateTime::from_u64(val).into_timestamp_nanos() as u64,
            _ => val,
        }
    }

    /// Bytes of a columnar file with `rows` rows and the given column, if any, named "c".
    pub fn segment_file(rows: RowId, column: Option<(ColumnType, &ColumnLists)>) -> Vec<u8> {
        let mut file = Vec::new();
        let mut version = Version::V2;
        let mut serializer = ColumnarSerializer::new(&mut file);
        if let Some((column_type, lists)) = column {
            let mut out = serializer.start_serialize_column(b"c", column_type);
            if lists.kind == 3 {
                version = Version::V1;
            }
            write_column(rows, column_type, lists, &mut out).unwrap();
            out.finalize().unwrap();
        }
        serializer.finalize(rows).unwrap();
        // The serializer writes the current version (2), in the last byte.
        *file.last_mut().unwrap() = version as u8;
        file
    }
}

fn write_column(
    rows: RowId,
    column_type: ColumnType,
    lists: &ColumnLists,
    out: &mut impl Write,
) -> io::Result<()> {
    let mut dictionary_num_bytes = None;
    if matches!(column_type, ColumnType::Str | ColumnType::Bytes) {
        let mut dictionary = VoidSSTable::writer(Vec::new());
        for term in &lists.terms {
            dictionary.insert(term, &())?;
        }
        let bytes = dictionary.finish()?;
        out.write_all(&bytes)?;
        dictionary_num_bytes = Some(bytes.len() as u32);
    }
    let optional = || SerializableOptionalIndex {
        non_null_row_ids: Box::new(&lists.ids[..]),
        num_rows: rows,
    };
    let index = match lists.kind {
        1 => Some(SerializableColumnIndex::Full),
        // No file of the crate holds ColumnIndex::Empty: an Optional column without ids.
        0 | 2 => Some(SerializableColumnIndex::Optional(optional())),
        4 => Some(SerializableColumnIndex::Multivalued(SerializableMultivalueIndex {
            doc_ids_with_values: optional(),
            start_offsets: Box::new(&lists.offsets[..]),
        })),
        _ => None,
    };
    match index {
        Some(index) => write_indexed(index, column_type, lists, out)?,
        None => {
            // Version 1: the cardinality code, then the start offsets alone.
            let mut index_bytes = vec![2u8];
            let codecs = &[CodecType::Bitpacked];
            serialize_u64_based_column_values(&&lists.offsets[..], codecs, &mut index_bytes)?;
            out.write_all(&index_bytes)?;
            match column_type {
                ColumnType::IpAddr => serialize_column_values_u128(&&addresses(lists)[..], out)?,
                _ => {
                    let internal = internal(column_type, lists);
                    serialize_u64_based_column_values(&&internal[..], codecs, out)?
                }
            }
            out.write_all(&(index_bytes.len() as u32).to_le_bytes())?;
        }
    }
    if let Some(n) = dictionary_num_bytes {
        out.write_all(&n.to_le_bytes())?;
    }
    Ok(())
}

fn write_indexed(
    index: SerializableColumnIndex<'_>,
    column_type: ColumnType,
    lists: &ColumnLists,
    out: &mut impl Write,
) -> io::Result<()> {
    match column_type {
        ColumnType::IpAddr => serialize_column_mappable_to_u128(index, &&addresses(lists)[..], out),
        _ => serialize_column_mappable_to_u64(index, &&internal(column_type, lists)[..], out),
    }
}

fn addresses(lists: &ColumnLists) -> Vec<Ipv6Addr> {
    lists.values.iter().map(|&value| Ipv6Addr::from(value)).collect()
}

fn internal(column_type: ColumnType, lists: &ColumnLists) -> Vec<u64> {
    let words = lists.values.iter().map(|&value| value as u64);
    words.map(|word| ColumnarWriter::word_to_internal(column_type, word)).collect()
}
