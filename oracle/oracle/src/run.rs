//! The crate's merge_columnar on one input.
use std::cell::Cell;
use std::panic::{AssertUnwindSafe, catch_unwind};

use common::{OwnedBytes, ReadOnlyBitSet};
use hook::Mode;
use tantivy_columnar::{
    ColumnIndex, ColumnType, ColumnarReader, ColumnarWriter, DynamicColumn, MergeRowOrder, RowAddr,
    ShuffleMergeOrder, StackMergeOrder, merge_columnar,
};

use crate::model;
use crate::wire::{Input, Listing, Pair, Seg};

thread_local! {
    static CATCHING: Cell<bool> = const { Cell::new(false) };
}

/// Runs what may panic. Its panic is an error with its text; main's hook prints all others.
pub fn caught<T>(f: impl FnOnce() -> T) -> Result<T, String> {
    let before = CATCHING.replace(true);
    let result = catch_unwind(AssertUnwindSafe(f));
    CATCHING.set(before);
    result.map_err(|e| match (e.downcast_ref::<String>(), e.downcast_ref::<&str>()) {
        (Some(text), _) => text.clone(),
        (None, text) => text.copied().unwrap_or_default().to_string(),
    })
}

pub fn catching() -> bool {
    CATCHING.get()
}

fn column_type(code: u32) -> ColumnType {
    match code {
        0 => ColumnType::I64,
        1 => ColumnType::U64,
        2 => ColumnType::F64,
        3 => ColumnType::Bytes,
        4 => ColumnType::Str,
        5 => ColumnType::Bool,
        6 => ColumnType::IpAddr,
        7 => ColumnType::DateTime,
        _ => panic!("no column type {code}"),
    }
}

/// The segment's columnar file.
pub fn segment_file(seg: &Seg) -> Vec<u8> {
    if seg.ty == 255 {
        return ColumnarWriter::segment_file(seg.rows, None);
    }
    let mut lists = ColumnarWriter::lists();
    lists.kind = seg.kind;
    lists.ids = seg.ids.clone();
    lists.offsets = seg.offsets.clone();
    lists.values = seg.values.clone();
    lists.terms = seg.terms.clone();
    ColumnarWriter::segment_file(seg.rows, Some((column_type(seg.ty), &lists)))
}

fn bit_set(rows: u32, words: &[u64]) -> ReadOnlyBitSet {
    let mut data = rows.to_le_bytes().to_vec();
    for word in words {
        data.extend_from_slice(&word.to_le_bytes());
    }
    ReadOnlyBitSet::open(OwnedBytes::new(data))
}

pub fn merge_order(input: &Input, readers: &[&ColumnarReader]) -> MergeRowOrder {
    if input.mode == 0 {
        return StackMergeOrder::stack(readers).into();
    }
    ShuffleMergeOrder {
        new_row_id_to_old_row_id: input
            .addresses
            .iter()
            .map(|&[segment_ord, row_id]| RowAddr { segment_ord, row_id })
            .collect(),
        alive_bitsets: input
            .segs
            .iter()
            .map(|s| s.alive.as_ref().map(|words| bit_set(s.rows, words)))
            .collect(),
    }
    .into()
}

/// What the crate does.
pub enum Raw {
    /// The columns handed to the serializers, one for each category, and the merged file. None
    /// written: one of type 255.
    Columns(Vec<Listing>, Vec<u8>),
    Error(String),
    Panic(String),
}

pub fn merge(input: &Input) -> Raw {
    let result = caught(|| {
        hook::start(Mode::Off);
        let readers: Vec<ColumnarReader> =
            input.segs.iter().map(|seg| ColumnarReader::open(segment_file(seg)).unwrap()).collect();
        let readers: Vec<&ColumnarReader> = readers.iter().collect();
        let required = match input.required {
            255 => vec![],
            code => vec![("c".to_string(), column_type(code))],
        };
        let order = merge_order(input, &readers);
        let mut file = Vec::new();
        hook::start(Mode::Capture);
        let answer = merge_columnar(&readers, &required, order, &mut file);
        let state = hook::take();
        if let Err(e) = answer {
            return Raw::Error(format!("{:?} {e}", e.kind()));
        }
        let merged = ColumnarReader::open(file.clone()).unwrap();
        let handles = merged.list_columns().unwrap();
        // The file's column dictionary is sorted by type code, the captures by category: the same
        // order, since at most one column of a category is written.
        assert_eq!(handles.len(), state.columns.len());
        let mut dictionaries = state.terms.into_iter().zip(state.maps);
        let mut listings = Vec::new();
        for ((_, handle), c) in handles.into_iter().zip(state.columns) {
            let ty = handle.column_type();
            let word = |&v: &u64| ColumnarWriter::internal_to_word(ty, v) as u128;
            let mut l = Listing {
                ty: ty.to_code() as u32,
                class: c.class as u32,
                rows: merged.num_docs(),
                ids: c.ids,
                offsets: c.offsets,
                values: match ty {
                    ColumnType::IpAddr => c.values128,
                    _ => c.values.iter().map(word).collect(),
                },
                pair: pair(&handle.open().unwrap()),
                ..Listing::default()
            };
            if matches!(ty, ColumnType::Str | ColumnType::Bytes) {
                let (terms, maps) = dictionaries.next().unwrap();
                l.terms = terms;
                l.map = maps.concat().into_iter().map(|o| u32::try_from(o).unwrap()).collect();
            }
            if let Some(rows) = c.index_rows {
                assert_eq!(rows, l.rows);
            }
            listings.push(l);
        }
        if listings.is_empty() {
            listings.push(Listing { ty: 255, rows: merged.num_docs(), ..Listing::default() });
        }
        Raw::Columns(listings, file)
    });
    result.unwrap_or_else(Raw::Panic)
}

/// The crate's own least and greatest value of a column with values, of I64 and U64; else 0 and 0, which no
/// crate says.
fn pair(column: &DynamicColumn) -> Pair {
    match column {
        DynamicColumn::I64(c) if c.values.num_vals() > 0 => [c.min_value() as u64, c.max_value() as u64],
        DynamicColumn::U64(c) if c.values.num_vals() > 0 => [c.min_value(), c.max_value()],
        _ => [0, 0],
    }
}

/// Whether a listing's pair is what the crate says.
pub fn says_pair(l: &Listing) -> bool {
    l.ty <= 1 && !l.values.is_empty()
}

/// The one column that the crate makes of an input of one category; an error, a panic or another
/// number of columns as text. What was handed to the serializers is compared with what the crate's
/// reader finds in the merged file, but for the map, which no file holds.
pub fn column(input: &Input) -> Result<Listing, String> {
    match merge(input) {
        Raw::Panic(text) => Err(format!("panic: {text}")),
        Raw::Error(text) => Err(format!("error: {text}")),
        Raw::Columns(mut listings, file) => {
            if listings.len() != 1 {
                return Err(format!("{} columns", listings.len()));
            }
            let listing = listings.pop().unwrap();
            // The reader has the limit of `beyond_the_crate` too.
            if listing.ids.is_empty() || listing.rows <= MOST_ROWS {
                let read = caught(|| Listing { map: listing.map.clone(), ..reopen(file) });
                if read.as_ref() != Ok(&listing) {
                    return Err("the merged file differs from what was handed over".into());
                }
            }
            Ok(listing)
        }
    }
}

/// The most rows of a kind 2 or 4 segment with a value that the crate can read: above it,
/// OptionalIndex::find_block counts 65,536 blocks as a u16, which is 0, and the crate panics.
pub const MOST_ROWS: u32 = 4294901760;

/// Inputs that document 01 accepts and the crate panics on.
pub fn beyond_the_crate(input: &Input) -> bool {
    input.segs.iter().any(|s| matches!(s.kind, 2 | 4) && !s.values.is_empty() && s.rows > MOST_ROWS)
}

/// How many offsets the crate repeats where document 01's have no repeats: one for each row of no
/// value in a held kind 3 segment of a stacked merge. Its row ids skip that row.
pub fn repeats(input: &Input) -> usize {
    if input.mode == 1 {
        return 0;
    }
    let held = input.segs.iter().filter(|s| s.kind == 3 && model::held(s));
    held.map(|s| s.offsets.windows(2).filter(|w| w[0] == w[1]).count()).sum()
}

/// Takes exactly those out of what the crate made of stored segments; an error if it repeats others.
pub fn take_repeats_out(stored: &Input, l: &mut Listing) -> Result<(), String> {
    let (repeats, before) = (repeats(stored), l.offsets.len());
    if repeats > 0 {
        l.offsets.dedup();
    }
    match before - l.offsets.len() {
        n if n == repeats => Ok(()),
        n => Err(format!("the crate repeats {n} offsets, {repeats} rows have no value")),
    }
}

/// The merged file opened again by the crate's reader.
fn reopen(file: Vec<u8>) -> Listing {
    let reader = ColumnarReader::open(file).unwrap();
    let handles = reader.list_columns().unwrap();
    let mut l = Listing { ty: 255, rows: reader.num_docs(), ..Listing::default() };
    let Some((_, handle)) = handles.first() else { return l };
    l.ty = handle.column_type().to_code() as u32;
    let column = handle.open().unwrap();
    l.pair = pair(&column);
    l.class = column.get_cardinality() as u32;
    match column.column_index() {
        ColumnIndex::Full => {}
        ColumnIndex::Empty { .. } => panic!("no file holds this"),
        ColumnIndex::Optional(index) => l.ids = index.iter_non_null_docs().collect(),
        ColumnIndex::Multivalued(index) => {
            l.ids = index.iter_non_null_docs().collect();
            l.offsets = index.get_start_index_column().iter().collect();
        }
    }
    l.values = match &column {
        DynamicColumn::Bool(c) => c.values.iter().map(u128::from).collect(),
        DynamicColumn::I64(c) => c.values.iter().map(|v| v as u64 as u128).collect(),
        DynamicColumn::U64(c) => c.values.iter().map(u128::from).collect(),
        DynamicColumn::F64(c) => c.values.iter().map(|v| v.to_bits() as u128).collect(),
        DynamicColumn::DateTime(c) => {
            c.values.iter().map(|v| v.into_timestamp_nanos() as u64 as u128).collect()
        }
        DynamicColumn::IpAddr(c) => c.values.iter().map(u128::from).collect(),
        DynamicColumn::Bytes(c) => c.ords().values.iter().map(u128::from).collect(),
        DynamicColumn::Str(c) => c.ords().values.iter().map(u128::from).collect(),
    };
    let bytes = match &column {
        DynamicColumn::Bytes(c) => Some(c.clone()),
        DynamicColumn::Str(c) => Some(c.clone().into()),
        _ => None,
    };
    if let Some(bytes) = bytes {
        for ord in 0..bytes.num_terms() as u64 {
            let mut term = Vec::new();
            assert!(bytes.ord_to_bytes(ord, &mut term).unwrap());
            l.terms.push(term);
        }
    }
    l
}
