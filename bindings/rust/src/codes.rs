//! The numbers that stand for types, classes, kinds and modes.

/// The type of a column's values.
#[derive(Clone, Copy, Debug, PartialEq, Eq, Hash)]
pub enum ColumnType {
    I64,
    U64,
    F64,
    Bytes,
    Str,
    Bool,
    IpAddr,
    DateTime,
}

/// The code of "no column" and of "no required type".
pub(crate) const NO_TYPE: u32 = 255;

impl ColumnType {
    pub const ALL: [ColumnType; 8] = [
        ColumnType::I64,
        ColumnType::U64,
        ColumnType::F64,
        ColumnType::Bytes,
        ColumnType::Str,
        ColumnType::Bool,
        ColumnType::IpAddr,
        ColumnType::DateTime,
    ];

    /// The type's number in a record.
    pub fn code(self) -> u32 {
        match self {
            ColumnType::I64 => 0,
            ColumnType::U64 => 1,
            ColumnType::F64 => 2,
            ColumnType::Bytes => 3,
            ColumnType::Str => 4,
            ColumnType::Bool => 5,
            ColumnType::IpAddr => 6,
            ColumnType::DateTime => 7,
        }
    }

    pub fn from_code(code: u32) -> Option<ColumnType> {
        ColumnType::ALL.into_iter().find(|t| t.code() == code)
    }

    pub fn name(self) -> &'static str {
        match self {
            ColumnType::I64 => "I64",
            ColumnType::U64 => "U64",
            ColumnType::F64 => "F64",
            ColumnType::Bytes => "Bytes",
            ColumnType::Str => "Str",
            ColumnType::Bool => "Bool",
            ColumnType::IpAddr => "IpAddr",
            ColumnType::DateTime => "DateTime",
        }
    }

    /// How many 64-bit words a value has: two for IpAddr, the high word first, else one.
    pub fn words_per_value(self) -> usize {
        if self == ColumnType::IpAddr { 2 } else { 1 }
    }

    /// Whether the values are ordinals of terms.
    pub fn has_terms(self) -> bool {
        matches!(self, ColumnType::Bytes | ColumnType::Str)
    }

    /// Whether a record holds the least and the greatest value of such a column.
    pub fn has_pair(self) -> bool {
        matches!(self, ColumnType::I64 | ColumnType::U64)
    }

    /// Whether the type is one of the three of numbers, which can be joined with one another.
    pub fn is_number(self) -> bool {
        matches!(self, ColumnType::I64 | ColumnType::U64 | ColumnType::F64)
    }
}

pub(crate) fn code_of(typ: Option<ColumnType>) -> u32 {
    typ.map_or(NO_TYPE, ColumnType::code)
}

/// The words of a value. Without a known type it is one: lengths are checked before types.
pub(crate) fn words_per_value(typ: Option<ColumnType>) -> usize {
    typ.map_or(1, ColumnType::words_per_value)
}

/// How many values the rows of a joined column have.
#[derive(Clone, Copy, Debug, PartialEq, Eq, PartialOrd, Ord, Hash)]
pub enum Class {
    /// One in each row.
    Full,
    /// At most one in each row.
    Optional,
    /// Any number.
    Multivalued,
}

impl Class {
    /// The class's number in a listing.
    pub fn code(self) -> u32 {
        self as u32
    }

    pub fn from_code(code: u64) -> Option<Class> {
        [Class::Full, Class::Optional, Class::Multivalued]
            .into_iter()
            .find(|c| u64::from(c.code()) == code)
    }
}

pub(crate) mod kind {
    pub const EMPTY: u32 = 0;
    pub const FULL: u32 = 1;
    pub const OPTIONAL: u32 = 2;
    pub const OLD_MULTIVALUED: u32 = 3;
    pub const NEW_MULTIVALUED: u32 = 4;

    /// The kinds' names in a sheet, each at its number.
    pub const NAMES: [&str; 5] = [
        "Empty",
        "Full",
        "Optional",
        "OldMultivalued",
        "NewMultivalued",
    ];
}

pub(crate) mod mode {
    pub const STACKED: u32 = 0;
    pub const ORDERED: u32 = 1;

    /// The modes' names in a sheet, each at its number.
    pub const NAMES: [&str; 2] = ["stacked", "ordered"];
}
