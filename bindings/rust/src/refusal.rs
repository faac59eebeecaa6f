use std::error::Error;
use std::fmt;

/// Why a call was refused: the library's answers 1 to 12, 15, 16 and 19. The checks run in the order
/// in which they stand here, 19 between 3 and 4, each over all segments, and the first that fails
/// is told.
#[derive(Clone, Copy, Debug, PartialEq, Eq, Hash)]
#[non_exhaustive]
pub enum Refusal {
    /// 1: more than 256 segments.
    TooManySegments,
    /// 2: a list's length is not what is announced.
    Lengths,
    /// 3: an unknown mode, type, kind or flag, or lists of no column.
    UnknownCode,
    /// 19: a segment of kind 3, old multivalued, which [`convert`](crate::convert) alone takes.
    OldMultivalued,
    /// 4: row ids, offsets or the number of values don't fit the kind.
    RowLists,
    /// 5: values or terms don't fit the type, or a least or greatest value is not that of the values.
    Contents,
    /// 6: an alive set past the rows or in a stacked join, or a wrong number of alive rows.
    AliveSet,
    /// 7: rows, values or term bytes sum above 4294967294.
    TooLarge,
    /// 8: too little working space; not by this crate's calls.
    WorkingSpace,
    /// 9: the addresses are not the alive rows, each once.
    Addresses,
    /// 10: types that can't be one column.
    Types,
    /// 11: too little space for the result; a time order gives it if memory is short.
    OutputSpace,
    /// 12: no column of times, several times in a row, or falling times.
    Times,
    /// 15: a row that is to be withdrawn or reinstated, and isn't below the segment's rows.
    AbsentRow,
    /// 16: no alive set, in which a row could be withdrawn or reinstated.
    NoAliveSet,
    /// An answer that this crate doesn't know: the library is of another version.
    Unlisted(u32),
}

/// The answers but 0 in the order of the checks, each with its number, its name and its meaning.
const LISTED: [(Refusal, u32, &str, &str); 15] = [
    (
        Refusal::TooManySegments,
        1,
        "too many segments",
        "There are more than 256 segments; join them in groups and then join the results.",
    ),
    (
        Refusal::Lengths,
        2,
        "lengths",
        "A list is longer or shorter than the segments announce it.",
    ),
    (
        Refusal::UnknownCode,
        3,
        "unknown code",
        "A mode, type, kind or flag is none of the known ones, or a segment without a column has \
         a kind or lists.",
    ),
    (
        Refusal::OldMultivalued,
        19,
        "old multivalued",
        "A segment is of kind 3, old multivalued; convert it first ('jadmirus convert').",
    ),
    (
        Refusal::RowLists,
        4,
        "row lists",
        "A segment's row ids, its offsets or the number of its values don't fit its kind and its \
         rows.",
    ),
    (
        Refusal::Contents,
        5,
        "values or terms",
        "A value is impossible for its type, a segment's terms are not strictly ascending or stand \
         where there can be none, or its least or greatest value is not that of its values.",
    ),
    (
        Refusal::AliveSet,
        6,
        "alive set",
        "An alive set marks a row past the segment's rows or stands in a stacked join, or a \
         segment's number of alive rows is wrong.",
    ),
    (
        Refusal::TooLarge,
        7,
        "too large",
        "All rows, all values or all bytes of terms together are more than 4294967294.",
    ),
    (
        Refusal::WorkingSpace,
        8,
        "working space",
        "The working space is less than a byte for each row and each term.",
    ),
    (
        Refusal::Addresses,
        9,
        "addresses",
        "The addresses don't name every row that isn't withdrawn exactly once, or they stand in a \
         stacked join.",
    ),
    (
        Refusal::Types,
        10,
        "types",
        "The columns and the required type can't be one column, or a value doesn't fit the joined \
         type.",
    ),
    (
        Refusal::OutputSpace,
        11,
        "output space",
        "The space for a list of the result is too short.",
    ),
    (
        Refusal::Times,
        12,
        "times",
        "A column is not one of times, a row has several times, or times fall within a segment.",
    ),
    (
        Refusal::AbsentRow,
        15,
        "absent row",
        "A row to withdraw or to reinstate is not below the segment's number of rows.",
    ),
    (
        Refusal::NoAliveSet,
        16,
        "no alive set",
        "The segment has no alive set, so its rows can't be withdrawn or reinstated; give it one \
         first.",
    ),
];

const UNLISTED: (&str, &str) = (
    "unlisted answer",
    "The library gave an answer that this program doesn't know; they are of different versions.",
);

impl Refusal {
    /// The answers 1 to 12, 15, 16 and 19, in the order of the checks.
    pub fn all() -> [Refusal; 15] {
        LISTED.map(|(refusal, _, _, _)| refusal)
    }

    /// The refusal that an answer other than 0 stands for.
    pub(crate) fn from_answer(answer: u32) -> Refusal {
        let listed = Refusal::all().into_iter().find(|r| r.number() == answer);
        listed.unwrap_or(Refusal::Unlisted(answer))
    }

    /// The answer's number.
    pub fn number(self) -> u32 {
        match (self, self.place()) {
            (_, Some(place)) => LISTED[place].1,
            (Refusal::Unlisted(answer), None) => answer,
            (_, None) => unreachable!("all others are listed"),
        }
    }

    /// The answer in a word or two.
    pub fn name(self) -> &'static str {
        self.place().map_or(UNLISTED.0, |place| LISTED[place].2)
    }

    /// The answer in a plain sentence.
    pub fn sentence(self) -> &'static str {
        self.place().map_or(UNLISTED.1, |place| LISTED[place].3)
    }

    fn place(self) -> Option<usize> {
        LISTED
            .iter()
            .position(|(refusal, _, _, _)| *refusal == self)
    }
}

impl fmt::Display for Refusal {
    fn fmt(&self, f: &mut fmt::Formatter<'_>) -> fmt::Result {
        write!(
            f,
            "answer {} ({}): {}",
            self.number(),
            self.name(),
            self.sentence()
        )
    }
}

impl Error for Refusal {}
