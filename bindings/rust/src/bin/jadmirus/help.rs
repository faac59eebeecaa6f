//! What `--help` prints.
use crate::arguments::Command;

pub const WHOLE: &str = "\
Joins the segments of one play-log column, by the proved library of Jadmirus.

  jadmirus join FILE      join the segments and list the column
  jadmirus order FILE     put the rows of a column of times in time order
  jadmirus check FILE     say what would be refused, and where
  jadmirus convert FILE   make old multivalued segments new ones, which can be joined
  jadmirus withdraw FILE SEGMENT ROW...    withdraw plays
  jadmirus reinstate FILE SEGMENT ROW...   reinstate plays that were withdrawn
  jadmirus encode SHEET   write a sheet's wire form
  jadmirus show FILE      write a wire form as a sheet

FILE is a sheet (text, see below) or a wire form (64-bit words), which is told from its
first bytes; '-' is standard input. 'jadmirus COMMAND --help' says more of each command.

Exit status: 0 accepted; 1 refused; 2 failed (usage, files, memory).

A sheet, here of two days:

  mode stacked            # or: ordered, and then 'addresses 0:3 1:0 ...' (segment:row)
  required none           # or the type that the joined column must have

  segment
  type Str                # I64 U64 F64 Bytes Str Bool IpAddr DateTime; none: no column
  kind Optional           # Empty Full Optional NewMultivalued; OldMultivalued: to convert
  rows 3
  ids 0 2                 # the rows with a value
  values \"Air\" \"Can\"      # or ordinals, and then 'terms \"Air\" \"Can\"'

  segment type Str kind Full values \"Can\" \"Air\"

Lists may go on over lines. 'withdrawn 1 5' withdraws rows of a segment in an ordered join.
'least -7' and 'greatest 5' state what an I64 or U64 column's record holds; they are found if they
are left out, and refused if they are untrue. Numbers are decimal, or hexadecimal after 0x. Values
of type IpAddr, the addresses of listeners, are written as IPv6 or IPv4 addresses. FORMAT.md has
the whole of it.
";

const JOIN: &str = "\
jadmirus join FILE [--rows|--numbers] [--output FILE] [--as sheet|wire] [--from sheet|wire]

Joins the segments of FILE and lists the column: answer, type, class, rows, then ids,
offsets, values, terms and maps, each after its number of elements. Values are unsigned
64-bit words, an IpAddr is its two, the high word first; terms are in hexadecimal ('-': empty).
A refusal is listed as its answer's number alone; its name and meaning go to standard error, and
'jadmirus check FILE' says where it comes from. Segments of kind OldMultivalued are refused
(answer 19) until 'jadmirus convert' has made them new ones.

  --rows          print the rows in the listing's place: each that has values, its number (from
                  0) and its values as in a sheet
  --numbers       print the numbers of the result in the listing's place: type, class, rows, how
                  many elements each list has, how many term bytes were copied, and the least and
                  the greatest value of an I64 or U64 column as unsigned words (else 0 and 0)
  --output FILE   write the joined column too, as one segment to be joined again: sheets of
                  results can be put together ('cat week1 week2 | jadmirus join -').
                  '-': to standard output, in the listing's place
  --as FORM       the form of that output: sheet (if it isn't said) or wire
  --from FORM     the form of the input, if it can't be told from its first bytes

Exit status: 0 joined; 1 refused; 2 failed (usage, files, memory).
";

const ORDER: &str = "\
jadmirus order FILE [--output FILE] [--from sheet|wire]

Sorts the rows that are not withdrawn by time, then segment, then row, and writes them as
an 'addresses' entry for the sheet of an ordered join. The segments hold DateTime columns, or
none. A row without a time goes by the last time before it in its segment; at the start of a
segment, by the first time after it. Times of withdrawn rows count in this. A segment without
any time stands before all times. Mode, required type and addresses of FILE play no part. A
refusal prints 'answer' and its number; that of an OldMultivalued segment is 19, and 'jadmirus
convert' makes it a new one.

  --output FILE   write to that file instead of standard output
  --from FORM     the form of the input (sheet or wire), if it can't be told

Exit status: 0 ordered; 1 refused; 2 failed (usage, files, memory).
";

const CHECK: &str = "\
jadmirus check FILE [--times] [--from sheet|wire]

Says whether the join of FILE is accepted, and if not, what is wrong and where: segment, row,
place in the list. Segments and rows are counted from 0, as in FILE; 'the 2nd' is a place
in a list. What is said is found by a walk of its own through FILE and compared with the
library's answer; should they differ, that is said, and the status is 2.

  --times         check for the time order ('jadmirus order'), not for a join
  --from FORM     the form of the input (sheet or wire), if it can't be told

Exit status: 0 accepted; 1 refused; 2 failed (usage, files, memory).
";

const CONVERT: &str = "\
jadmirus convert FILE [--output FILE] [--from sheet|wire]

Makes every segment of kind OldMultivalued one of kind NewMultivalued, which is what a join or
a time order takes, and writes FILE with them: a sheet as a sheet, a wire form as a wire form.
Each row has the same values in the same order. In a sheet, these segments' kind, ids and
offsets are changed, and 'rows' is put in where it was left out; what else is in FILE stays as
it is, comments too. A FILE without old segments comes out as it is.

If a segment can't be converted, none is, and no FILE is written: 'answer' and its number are
printed instead, and which segment it is and why goes to standard error.

  --output FILE   write to that file instead of standard output; it may be FILE itself
  --from FORM     the form of the input (sheet or wire), if it can't be told

Exit status: 0 converted; 1 refused; 2 failed (usage, files, memory).
";

const WITHDRAW: &str = "\
jadmirus withdraw FILE SEGMENT ROW... [--output FILE] [--from sheet|wire]

Withdraws rows of a segment, all of them or none, and writes FILE with that: a sheet as a sheet,
a wire form as a wire form. Ordered joins and time orders leave withdrawn rows out. SEGMENT and
ROW are counted from 0. In a sheet, the segment's 'withdrawn' or 'alive' is changed, and
'alive-rows' if it stands there; what else is in FILE stays as it is, comments too. Addresses
stay as well: withdraw the row in the column of times, and order that anew. Whether anything
changed goes to standard error; if all rows were withdrawn already, FILE comes out as it is.

The segment must have an alive set: in a sheet, 'withdrawn' gives it one, even without a row. If
a row can't be withdrawn, none is, and no FILE is written: 'answer' and its number are printed
instead, and why goes to standard error.

  --output FILE   write to that file instead of standard output; it may be FILE itself
  --from FORM     the form of the input (sheet or wire), if it can't be told

Exit status: 0 withdrawn; 1 refused; 2 failed (usage, files, memory).
";

const REINSTATE: &str = "\
jadmirus reinstate FILE SEGMENT ROW... [--output FILE] [--from sheet|wire]

Reinstates rows of a segment that were withdrawn, all of them or none, and writes FILE with that,
just as 'jadmirus withdraw' does ('jadmirus withdraw --help').

  --output FILE   write to that file instead of standard output; it may be FILE itself
  --from FORM     the form of the input (sheet or wire), if it can't be told

Exit status: 0 reinstated; 1 refused; 2 failed (usage, files, memory).
";

const ENCODE: &str = "\
jadmirus encode SHEET [--output FILE] [--from sheet|wire]

Writes the wire form of a sheet: nine sections, each after its count, every number as a 64-bit
word with the lowest byte first. An IpAddr is two words, the high one first, and both count in
the values' count. It is what the joining program reads.

  --output FILE   write to that file instead of standard output
  --from FORM     the form of the input (sheet or wire), if it can't be told

Exit status: 0 written; 2 failed (usage, files, memory).
";

const SHOW: &str = "\
jadmirus show FILE [--output FILE] [--from sheet|wire]

Writes a wire form as a sheet, from which 'jadmirus encode' makes the same bytes again. A column
of type I64 or U64 has its record's 'least' and 'greatest' value. Lists that don't fit the
segments' records stand as wholes, with a word on where they differ.

  --output FILE   write to that file instead of standard output
  --from FORM     the form of the input (sheet or wire), if it can't be told

Exit status: 0 written; 2 failed (usage, files, memory).
";

pub fn of(command: Command) -> &'static str {
    match command {
        Command::Join => JOIN,
        Command::Order => ORDER,
        Command::Check => CHECK,
        Command::Convert => CONVERT,
        Command::Withdraw => WITHDRAW,
        Command::Reinstate => REINSTATE,
        Command::Encode => ENCODE,
        Command::Show => SHOW,
    }
}
