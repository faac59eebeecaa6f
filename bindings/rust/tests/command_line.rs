//! The command line, as a process.
mod common;

use common::program::{accepted, file, jadmirus, run, wire};
use std::fs;
use std::path::PathBuf;

const C1: &str = "mode stacked\n\
    segment type Str kind Optional rows 2 ids 1 values 0 terms \"b\"\n\
    segment type Str kind Full rows 2 values 1 0 terms \"a\" \"b\"\n";
const C1_LISTING: &str = "answer 0\ntype 4\nclass 1\nrows 4\nids 3 1 2 3\noffsets 0\n\
    values 3 1 1 0\nterms 2 61 62\nmaps 3 1 0 1\n";
const C13: &str = "segment type DateTime kind Optional rows 3 ids 0 2 values 10 30\n\
    segment type DateTime kind Optional rows 2 ids 1 values 20\n";

#[test]
fn join_of_a_sheet_and_of_its_wire_form() {
    assert_eq!(accepted(&["join", "-"], C1.as_bytes()), C1_LISTING);
    let encoded = jadmirus(&["encode", "-"], C1.as_bytes()).stdout;
    let expected = [
        &[2, 0, 255, 2, 4, 2, 2, 1, 0, 1, 1, 0, 2, 0, 0][..],
        &[4, 1, 2, 0, 0, 2, 2, 0, 2, 0, 0],
        &[1, 1, 0, 3, 0, 1, 0, 3, 1, 1, 1, 3, 98, 97, 98, 0, 0],
    ];
    assert_eq!(encoded, wire(&expected.concat()));
    let path = file("c1.wire");
    fs::write(&path, encoded).unwrap();
    assert_eq!(accepted(&["join", &path], b""), C1_LISTING);
    assert_eq!(
        accepted(&["join", "--from", "wire", &path], b""),
        C1_LISTING
    );
    assert_eq!(accepted(&["check", &path], b""), "answer 0\naccepted\n");
}

#[test]
fn rows_in_words() {
    assert_eq!(
        accepted(&["join", "--rows", "-"], C1.as_bytes()),
        "1 \"b\"\n2 \"b\"\n3 \"a\"\n"
    );
}

/// Type, class and rows, the listing's counts, the term bytes (a and b, copied once) and the pair,
/// which a column of texts doesn't have.
#[test]
fn numbers_alone() {
    let text = "answer 0\ntype 4\nclass 1\nrows 4\nids 3\noffsets 0\nvalues 3\nterms 2\n\
        term-bytes 2\nmaps 3\nterm-bytes-copied 2\nleast 0\ngreatest 0\n";
    assert_eq!(accepted(&["join", "--numbers", "-"], C1.as_bytes()), text);
    let path = file("numbers.sheet");
    let words = ["join", "--numbers", "--output", &path, "-"];
    assert_eq!(accepted(&words, C1.as_bytes()), text);
    assert!(
        fs::read_to_string(&path)
            .unwrap()
            .contains("terms \"a\" \"b\"")
    );
    let (out, _, status) = run(
        &["join", "--numbers", "-"],
        b"segment type 8 kind Full values 1",
    );
    assert_eq!((&*out, status), ("answer 3\n", 1));
}

/// A day of votes, up and down, and one of votes up alone.
const VOTES: &str = "segment type I64 kind Full values 5 -7\n\
    segment type U64 kind Optional rows 2 ids 1 values 9\n";

/// The pair stands in the record and comes with the numbers, as unsigned words; the listing doesn't
/// have it.
#[test]
fn least_and_greatest() {
    let numbers = accepted(&["join", "--numbers", "-"], VOTES.as_bytes());
    let pair = "\nterm-bytes-copied 0\nleast 18446744073709551609\ngreatest 9\n";
    assert!(numbers.ends_with(pair), "{numbers}");
    let listing = "answer 0\ntype 0\nclass 1\nrows 4\nids 3 0 1 3\noffsets 0\n\
        values 3 5 18446744073709551609 9\nterms 0\nmaps 0\n";
    assert_eq!(accepted(&["join", "-"], VOTES.as_bytes()), listing);
    let encoded = jadmirus(&["encode", "-"], VOTES.as_bytes()).stdout;
    let minus_7 = -7i64 as u64;
    let words = [
        &[2, 0, 255, 2, 0, 1, 2, 0, 0, 2, 0, 0, 2, minus_7, 5][..],
        &[1, 2, 2, 1, 0, 1, 0, 0, 2, 9, 9],
        &[1, 1, 0, 3, 5, minus_7, 9, 0, 0, 0, 0],
    ];
    assert_eq!(encoded, wire(&words.concat()));
    let shown = accepted(&["show", "-"], &encoded);
    let text = "mode stacked\nrequired none\n\n\
        segment\ntype I64\nkind Full\nrows 2\nvalues 5 -7\nleast -7\ngreatest 5\n\n\
        segment\ntype U64\nkind Optional\nrows 2\nids 1\nvalues 9\nleast 9\ngreatest 9\n";
    assert_eq!(shown, text);
    assert_eq!(jadmirus(&["encode", "-"], shown.as_bytes()).stdout, encoded);
    // Both may be any words, but for the number before them, which has 32 bits.
    let put = |place: usize, word: u64| {
        let mut words = words.concat();
        words[place] = word;
        run(&["join", "-"], &wire(&words))
    };
    assert_eq!(put(13, 1 << 63).0, "answer 5\n");
    assert_eq!(put(14, u64::MAX).0, "answer 5\n");
    let (out, err, status) = put(12, 2 | 1 << 32);
    assert_eq!((&*out, status), ("answer 2\n", 1));
    let text = "byte 96: number of alive rows 4294967298 is too wide: it must fit 32 bits";
    assert!(err.contains(text), "{err}");
    // A result is handed on with its pair, which then is held to the values.
    let joined = accepted(&["join", "--output=-", "-"], VOTES.as_bytes());
    let lists = "rows 4\nids 0 1 3\nvalues 5 -7 9\nleast -7\ngreatest 9\n";
    assert_eq!(joined, format!("segment\ntype I64\nkind Optional\n{lists}"));
    assert_eq!(accepted(&["join", "-"], joined.as_bytes()), listing);
    let damaged = joined.replace("values 5 -7 9", "values 5 -7 8");
    let (out, _, status) = run(&["check", "-"], damaged.as_bytes());
    let text = "answer 5 (values or terms)\n\
        segment 0, greatest value 9: row 3, value 8 (the 3rd) is the greatest\n";
    assert_eq!((&*out, status), (text, 1));
}

/// An untrue pair in a sheet and in its wire form, as every command takes it.
#[test]
fn untrue_pairs() {
    let times = "segment type DateTime kind Full values 5 least 5 greatest 5";
    let encoded = jadmirus(&["encode", "-"], times.as_bytes()).stdout;
    for input in [times.as_bytes(), &encoded] {
        for command in ["join", "order"] {
            let (out, err, status) = run(&[command, "-"], input);
            assert_eq!((&*out, status), ("answer 5\n", 1));
            let text = "or its least or greatest value is not that of its values.\n";
            assert!(err.ends_with(text), "{err}");
        }
        for words in [&["check", "-"][..], &["check", "--times", "-"]] {
            let (out, err, status) = run(words, input);
            let text = "answer 5 (values or terms)\n\
                segment 0, least value 5: it is 0 for a column of type DateTime\n";
            assert_eq!((&*out, &*err, status), (text, "", 1));
        }
    }
    let shown = accepted(&["show", "-"], &encoded);
    assert!(shown.ends_with("\nvalues 5\nleast 5\ngreatest 5\n"));
    assert_eq!(jadmirus(&["encode", "-"], shown.as_bytes()).stdout, encoded);
}

/// Two listeners, none and one; a day without the column; and an IPv4 address, mapped.
const LISTENERS: &str = "segment type IpAddr kind NewMultivalued rows 3 ids 0 2 offsets 0 2 3 \
    values 2001:db8::1 192.0.2.7 ::1\n\
    segment rows 1\n\
    segment type IpAddr kind Optional rows 2 ids 1 values 2001:db8::2\n";

#[test]
fn join_of_addresses() {
    let listing = "answer 0\ntype 6\nclass 2\nrows 6\nids 3 0 2 5\noffsets 4 0 2 3 4\n\
        values 4 2306139568115548160 1 0 281473902969351 0 1 2306139568115548160 2\n\
        terms 0\nmaps 0\n";
    assert_eq!(accepted(&["join", "-"], LISTENERS.as_bytes()), listing);
    let rows = "0 2001:db8::1 ::ffff:192.0.2.7\n2 ::1\n5 2001:db8::2\n";
    assert_eq!(
        accepted(&["join", "--rows", "-"], LISTENERS.as_bytes()),
        rows
    );
    let numbers = accepted(&["join", "--numbers", "-"], LISTENERS.as_bytes());
    assert!(
        numbers.contains("\noffsets 4\nvalues 4\nterms 0\n"),
        "{numbers}"
    );
    let sheet = "segment\ntype IpAddr\nkind NewMultivalued\nrows 6\nids 0 2 5\n\
        offsets 0 2 3 4\nvalues 2001:db8::1 ::ffff:192.0.2.7 ::1 2001:db8::2\n";
    let joined = accepted(&["join", "--output=-", "-"], LISTENERS.as_bytes());
    assert_eq!(joined, sheet);
    assert_eq!(accepted(&["join", "-"], joined.as_bytes()), listing);
}

#[test]
fn wire_form_of_addresses() {
    let sheet = "segment type IpAddr kind Full values 2001:db8::1 192.0.2.7";
    let encoded = jadmirus(&["encode", "-"], sheet.as_bytes()).stdout;
    let words = [
        &[2, 0, 255, 1, 6, 1, 2, 0, 0, 2, 0, 0, 2, 0, 0, 0, 0][..],
        &[4, 0x2001_0db8_0000_0000, 1, 0, 0xffff_c000_0207, 0, 0, 0, 0],
    ];
    assert_eq!(encoded, wire(&words.concat()));
    let shown = accepted(&["show", "-"], &encoded);
    let text = "mode stacked\nrequired none\n\nsegment\ntype IpAddr\nkind Full\nrows 2\n\
        values 2001:db8::1 ::ffff:192.0.2.7\n";
    assert_eq!(shown, text);
    assert_eq!(jadmirus(&["encode", "-"], shown.as_bytes()).stdout, encoded);
    // An address without its second word: the sections stand as wholes, in words.
    let halved = wire(&[
        2, 0, 255, 1, 6, 1, 1, 0, 0, 1, 0, 0, 1, 0, 0, 0, 0, 1, 7, 0, 0, 0, 0,
    ]);
    let shown = accepted(&["show", "-"], &halved);
    assert!(
        shown.contains("\nrecord 6 1 1 0 0 1 0 0 1 0 0\n"),
        "{shown}"
    );
    assert!(shown.contains("\nvalues 7\n"), "{shown}");
    assert_eq!(jadmirus(&["encode", "-"], shown.as_bytes()).stdout, halved);
    let (out, _, status) = run(&["check", "-"], &halved);
    let text = "answer 2 (lengths)\nsegment 0, words of values (an IpAddr has two): the segments \
        up to this one announce 2, and 1 is there\n";
    assert_eq!((&*out, status), (text, 1));
}

#[test]
fn refusals() {
    let sheet = "mode stacked segment type Bool kind Full values 2";
    let (out, err, status) = run(&["join", "-"], sheet.as_bytes());
    assert_eq!((&*out, status), ("answer 5\n", 1));
    assert!(err.contains("standard input: answer 5 (values or terms): A value is impossible"));
    let path = file("refused.sheet");
    fs::write(&path, sheet).unwrap();
    let (_, err, _) = run(&["join", &path], b"");
    assert!(
        err.contains(&format!("'jadmirus check {path}' says where")),
        "{err}"
    );
    let (out, err, status) = run(&["check", &path], b"");
    let text = "answer 5 (values or terms)\n\
        segment 0, row 0, value 2 (the 1st): a Bool is 0 or 1\n";
    assert_eq!((&*out, &*err, status), (text, "", 1));
}

/// What the check says of each answer's example.
#[test]
fn places_of_faults() {
    let told = |sheet: &str| {
        let (out, err, status) = run(&["check", "-"], sheet.as_bytes());
        assert_eq!((&*err, status), ("", 1), "{sheet}");
        out.lines().nth(1).unwrap_or_default().to_string()
    };
    let many = "segment rows 0\n".repeat(257);
    let cases = [
        (
            &*many,
            "segments: 257 are there, and a call takes at most 256",
        ),
        (
            "record 1 1 1 0 0 1 0 0 1 0 0",
            "segment 0, values: the segments up to this one announce 1, and 0 are there",
        ),
        (
            "segment type 8 kind Full values 1",
            "segment 0, type 8: no known type",
        ),
        (
            "record 6 1 1 0 0 1 0 0 1 0 0 values 3",
            "segment 0, words of values (an IpAddr has two): the segments up to this one announce \
             2, and 1 is there",
        ),
        (
            "required 8 segment type IpAddr kind Full values ::1",
            "required type 8: no known type",
        ),
        (
            "mode 2",
            "mode 2: the modes are 0 (stacked) and 1 (ordered)",
        ),
        (
            "segment rows 1 segment type U64 kind Optional rows 3 ids 1 1 values 0 0",
            "segment 1, row id 1 (the 2nd): not above the one before it",
        ),
        (
            "segment type U64 kind Full rows 3 values 0 0",
            "segment 0, values: 2 there, and kind Full has 3, one for each row",
        ),
        (
            "segment type U64 kind OldMultivalued offsets 0 2 1 values 7",
            "segment 0, kind OldMultivalued: convert it first ('jadmirus convert')",
        ),
        (
            "segment type U64 kind NewMultivalued rows 3 ids 0 1 offsets 0 1 1 values 7",
            "segment 0, offset 1 (the 3rd): not above the one before it",
        ),
        (
            "segment type Str kind Full values 0 terms \"b\" \"a\"",
            "segment 0, term \"a\" (the 2nd): not above the one before it, \"b\"",
        ),
        (
            "segment type IpAddr kind OldMultivalued offsets 0 1 values ::1",
            "segment 0, kind OldMultivalued: convert it first ('jadmirus convert')",
        ),
        (
            "segment type IpAddr kind Optional rows 3 ids 0 1 values ::1",
            "segment 0, values: 1 there, and kind Optional has 2, one for each row id",
        ),
        (
            "segment type IpAddr kind Full values ::1 terms \"a\"",
            "segment 0, terms: a column of type IpAddr has none",
        ),
        (
            "segment rows 1 segment type I64 kind Full values 3 -1 least 3",
            "segment 1, least value 3: row 1, value -1 (the 2nd) is the least",
        ),
        (
            "segment type U64 kind Empty rows 1 greatest 7",
            "segment 0, greatest value 7: it is 0 for a column without values",
        ),
        (
            "segment rows 1 segment rows 2 alive-rows 1",
            "segment 1, alive rows 1: without an alive set all rows are alive, 2",
        ),
        (
            "mode ordered segment rows 2 withdrawn 0 alive-rows 2",
            "segment 0, alive rows 2: the alive set has 1",
        ),
        (
            "mode ordered segment rows 1 alive 2",
            "segment 0, alive word 2 (the 1st): marks row 1, not below the number of rows, 1",
        ),
        (
            "segment rows 4294967295",
            "rows: all segments have 4294967295 together, above 4294967294",
        ),
        (
            "mode ordered segment rows 1 addresses 0:0 0:0",
            "address 0:0 (the 2nd): listed before, as the 1st",
        ),
        (
            "mode ordered segment rows 3 withdrawn 1 addresses 0:2 0:1",
            "address 0:1 (the 2nd): the row is withdrawn",
        ),
        (
            "mode ordered segment rows 4294967294 addresses 0:0",
            "segment 0, row 1: not withdrawn, and no address names it",
        ),
        (
            "segment type Str kind Empty rows 1 segment type Bool kind Full values true",
            "types: segment 0 is Str, segment 1 is Bool, and these can't be one column",
        ),
        (
            "segment type IpAddr kind Full values ::1 segment type U64 kind Full values 1",
            "types: segment 0 is IpAddr, segment 1 is U64, and these can't be one column",
        ),
        (
            "required U64 segment rows 1 segment type IpAddr kind Empty rows 1",
            "types: the required type is U64, segment 1 is IpAddr, and these can't be one column",
        ),
        (
            "required I64 segment type U64 kind Full values 1 9223372036854775808",
            "segment 0, row 1, value 9223372036854775808 (the 2nd): of type U64, and can't become \
             the required type I64",
        ),
        (
            "required I64 segment type F64 kind Full values 1e300",
            "segment 0, row 0, value 1e300 (the 1st): of type F64, and can't become the required \
             type I64",
        ),
        (
            "mode ordered required U64 segment type I64 kind NewMultivalued rows 9 ids 3 7 \
             offsets 0 2 3 values 1 2 -3 withdrawn 0 1 2 4 5 6 7 8 addresses 0:3",
            "segment 0, row 7 (withdrawn), value -3 (the 3rd): of type I64, and can't become the \
             required type U64",
        ),
    ];
    for (sheet, text) in cases {
        assert_eq!(told(sheet), text);
    }
}

/// C5's segment as it was stored before.
const OLD: &str = "segment type U64 kind OldMultivalued offsets 0 2 2 3 values 7 8 9\n";
const CONVERTED: &str = "segment type U64 kind NewMultivalued rows 3 ids 0 2 offsets 0 2 3 \
    values 7 8 9\n";

/// Old segments are for the converter alone, which is said.
#[test]
fn old_segments_are_refused() {
    let convert_it = "A segment is of kind 3, old multivalued; convert it first \
        ('jadmirus convert').\n";
    for command in ["join", "order"] {
        let (out, err, status) = run(&[command, "-"], OLD.as_bytes());
        assert_eq!((&*out, status), ("answer 19\n", 1));
        let text = "jadmirus: standard input: answer 19 (old multivalued): ";
        assert_eq!(err, format!("{text}{convert_it}"));
    }
    let second = format!("segment rows 1\n{OLD}{OLD}");
    for words in [&["check", "-"][..], &["check", "--times", "-"]] {
        let (out, err, status) = run(words, second.as_bytes());
        let text = "answer 19 (old multivalued)\n\
            segment 1, kind OldMultivalued: convert it first ('jadmirus convert')\n";
        assert_eq!((&*out, &*err, status), (text, "", 1));
    }
    // 3 comes before it.
    let unknown = format!("{OLD}segment type 9 kind Full values 1");
    let (out, _, _) = run(&["check", "-"], unknown.as_bytes());
    assert_eq!(
        out,
        "answer 3 (unknown code)\nsegment 1, type 9: no known type\n"
    );
}

#[test]
fn conversion_of_a_sheet_and_of_its_wire_form() {
    assert_eq!(accepted(&["convert", "-"], OLD.as_bytes()), CONVERTED);
    let listing = "answer 0\ntype 1\nclass 2\nrows 3\nids 2 0 2\noffsets 3 0 2 3\n\
        values 3 7 8 9\nterms 0\nmaps 0\n";
    assert_eq!(accepted(&["join", "-"], CONVERTED.as_bytes()), listing);
    let encode = |sheet: &str| jadmirus(&["encode", "-"], sheet.as_bytes()).stdout;
    let converted = jadmirus(&["convert", "-"], &encode(OLD)).stdout;
    let words = [
        2, 0, 255, 1, 1, 4, 3, 2, 3, 3, 0, 0, 3, 7, 9, 2, 0, 2, 3, 0, 2, 3, 3, 7, 8, 9, 0, 0, 0, 0,
    ];
    assert_eq!(converted, wire(&words));
    assert_eq!(converted, encode(CONVERTED));
}

/// Each row keeps its listeners, in the notation of the sheet.
#[test]
fn conversion_of_addresses() {
    let sheet = |kind: &str, lists: &str| {
        let values = "values ::1 192.0.2.7 # IPv4\n2001:DB8::1\nwithdrawn 2\n";
        format!("# Listeners\nsegment type IpAddr kind {kind}\n{lists}\n{values}")
    };
    let old = sheet("OldMultivalued", "offsets 0 2 2 3");
    let new = sheet("NewMultivalued", "rows 3\nids 0 2\noffsets 0 2 3");
    assert_eq!(accepted(&["convert", "-"], old.as_bytes()), new);
    let [old, new] = [old, new].map(|sheet| jadmirus(&["encode", "-"], sheet.as_bytes()).stdout);
    assert_eq!(jadmirus(&["convert", "-"], &old).stdout, new);
    let words = [
        &[2, 0, 255, 1, 6, 4, 3, 2, 3, 3, 0, 1, 2, 0, 0][..],
        &[2, 0, 2, 3, 0, 2, 3],
        &[6, 0, 1, 0, 0xffff_c000_0207, 0x2001_0db8_0000_0000, 1],
        &[0, 0, 1, 3, 0],
    ];
    assert_eq!(new, wire(&words.concat()));
}

/// Several segments, terms, an alive set, mode and addresses: all that isn't old stays.
#[test]
fn all_else_stays() {
    let sheet = |old: [&str; 2]| {
        format!(
            "mode ordered\nrequired Str\n\n\
             segment\ntype Str\nkind {}\nvalues 0 1 0\nterms \"a\" \"b\"\nalive 0x5\n\n\
             segment\ntype none\nkind Empty\nrows 1\n\n\
             segment\ntype Str\nkind {}\n\n\
             segment\ntype Str\nkind Full\nrows 1\nvalues 0\nterms \"c\"\n\n\
             addresses 3:0 2:0 0:2 1:0 0:0\n",
            old[0], old[1]
        )
    };
    let old = sheet([
        "OldMultivalued\nrows 3\noffsets 0 2 2 3",
        "OldMultivalued\nrows 1\noffsets 0 0",
    ]);
    let new = sheet([
        "NewMultivalued\nrows 3\nids 0 2\noffsets 0 2 3",
        "NewMultivalued\nrows 1\noffsets 0",
    ]);
    assert_eq!(accepted(&["convert", "-"], old.as_bytes()), new);
    let rows = "0 \"c\"\n2 \"a\"\n4 \"a\" \"b\"\n";
    assert_eq!(accepted(&["join", "--rows", "-"], new.as_bytes()), rows);
    let [old, new] = [old, new].map(|sheet| jadmirus(&["encode", "-"], sheet.as_bytes()).stdout);
    assert_eq!(jadmirus(&["convert", "-"], &old).stdout, new);
}

/// What has no old segment comes out as it went in, also if it is damaged.
#[test]
fn nothing_to_convert() {
    let sheets = [
        C1,
        CONVERTED,
        "# A comment, and no line end\nsegment type U64 kind Optional rows 3 ids 1 1 values 0 0",
        "record 1 1 1 0 0 1 0 0 1 0 0\r\n",
    ];
    for sheet in sheets {
        assert_eq!(accepted(&["convert", "-"], sheet.as_bytes()), sheet);
        let encoded = jadmirus(&["encode", "-"], sheet.as_bytes()).stdout;
        assert_eq!(jadmirus(&["convert", "-"], &encoded).stdout, encoded);
    }
}

#[test]
fn conversions_into_files() {
    let (path, other) = (file("old.sheet"), file("new.sheet"));
    fs::write(&path, OLD).unwrap();
    assert_eq!(accepted(&["convert", &path, "--output", &other], b""), "");
    assert_eq!(fs::read_to_string(&other).unwrap(), CONVERTED);
    assert_eq!(fs::read_to_string(&path).unwrap(), OLD);
    // A file may be replaced by its own conversion.
    accepted(&["convert", &path, "--output", &path], b"");
    assert_eq!(fs::read_to_string(&path).unwrap(), CONVERTED);
    let encoded = jadmirus(&["encode", "-"], OLD.as_bytes()).stdout;
    fs::write(&path, encoded).unwrap();
    accepted(&["convert", "--from=wire", "--output", &path, &path], b"");
    let encoded = jadmirus(&["encode", "-"], CONVERTED.as_bytes()).stdout;
    assert_eq!(fs::read(&path).unwrap(), encoded);
    // A refusal leaves both as they are.
    let falling = format!("{OLD}{}", OLD.replace("0 2 2 3", "0 2 1 3"));
    fs::write(&path, &falling).unwrap();
    fs::write(&other, "mine").unwrap();
    let (out, _, status) = run(&["convert", &path, "--output", &other], b"");
    assert_eq!((&*out, status), ("answer 4\n", 1));
    assert_eq!(fs::read_to_string(&other).unwrap(), "mine");
    assert_eq!(run(&["convert", &path, "--output", &path], b"").2, 1);
    assert_eq!(fs::read_to_string(&path).unwrap(), falling);
}

/// Which segment can't be converted, and why.
#[test]
fn refused_conversions() {
    let told = |sheet: &str| {
        let sheet = format!("{OLD}segment rows 1\n{sheet}");
        let (out, err, status) = run(&["convert", "-"], sheet.as_bytes());
        assert_eq!(status, 1, "{sheet}");
        let mut lines = err
            .lines()
            .map(|line| line.strip_prefix("jadmirus: standard input: ").unwrap());
        let refusal = lines.next().unwrap();
        assert!(refusal.starts_with(out.trim_end()), "{out}{err}");
        let place = lines.next().unwrap().to_string();
        assert_eq!(lines.next(), None);
        (out, place)
    };
    let cases = [
        (
            3,
            "segment type 9 kind OldMultivalued offsets 0",
            "segment 2, type 9: no known type",
        ),
        (
            3,
            "segment type none kind OldMultivalued offsets 0",
            "segment 2, kind OldMultivalued: a segment without a column is of kind Empty",
        ),
        (
            4,
            "segment type U64 kind OldMultivalued offsets 0 2 1 values 7",
            "segment 2, offset 1 (the 3rd): below the one before it",
        ),
        (
            4,
            "segment type U64 kind OldMultivalued offsets 1 2 values 7 8",
            "segment 2, offset 1 (the 1st): the first offset is 0",
        ),
        (
            4,
            "segment type U64 kind OldMultivalued rows 2 offsets 0 1 values 7",
            "segment 2, offsets: 2 there, and kind OldMultivalued has 3, one more than rows",
        ),
        (
            4,
            "segment type U64 kind OldMultivalued rows 1 ids 0 offsets 0 1 values 7",
            "segment 2, row ids: 1 there, and kind OldMultivalued has none",
        ),
        (
            4,
            "segment type IpAddr kind OldMultivalued offsets 0 2 values ::1",
            "segment 2, offset 2 (the 2nd): the last offset is the number of values, 1",
        ),
        (
            5,
            "segment type IpAddr kind OldMultivalued offsets 0 1 values ::1 terms \"a\"",
            "segment 2, terms: a column of type IpAddr has none",
        ),
        (
            5,
            "segment type Bool kind OldMultivalued offsets 0 0 2 values 1 2",
            "segment 2, row 1, value 2 (the 2nd): a Bool is 0 or 1",
        ),
        (
            5,
            "segment type U64 kind OldMultivalued offsets 0 1 values 7 least 6 alive 2",
            "segment 2, least value 6: row 0 (withdrawn), value 7 (the 1st) is the least",
        ),
        (
            6,
            "segment type U64 kind OldMultivalued offsets 0 1 values 7 alive 2",
            "segment 2, alive word 2 (the 1st): marks row 1, not below the number of rows, 1",
        ),
        (
            6,
            "segment type U64 kind OldMultivalued offsets 0 1 values 7 alive-rows 0",
            "segment 2, alive rows 0: without an alive set all rows are alive, 1",
        ),
    ];
    for (answer, sheet, text) in cases {
        assert_eq!(
            told(sheet),
            (format!("answer {answer}\n"), text.to_string())
        );
    }
    let unfit = "record 1 3 1 0 2 1 0 0 1 0 0 offsets 0 1";
    let (out, err, status) = run(&["convert", "-"], unfit.as_bytes());
    assert_eq!((&*out, status), ("answer 2\n", 1));
    let place = "segment 0, values: the segments up to this one announce 1, and 0 are there\n";
    assert!(err.ends_with(place), "{err}");
    let (out, err, status) = run(&["convert", "-"], &wire(&[2, 0, 255, 0, 0]));
    assert_eq!((&*out, status), ("answer 2\n", 1));
    assert!(err.contains("byte 40: the input is cut"), "{err}");
    let (out, err, status) = run(&["convert", "-"], b"segment kind Old");
    assert_eq!((&*out, status), ("", 2));
    assert!(err.contains("line 1: kind: 'Old' is no kind"), "{err}");
}

#[test]
fn time_order() {
    let addresses = "addresses 0:0 0:1 1:0 1:1 0:2\n";
    assert_eq!(accepted(&["order", "-"], C13.as_bytes()), addresses);
    assert_eq!(
        accepted(&["check", "--times", "-"], C13.as_bytes()),
        "answer 0\naccepted\n"
    );
    // What it prints completes an ordered join's sheet.
    let sheet = format!("mode ordered\n{C13}{addresses}");
    assert!(accepted(&["join", "-"], sheet.as_bytes()).contains("\nvalues 3 10 20 30\n"));
    let falling = "segment type DateTime kind Full values 5 4";
    let (out, err, status) = run(&["order", "-"], falling.as_bytes());
    assert_eq!((&*out, status), ("answer 12\n", 1));
    assert!(err.contains("answer 12 (times)"));
    let (out, _, status) = run(&["check", "--times", "-"], falling.as_bytes());
    let text = "answer 12 (times)\n\
        segment 0, row 1, time 4 (the 2nd): earlier than the one before it, 5\n";
    assert_eq!((&*out, status), (text, 1));
    // A column of addresses has no times.
    let (out, _, status) = run(&["order", "-"], LISTENERS.as_bytes());
    assert_eq!((&*out, status), ("answer 12\n", 1));
    let (out, _, _) = run(&["check", "--times", "-"], LISTENERS.as_bytes());
    let text = "answer 12 (times)\n\
        segment 0, type IpAddr: the time order takes DateTime columns\n";
    assert_eq!(out, text);
}

/// Document 02, (e), in sheets: each segment's entries after its type, and the addresses.
#[test]
fn time_order_after_a_restart() {
    let cases: [(&[&str], &str); 6] = [
        (
            &[
                "Optional rows 2 ids 1 values 20 withdrawn 1",
                "Full values 10",
            ],
            "1:0 0:0",
        ),
        (
            &["Full values 20", "Optional rows 2 ids 1 values 20"],
            "0:0 1:0 1:1",
        ),
        (
            &["Full values -9223372036854775808", "Optional rows 2"],
            "1:0 1:1 0:0",
        ),
        (
            &["Optional rows 4 ids 2 values 7", "Full values 6"],
            "1:0 0:0 0:1 0:2 0:3",
        ),
        (
            &[
                "Full values 10",
                "Optional rows 2 ids 1 values 20",
                "Full values 15",
            ],
            "0:0 2:0 1:0 1:1",
        ),
        (
            &[
                "NewMultivalued rows 3 ids 1 offsets 0 1 values 5",
                "Full values 4",
            ],
            "1:0 0:0 0:1 0:2",
        ),
    ];
    for (segments, addresses) in cases {
        let sheet: String = segments
            .iter()
            .map(|entries| format!("segment type DateTime kind {entries}\n"))
            .collect();
        let order = accepted(&["order", "-"], sheet.as_bytes());
        assert_eq!(order, format!("addresses {addresses}\n"), "{segments:?}");
    }
}

#[test]
fn results_are_handed_on() {
    let (week, other) = (file("week.result"), file("other.result"));
    accepted(&["join", "-", "--output", &week], C1.as_bytes());
    let sheet =
        "segment\ntype Str\nkind Optional\nrows 4\nids 1 2 3\nvalues 1 1 0\nterms \"a\" \"b\"\n";
    assert_eq!(fs::read_to_string(&week).unwrap(), sheet);
    let folder = PathBuf::from(&week).parent().unwrap().to_path_buf();
    let names = fs::read_dir(folder).unwrap().map(|entry| entry.unwrap());
    let parts = names.filter(|entry| {
        let name = entry.file_name().into_string().unwrap();
        name.starts_with("week.result.")
    });
    assert_eq!(parts.count(), 0);
    assert_eq!(accepted(&["join", "-", "--output=-"], C1.as_bytes()), sheet);
    // Sheets of results can be put together.
    let two = format!("{sheet}{sheet}");
    let listing = accepted(&["join", "-"], two.as_bytes());
    assert!(listing.contains("\nids 6 1 2 3 5 6 7\n"), "{listing}");
    // An input may be replaced by its own result.
    fs::write(&other, C1).unwrap();
    accepted(&["join", &other, "--as", "wire", "--output", &other], b"");
    assert_eq!(
        accepted(&["show", &other], b""),
        format!("mode stacked\nrequired none\n\n{sheet}")
    );
}

#[test]
fn damaged_wire_forms() {
    let cut = wire(&[2, 0, 255, 0, 0]);
    let (out, err, status) = run(&["join", "-"], &cut);
    assert_eq!((&*out, status), ("answer 2\n", 1));
    assert!(
        err.contains("byte 40: the input is cut: no whole count (offset)"),
        "{err}"
    );
    let (out, _, status) = run(&["check", "-"], &cut);
    assert_eq!(status, 1);
    assert!(out.starts_with("answer 2 (lengths)\nbyte 40: "), "{out}");
    assert_eq!(run(&["order", "-"], &cut).0, "answer 2\n");
    let (out, err, status) = run(&["show", "-"], &cut);
    assert_eq!((&*out, status), ("", 2));
    assert!(
        err.starts_with("jadmirus: standard input: byte 40: "),
        "{err}"
    );
    let first = wire(&[3; 20]);
    assert_eq!(run(&["join", "-"], &first).0, "answer 2\n");
}

/// A link stays, and what it leads to is replaced with its permissions, unless it is read-only; a
/// neighbour's name is left alone.
#[cfg(unix)]
#[test]
fn a_result_by_a_link() {
    let (path, link, part) = (file("linked"), file("link"), file("linked.part"));
    fs::write(&path, C1).unwrap();
    fs::write(&part, "mine").unwrap();
    let private = std::os::unix::fs::PermissionsExt::from_mode(0o600);
    fs::set_permissions(&path, private).unwrap();
    let _ = fs::remove_file(&link);
    std::os::unix::fs::symlink(&path, &link).unwrap();
    accepted(&["join", "--output", &link, "--", &link], b"");
    assert!(fs::symlink_metadata(&link).unwrap().is_symlink());
    let written = fs::read_to_string(&path).unwrap();
    assert!(written.starts_with("segment\ntype Str\n"));
    assert_eq!(fs::read_to_string(&part).unwrap(), "mine");
    let mut permissions = fs::metadata(&path).unwrap().permissions();
    let mode = std::os::unix::fs::PermissionsExt::mode(&permissions);
    assert_eq!(mode & 0o777, 0o600);
    permissions.set_readonly(true);
    fs::set_permissions(&path, permissions).unwrap();
    assert_eq!(run(&["join", "--output", &link, &link], b"").2, 2);
    assert_eq!(fs::read_to_string(&path).unwrap(), written);
    fs::remove_file(&path).unwrap();
}

/// Sections that don't fit their records are shown as wholes, and come back too.
#[test]
fn sections_as_wholes() {
    let words = [
        2, 0, 255, 1, 4, 1, 2, 0, 0, 2, 1, 0, 2, 0, 0, 0, 0, 1, 7, 1, 3, 2, 97, 98, 1, 5, 1, 0, 9,
    ];
    let input = wire(&words);
    let sheet = accepted(&["show", "-"], &input);
    assert!(sheet.contains("# segment 0, values: the segments up to this one announce 2"));
    assert!(
        sheet.contains("\nrecord 4 1 2 0 0 2 1 0 2 0 0\n"),
        "{sheet}"
    );
    assert_eq!(jadmirus(&["encode", "-"], sheet.as_bytes()).stdout, input);
}

#[test]
fn faults_of_sheets() {
    let path = file("faulty.sheet");
    let cases = [
        ("", "line 1: there is nothing in this sheet"),
        ("# nothing\n\n", "line 2: there is nothing in this sheet"),
        (
            "mode\nsegment rows 1",
            "line 1: 'mode' wants a word after it",
        ),
        (
            "mode sorted",
            "line 1: mode: 'sorted' is no mode: the modes are stacked and ordered",
        ),
        (
            "mode stacked mode ordered",
            "line 1: mode: it is given twice, and differs",
        ),
        (
            "7",
            "line 1: '7' begins no entry; the words that do are mode, required, segment",
        ),
        (
            "segment\nrows 2 3",
            "line 2: rows: takes one word, and '3' begins no entry",
        ),
        (
            "segment type U64 kind Full\nvalue 7",
            "line 2: kind: takes one word, and 'value' begins no entry",
        ),
        (
            "segment rows 1\nids 0 x",
            "line 2: ids: 'x' is no number from 0 to 4294967295",
        ),
        (
            "segment rows 1\nids 4294967296",
            "line 2: ids: '4294967296' is no number from 0",
        ),
        (
            "segment\ntype U64\nrows 1",
            "line 1: this segment has no 'kind'",
        ),
        (
            "\nsegment\ntype U64 kind Empty",
            "line 2: this segment has no 'rows'",
        ),
        (
            "segment values 1",
            "line 1: the segment's 'type' must stand before its values",
        ),
        (
            "segment type I64 kind Full\nvalues 1.5",
            "line 2: values: '1.5' is no number from -9",
        ),
        (
            "segment type F64 kind Full\nvalues x",
            "line 2: values: 'x' is no decimal number",
        ),
        (
            "segment type F64 kind Full\nvalues 1e309",
            "line 2: values: '1e309' is larger than any",
        ),
        (
            "segment type Bool kind Full\nvalues yes",
            "line 2: values: 'yes' is neither true nor",
        ),
        (
            "segment type Str kind Full\nvalues Air",
            "line 2: values: 'Air' is neither an ordinal nor a quoted text",
        ),
        (
            "segment type IpAddr kind Full\nvalues ::1 0:3",
            "line 2: values: '0:3' is no IPv6 address and no IPv4 address",
        ),
        (
            "segment type IpAddr kind Full\nvalues 192.0.2.256",
            "line 2: values: '192.0.2.256' is no IPv6 address and no IPv4 address",
        ),
        (
            "segment type IpAddr kind Full\nvalues \"::1\"",
            "line 2: values: only values of type Str or",
        ),
        (
            "segment type Ip kind Full",
            "line 1: type: 'Ip' is no type: the types are I64, U64, F64, Bytes, Str, Bool, \
             IpAddr, DateTime, none",
        ),
        (
            "segment rows 1\nrows 2",
            "line 2: 'rows' stands before, in line 1, for the same",
        ),
        (
            "segment rows 1\nwithdrawn 1",
            "line 2: row 1 is not below the number of rows, 1",
        ),
        (
            "segment rows 65\nalive 1",
            "line 2: an alive set has a word for each 64 rows or part of them, so 2",
        ),
        (
            "segment rows 1 alive 1\nwithdrawn 0",
            "line 2: a segment has 'alive' or 'withdrawn'",
        ),
        (
            "segment rows 1\nalive-rows 4294967296",
            "line 2: alive-rows: '4294967296' is no number from 0 to 4294967295",
        ),
        (
            "segment rows 1 alive-rows\n",
            "line 1: 'alive-rows' wants a word after it",
        ),
        (
            "alive-rows 1",
            "line 1: 'alive-rows' stands before the first 'segment'",
        ),
        (
            "segment rows 1\nleast 1 type U64",
            "line 2: the segment's 'type' must stand before its least value",
        ),
        (
            "segment type I64 kind Full values 1\nleast 9223372036854775808",
            "line 2: least: '9223372036854775808' is no number from -9223372036854775808 to",
        ),
        (
            "segment type U64 kind Full values 1\ngreatest -1",
            "line 2: greatest: '-1' is no number from 0 to 18446744073709551615",
        ),
        (
            "segment type U64 kind Full values 1 greatest",
            "line 1: 'greatest' wants a word after it",
        ),
        (
            "segment type U64 kind Full values 1 2\nleast 1 2",
            "line 2: least: takes one word, and '2' begins no entry",
        ),
        (
            "segment type Str kind Full values \"a\"\nleast \"a\"",
            "line 2: least: a quoted text can't stand here",
        ),
        (
            "segment type U64 kind Full values 1\nleast 1\nleast 1",
            "line 3: 'least' stands before, in line 2, for the same",
        ),
        (
            "greatest 1",
            "line 1: 'greatest' stands before the first 'segment'",
        ),
        (
            "segment rows 1 flag 1",
            "line 1: flag 1 says that an alive set follows",
        ),
        (
            "segment type Str kind Full\nvalues \"a\nb\"",
            "line 2: a quoted text has no end",
        ),
        (
            "segment type U64 kind Full values \"a\"",
            "line 1: values: only values of type Str or",
        ),
        (
            "segment type Str kind Full\nvalues \"a\"\nterms \"b\"",
            "line 2: value \"a\" is not among the segment's terms",
        ),
        (
            "addresses 0:1 2",
            "line 1: addresses: '2' is no address, which is written SEGMENT:ROW",
        ),
        (
            "addresses 0:",
            "line 1: addresses: '0:': '' is no number from 0 to 4294967295",
        ),
        (
            "addresses 2001:db8::1",
            "line 1: addresses: '2001:db8::1' is a listener's address, which stands among the \
             values; the address of a row is written SEGMENT:ROW, as 0:3",
        ),
        ("rows 1", "line 1: 'rows' stands before the first 'segment'"),
        (
            "ids 1 segment rows 1",
            "line 1: a sheet has either segments, or records and sections",
        ),
        (
            "record 1 2 3",
            "line 1: 'record' wants eleven numbers after it",
        ),
        (
            "record 1 1 1 0 0 1 0 0 1",
            "line 1: 'record' wants eleven numbers after it",
        ),
        (
            "record 1 1 1 0 0 1 0 0 4294967296 7 7",
            "line 1: record: '4294967296' is no number from 0 to 4294967295",
        ),
        (
            "record 1 1 1 0 0 1 0 0 1 7 18446744073709551616",
            "line 1: record: '18446744073709551616' is no number from 0 to 18446744073709551615",
        ),
        (
            "record 1 1 1 0 0 1 0 0 1 7 7 1",
            "line 1: record: takes 11 numbers, and '1' begins no entry",
        ),
    ];
    for (sheet, text) in cases {
        fs::write(&path, sheet).unwrap();
        let (out, err, status) = run(&["join", &path], b"");
        assert_eq!((&*out, status), ("", 2), "{sheet}");
        assert!(
            err.starts_with(&format!("jadmirus: {path}: {text}")),
            "{sheet}: {err}"
        );
    }
    for input in [&b"mode \xff"[..], b"\xff\xfem\0o\0d\0e\0"] {
        let (_, err, status) = run(&["join", "-"], input);
        assert_eq!(
            (&*err, status),
            (
                "jadmirus: standard input: line 1: this is no UTF-8 text\n",
                2
            )
        );
    }
}

#[test]
fn usage() {
    for words in [
        &["--help"][..],
        &["-h"],
        &["join", "--help"],
        &["order", "-h"],
    ] {
        assert!(accepted(words, b"").contains("jadmirus"), "{words:?}");
    }
    let commands = [
        "join",
        "order",
        "check",
        "convert",
        "withdraw",
        "reinstate",
        "encode",
        "show",
    ];
    for command in commands {
        let help = accepted(&[command, "--help"], b"");
        assert!(help.starts_with(&format!("jadmirus {command} ")));
        assert!(help.contains("Exit status: "));
    }
    assert!(accepted(&["--version"], b"").starts_with("jadmirus "));
    let wrong: [&[&str]; 23] = [
        &[],
        &["merge"],
        &["join"],
        &["join", "a", "b"],
        &["join", "--times", "a"],
        &["join", "a", "--output"],
        &["join", "a", "--from", "csv"],
        &["check", "--output", "b", "a"],
        &["check", "--times=no", "a"],
        &["join", "--rows=1", "a"],
        &["join", "--numbers=1", "a"],
        &["join", "--numbers", "--output", "-", "a"],
        &["join", "--rows", "--numbers", "a"],
        &["order", "--numbers", "a"],
        &["join", "--as", "wire", "a"],
        &["join", "--rows", "--output", "-", "a"],
        &["join", "--", "--rows", "a"],
        &["convert"],
        &["convert", "a", "b"],
        &["convert", "a", "--output"],
        &["convert", "--as", "wire", "--output", "b", "a"],
        &["convert", "--rows", "a"],
        &["convert", "--times", "a"],
    ];
    for words in wrong {
        let (out, err, status) = run(words, b"");
        assert_eq!((&*out, status), ("", 2), "{words:?}");
        assert!(err.contains("--help'"), "{words:?}: {err}");
    }
    let (_, err, status) = run(&["join", &file("absent")], b"");
    assert_eq!(status, 2);
    assert!(
        err.starts_with(&format!("jadmirus: {}: ", file("absent"))),
        "{err}"
    );
    let (_, err, status) = run(
        &["encode", "-", "--output", &file("no/such/folder")],
        C1.as_bytes(),
    );
    assert_eq!(status, 2);
    assert!(err.contains("no/such/folder: "), "{err}");
}
