//! `jadmirus withdraw` and `jadmirus reinstate`, as processes.
mod common;

use common::program::{accepted, file, jadmirus, run};
use std::fs;

/// A sheet with comments, and what it is after row 1 of its segment 1 is withdrawn.
fn plays(withdrawn: &str) -> String {
    format!(
        "# Two days\nmode ordered\n\
         segment type U64 kind Full values 7 8 withdrawn 0\n\
         segment type U64 kind Full\r\n  values 1 2 3\n  {withdrawn}   # never broadcast\n\
         segment rows 2\naddresses 0:1 1:0\n"
    )
}

/// An accepted call: what is written, and what is said of segment 1.
fn marked(words: &[&str], input: &[u8]) -> (Vec<u8>, String) {
    let output = jadmirus(words, input);
    assert_eq!(output.status.code(), Some(0), "{words:?}");
    let said = String::from_utf8(output.stderr).unwrap();
    let said = said.strip_prefix("jadmirus: standard input: segment 1: ");
    let said = said.and_then(|said| said.strip_suffix('\n')).unwrap();
    (output.stdout, said.to_string())
}

fn marked_sheet(words: &[&str], sheet: &str) -> (String, String) {
    let (out, said) = marked(words, sheet.as_bytes());
    (String::from_utf8(out).unwrap(), said)
}

#[test]
fn one_row() {
    let (before, after) = (plays("withdrawn 2"), plays("withdrawn 1 2"));
    let (sheet, said) = marked_sheet(&["withdraw", "-", "1", "1"], &before);
    assert_eq!(
        (&*sheet, &*said),
        (&*after, "row 1 withdrawn, 1 of 3 rows alive")
    );
    let (sheet, said) = marked_sheet(&["withdraw", "-", "1", "1"], &after);
    assert_eq!(sheet, after);
    assert_eq!(said, "row 1 was withdrawn already; nothing changed");
    let (sheet, said) = marked_sheet(&["reinstate", "-", "1", "1"], &after);
    assert_eq!(
        (&*sheet, &*said),
        (&*before, "row 1 reinstated, 2 of 3 rows alive")
    );
    let (sheet, said) = marked_sheet(&["reinstate", "-", "1", "1"], &before);
    assert_eq!(sheet, before);
    assert_eq!(said, "row 1 was alive already; nothing changed");
}

/// One call for all of them.
#[test]
fn several_rows() {
    let sheet = plays("withdrawn 2");
    let cases = [
        (
            "withdraw",
            "0 1",
            "withdrawn 0 1 2",
            "2 rows withdrawn, 0 of 3 rows alive",
        ),
        (
            "withdraw",
            "2 0 2",
            "withdrawn 0 2",
            "1 row withdrawn, 1 of 3 rows alive",
        ),
        (
            "withdraw",
            "2 2",
            "withdrawn 2",
            "the rows were withdrawn already; nothing changed",
        ),
        (
            "reinstate",
            "0 1 2",
            "withdrawn",
            "1 row reinstated, 3 of 3 rows alive",
        ),
        (
            "reinstate",
            "1 0",
            "withdrawn 2",
            "the rows were alive already; nothing changed",
        ),
    ];
    for (command, rows, after, text) in cases {
        let words = [&[command, "-", "1"][..], &Vec::from_iter(rows.split(' '))].concat();
        let expected = (plays(after), text.to_string());
        assert_eq!(marked_sheet(&words, &sheet), expected, "{words:?}");
    }
}

/// The notation of the sheet is kept, and a number that stands there is right afterwards.
#[test]
fn alive_words_and_numbers() {
    let words = plays("alive 3 alive-rows 2");
    let (sheet, _) = marked_sheet(&["withdraw", "-", "1", "0"], &words);
    assert_eq!(sheet, plays("alive 0x2 alive-rows 1"));
    let (sheet, _) = marked_sheet(&["reinstate", "-", "1", "2", "0"], &sheet);
    assert_eq!(sheet, plays("alive 0x7 alive-rows 3"));
    let rows = plays("alive-rows 3 withdrawn");
    let (sheet, _) = marked_sheet(&["withdraw", "-", "1", "2", "0"], &rows);
    assert_eq!(sheet, plays("alive-rows 1 withdrawn 0 2"));
}

/// A pair that is given stays, in a sheet and in a wire form, true or not.
#[test]
fn least_and_greatest_stay() {
    for pair in ["least 0x1 greatest 3", "greatest 18446744073709551615"] {
        let sheet = |withdrawn: &str| plays(&format!("withdrawn{withdrawn} {pair}"));
        let words = ["withdraw", "-", "1", "2", "0"];
        let (before, after) = (sheet(" 1"), sheet(" 0 1 2"));
        assert_eq!(marked_sheet(&words, &before).0, after);
        let [before, after] =
            [before, after].map(|sheet| jadmirus(&["encode", "-"], sheet.as_bytes()).stdout);
        assert_eq!(marked(&words, &before).0, after);
    }
}

#[test]
fn wire_forms() {
    let encode = |sheet: &str| jadmirus(&["encode", "-"], sheet.as_bytes()).stdout;
    let (before, after) = (
        encode(&plays("withdrawn 2")),
        encode(&plays("withdrawn 1 2")),
    );
    let (wire, said) = marked(&["withdraw", "-", "1", "1"], &before);
    assert_eq!(
        (wire, &*said),
        (after.clone(), "row 1 withdrawn, 1 of 3 rows alive")
    );
    let (wire, _) = marked(&["withdraw", "--from=wire", "-", "1", "1"], &after);
    assert_eq!(wire, after);
    assert_eq!(marked(&["reinstate", "-", "1", "1"], &after).0, before);
}

/// The answer's number to standard output, what it means and where it comes from to standard error;
/// no sheet is written.
#[test]
fn refusals() {
    let cases = [
        (
            "record 255 0 65 0 0 0 0 1 0 0 0 alive 0",
            "0 0",
            "2 (lengths): ",
            "segment 0, alive words: the segments up to this one announce 2, and 1 is there",
        ),
        (
            "segment rows 1 segment rows 3 flag 2",
            "1 0",
            "3 (unknown code): ",
            "segment 1, flag 2: 1 stands for an alive set, 0 for none",
        ),
        (
            "segment rows 3 withdrawn 1 alive-rows 3",
            "0 7",
            "6 (alive set): ",
            "segment 0, alive rows 3: the alive set has 2",
        ),
        (
            "segment rows 3 alive 9",
            "0 0",
            "6 (alive set): ",
            "segment 0, alive word 9 (the 1st): marks row 3, not below the number of rows, 3",
        ),
        (
            "segment rows 3 withdrawn 1",
            "0 0 3",
            "15 (absent row): A row to withdraw or to reinstate is not below",
            "segment 0, row 3: not below the number of rows, 3",
        ),
        (
            "segment rows 3",
            "0 0",
            "16 (no alive set): The segment has no alive set, ",
            "segment 0, alive set: there is none; in a sheet, the entry 'withdrawn' gives one, \
             even without a row",
        ),
    ];
    for (sheet, words, answer, place) in cases {
        for command in ["withdraw", "reinstate"] {
            let words = [&[command, "-"][..], &Vec::from_iter(words.split(' '))].concat();
            let (out, err, status) = run(&words, sheet.as_bytes());
            let number = answer.split(' ').next().unwrap();
            assert_eq!((out, status), (format!("answer {number}\n"), 1), "{sheet}");
            let [refusal, where_] = [answer.to_string(), place.to_string()];
            let mut lines = err
                .lines()
                .map(|line| line.strip_prefix("jadmirus: standard input: ").unwrap());
            let told = lines.next().unwrap();
            assert!(told.starts_with(&format!("answer {refusal}")), "{told}");
            assert_eq!(Vec::from_iter(lines), [where_]);
        }
    }
    let (out, err, status) = run(&["withdraw", "-", "0", "0"], &[2, 0, 0, 0, 0, 0, 0, 0]);
    assert_eq!((&*out, status), ("answer 2\n", 1));
    assert!(err.contains("byte 8: the input is cut"), "{err}");
}

/// What is no refusal of the library's: words, numbers and segments that can't be.
#[test]
fn failures() {
    let sheet = b"segment rows 3 withdrawn";
    let cases: [(&[&str], &str); 7] = [
        (&["withdraw"], "withdraw: it wants a file; "),
        (
            &["withdraw", "-"],
            "withdraw: it wants a segment's number; ",
        ),
        (
            &["reinstate", "-", "0"],
            "reinstate: it wants a row's number; ",
        ),
        (
            &["withdraw", "-", "0", "one"],
            "withdraw: 'one' is no number from 0 to 4294967295; ",
        ),
        (
            &["withdraw", "-", "0", "4294967296"],
            "withdraw: '4294967296' is no number from 0 to 4294967295; ",
        ),
        (
            &["withdraw", "--rows", "-", "0", "1"],
            "withdraw: '--rows' is no option of it; ",
        ),
        (
            &["reinstate", "-", "1", "0"],
            "standard input: there is no segment 1: the last one is 0\n",
        ),
    ];
    for (words, text) in cases {
        let (out, err, status) = run(words, sheet);
        assert_eq!((&*out, status), ("", 2), "{words:?}");
        assert!(
            err.starts_with(&format!("jadmirus: {text}")),
            "{words:?}: {err}"
        );
    }
}

/// A file may be replaced by what is made of it; a refusal leaves it as it is.
#[test]
fn in_a_files_place() {
    let path = file("plays.sheet");
    fs::write(&path, plays("withdrawn 2")).unwrap();
    let (out, err, status) = run(&["withdraw", &path, "1", "0", "--output", &path], b"");
    assert_eq!((&*out, status), ("", 0));
    let said = "segment 1: row 0 withdrawn, 1 of 3 rows alive";
    assert_eq!(err, format!("jadmirus: {path}: {said}\n"));
    assert_eq!(fs::read_to_string(&path).unwrap(), plays("withdrawn 0 2"));
    let (out, _, status) = run(&["withdraw", &path, "1", "3", "--output", &path], b"");
    assert_eq!((&*out, status), ("answer 15\n", 1));
    assert_eq!(fs::read_to_string(&path).unwrap(), plays("withdrawn 0 2"));
}

/// Withdrawn in the column of times, a play is in no time order; reinstated, it is again.
#[test]
fn in_the_time_order() {
    let times = "segment type DateTime kind Full values 10 30 withdrawn\n\
        segment type DateTime kind Full values 20 withdrawn\n";
    let order = |sheet: &str| accepted(&["order", "-"], sheet.as_bytes());
    assert_eq!(order(times), "addresses 0:0 1:0 0:1\n");
    let (sheet, _) = marked_sheet(&["withdraw", "-", "1", "0"], times);
    assert_eq!(order(&sheet), "addresses 0:0 0:1\n");
    let (sheet, _) = marked_sheet(&["reinstate", "-", "1", "0"], &sheet);
    assert_eq!(sheet, times);
}
