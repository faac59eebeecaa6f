//! The command line, as a process.
use std::io::Write;
use std::path::PathBuf;
use std::process::{Command, Output, Stdio};

pub fn jadmirus(words: &[&str], input: &[u8]) -> Output {
    let mut child = Command::new(env!("CARGO_BIN_EXE_jadmirus"))
        .args(words)
        .stdin(Stdio::piped())
        .stdout(Stdio::piped())
        .stderr(Stdio::piped())
        .spawn()
        .unwrap();
    // A program that has seen enough closes its input.
    let _ = child.stdin.take().unwrap().write_all(input);
    child.wait_with_output().unwrap()
}

/// Standard output, standard error and the exit status.
pub fn run(words: &[&str], input: &[u8]) -> (String, String, i32) {
    let output = jadmirus(words, input);
    let text = |bytes| String::from_utf8(bytes).unwrap();
    (
        text(output.stdout),
        text(output.stderr),
        output.status.code().unwrap(),
    )
}

pub fn accepted(words: &[&str], input: &[u8]) -> String {
    let (out, err, status) = run(words, input);
    assert_eq!((&*err, status), ("", 0), "{words:?}");
    out
}

/// A file name in a folder of the tests' own.
pub fn file(name: &str) -> String {
    let folder = PathBuf::from(env!("CARGO_TARGET_TMPDIR"));
    folder.join(name).to_str().unwrap().to_string()
}

pub fn wire(words: &[u64]) -> Vec<u8> {
    words.iter().flat_map(|word| word.to_le_bytes()).collect()
}
