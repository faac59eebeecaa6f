//! The examples in the repository's root give what their README shows.
use std::env;
use std::fs;
use std::path::{Path, PathBuf};
use std::process::{Command, Stdio};

const PROGRAM: &str = env!("CARGO_BIN_EXE_jadmirus");

/// The names and contents of the examples.
fn examples() -> Vec<(String, String)> {
    let folder = PathBuf::from(env!("CARGO_MANIFEST_DIR")).join("../../examples");
    read(&folder)
}

fn read(folder: &Path) -> Vec<(String, String)> {
    let mut files: Vec<(String, String)> = fs::read_dir(folder)
        .unwrap()
        .map(|entry| {
            let name = entry.unwrap().file_name().into_string().unwrap();
            let text = fs::read_to_string(folder.join(&name)).unwrap();
            (name, text)
        })
        .collect();
    files.sort();
    files
}

fn example(name: &str) -> String {
    let mut examples = examples().into_iter();
    examples.find(|(n, _)| n == name).unwrap().1
}

/// A copy of the examples, in which commands may write.
fn copy(name: &str) -> PathBuf {
    let folder = PathBuf::from(env!("CARGO_TARGET_TMPDIR")).join(name);
    let _ = fs::remove_dir_all(&folder);
    fs::create_dir(&folder).unwrap();
    for (name, text) in examples() {
        fs::write(folder.join(name), text).unwrap();
    }
    folder
}

/// Standard output of a command as it is typed; the status is 1 if it tells a refusal, else 0.
fn shell(command: &str, folder: &Path) -> String {
    let mut path = vec![Path::new(PROGRAM).parent().unwrap().to_path_buf()];
    path.extend(env::split_paths(&env::var_os("PATH").unwrap_or_default()));
    let output = Command::new("sh")
        .args(["-c", command])
        .env("PATH", env::join_paths(path).unwrap())
        .current_dir(folder)
        .stderr(Stdio::null())
        .output()
        .unwrap();
    let text = String::from_utf8(output.stdout).unwrap();
    let refused = text.starts_with("answer ") && !text.starts_with("answer 0\n");
    assert_eq!(output.status.code(), Some(refused as i32), "{command}");
    text
}

/// Each command of the README with what stands below it, both indented by four spaces. An empty
/// line belongs to an output if the output goes on behind it.
fn shown() -> Vec<(String, String)> {
    let mut shown: Vec<(String, String)> = Vec::new();
    let mut empty = "";
    for line in example("README.md").lines() {
        let Some(line) = line.strip_prefix("    ") else {
            empty = if line.is_empty() { "\n" } else { "" };
            continue;
        };
        match line.strip_prefix("$ ") {
            Some(command) => shown.push((command.to_string(), String::new())),
            None => {
                let (_, output) = shown.last_mut().unwrap();
                output.push_str(empty);
                output.push_str(line);
                output.push('\n');
            }
        }
        empty = "";
    }
    shown
}

/// One after another, since some write. In the end the sheets are what they were.
#[test]
fn commands_of_the_readme() {
    let (shown, folder) = (shown(), copy("readme"));
    assert!(shown.len() >= 5);
    for (command, output) in shown {
        assert_eq!(shell(&command, &folder), output, "{command}");
    }
    assert_eq!(read(&folder), examples());
}

#[test]
fn the_month_stands_in_its_time_order() {
    let order = shell("jadmirus order month-times.sheet", &copy("month"));
    for name in ["month.sheet", "month-listeners.sheet"] {
        assert!(example(name).ends_with(&order), "{name}");
    }
}
