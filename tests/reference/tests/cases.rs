//! Runs each `tests/cases/NAME.txt` and compares what is printed with `NAME.out`, which was worked by hand from the scope.

use std::fs::{read, read_dir};
use std::io::Write;
use std::path::PathBuf;
use std::process::{Command, Stdio};

fn printed_for(script: &[u8]) -> Vec<u8> {
    let mut child = Command::new(env!("CARGO_BIN_EXE_reference"))
        .stdin(Stdio::piped())
        .stdout(Stdio::piped())
        .spawn()
        .expect("the reference starts");
    child.stdin.take().expect("standard input").write_all(script).expect("the script is taken");
    child.wait_with_output().expect("the reference ends").stdout
}

/// The number of the first line that differs, with both lines.
fn difference(printed: &[u8], expected: &[u8]) -> String {
    let (printed, expected) = (String::from_utf8_lossy(printed), String::from_utf8_lossy(expected));
    let pairs = printed.lines().map(Some).chain([None]).zip(expected.lines().map(Some).chain([None]));
    let first = pairs.enumerate().find(|(_, (one, other))| one != other);
    let told = first.map(|(line, (one, other))| format!("line {}: printed {one:?}, expected {other:?}", line + 1));
    told.unwrap_or_else(|| "line ends".to_string())
}

fn scripts() -> Vec<PathBuf> {
    let folder = concat!(env!("CARGO_MANIFEST_DIR"), "/tests/cases");
    let mut paths: Vec<PathBuf> = read_dir(folder).expect("the cases").map(|entry| entry.expect("a case").path()).collect();
    paths.retain(|path| path.extension().is_some_and(|extension| extension == "txt"));
    paths.sort();
    paths
}

#[test]
fn every_case_prints_what_was_worked_by_hand() {
    let scripts = scripts();
    assert!(scripts.len() >= 20, "only {} cases", scripts.len());
    let mut wrong = Vec::new();
    for path in &scripts {
        let printed = printed_for(&read(path).expect("a script"));
        let expected = read(path.with_extension("out")).expect("its output");
        if printed != expected {
            wrong.push(format!("{}: {}", path.display(), difference(&printed, &expected)));
        }
    }
    assert!(wrong.is_empty(), "{}", wrong.join("\n"));
}
