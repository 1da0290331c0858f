//! Each example against the output that stands beside it.

use super::{repository, run_all};
use std::fs;

const WHEEL: &str = "examples/wheel.schema.yaml";
const COLOURED: &str = "examples/coloured-wheel.schema.yaml";

/// The files of a folder of examples, in order.
fn files(folder: &str) -> Vec<String> {
    let entries = fs::read_dir(repository().join(folder)).expect("a folder");
    let names = entries.map(|entry| entry.expect("an entry").file_name());
    let mut files: Vec<String> = names
        .map(|name| format!("{folder}/{}", name.to_str().expect("UTF-8")))
        .filter(|name| name.ends_with(".yaml"))
        .collect();
    files.sort();
    files
}

fn as_expected(folder: &str, options: &[&str]) -> usize {
    let files = files(folder);
    for file in &files {
        let ran = run_all(&[&[file.as_str()], options].concat());
        let found = format!("{}{}exit {}\n", ran.errors, ran.out, ran.status);
        let path = repository().join(file.replace(".yaml", ".expected"));
        let expected = fs::read_to_string(path).expect("an expected output");
        assert_eq!(found, expected, "{file}");
    }
    files.len()
}

#[test]
fn wheels() {
    assert!(as_expected("examples/wheels", &["--schema", WHEEL]) >= 10);
}

#[test]
fn wheels_with_bases() {
    let options = ["--schema", COLOURED, "--base", WHEEL];
    assert!(as_expected("examples/coloured", &options) >= 8);
}

#[test]
fn a_step_of_200_is_named_with_line_column_value_and_bound() {
    let ran = run_all(&["examples/wheels/step-200.yaml", "--schema", WHEEL]);
    assert_eq!(ran.status, 1);
    ran.says(&["step-200.yaml:4:7:", "step", "200", "127"]);
}

#[test]
fn all_at_once_are_counted_by_answer() {
    let files = files("examples/coloured");
    let mut words: Vec<&str> = files.iter().map(String::as_str).collect();
    words.extend(["--schema", COLOURED, "--base", WHEEL]);
    let ran = run_all(&words);
    assert_eq!(ran.status, 1);
    let summary = ran.out.lines().last().expect("a summary");
    assert_eq!(
        summary,
        "8 files: 1 accepted, 7 refused (required property missing 1, not in enum 1, \
         number out of range 1, not a multiple 1, string length 1, pattern mismatch 1, \
         items not unique 1), 0 not checked"
    );
}

#[test]
fn a_base_is_needed() {
    let ran = run_all(&["examples/coloured/red.yaml", "--schema", COLOURED]);
    assert_eq!(ran.status, 2);
    ran.says(&[
        "coloured-wheel.schema.yaml:14:7:",
        "Cannot resolve eager reference",
    ]);
}
