//! What cannot be read is said for that file; the others are still checked.

use super::{Folder, run_all};

#[test]
fn each_bad_file_is_named_and_the_rest_is_checked() {
    let folder = Folder::new("bad-input");
    let schema = folder.file("schema.yaml", "any");
    let good = folder.file("good.yaml", "a: 1\n");
    let texts = "'".to_string() + &"x".repeat(70_000) + "'";
    let links = "- [1,1,1,1,1,1,1,1,1,1,1,1,1,1,1]\n".repeat(300);
    let cases: &[(&str, &[u8], &str)] = &[
        (
            "utf8.yaml",
            b"a: \xff\n",
            "is not UTF-8: byte 4 is wrong, at line 1, column 4",
        ),
        ("yaml.yaml", b"a: [1\n", "Parse error"),
        (
            "anchor.yaml",
            b"- &a 1\n- &a 2\n",
            "anchor.yaml:2:3: Parse error: the anchor 'a' is there already, at line 1",
        ),
        ("alias.yaml", b"- *a\n", "found unknown anchor"),
        (
            "self.yaml",
            b"&a [*a]\n",
            "this alias stands inside what its own anchor names",
        ),
        (
            "empty.yaml",
            b"# nothing\n",
            "there is no YAML document in it",
        ),
        ("two.yaml", b"1\n---\n2\n", "a second YAML document"),
        (
            "texts.yaml",
            texts.as_bytes(),
            "more than 65536 bytes of text",
        ),
        ("values.yaml", links.as_bytes(), "more than 4096 values"),
        (
            "large.yaml",
            &[b'#'; 1_048_577],
            "is too large: more than 1048576 bytes",
        ),
    ];
    for (name, bytes, part) in cases {
        let file = folder.file(name, bytes);
        let ran = run_all(&[&file, &good, "--schema", &schema]);
        assert_eq!(ran.status, 2, "{name}");
        ran.says(&[name, part, "2 files: 1 accepted, 0 refused, 1 not checked"]);
    }
}

#[test]
fn a_folder_and_a_missing_file_are_named() {
    let folder = Folder::new("no-file");
    let schema = folder.file("schema.yaml", "number");
    let bad = folder.file("bad.yaml", "x");
    let path = folder.0.to_str().expect("UTF-8");
    let missing = format!("{path}/missing.yaml");
    let ran = run_all(&[path, &missing, &bad, "--schema", &schema]);
    assert_eq!(ran.status, 2);
    ran.says(&[
        "is a directory, not a file",
        "missing.yaml: cannot be read: No such file",
    ]);
    ran.says(&["bad.yaml:1:1: Expected number, got string"]);
    ran.says(&["3 files: 0 accepted, 1 refused (type mismatch 1), 2 not checked"]);
    let ran = run_all(&[&bad, "--schema", &missing]);
    assert_eq!(ran.status, 2);
    ran.says(&["missing.yaml: cannot be read"]);
}

#[test]
fn more_patterns_than_fit_are_named() {
    let folder = Folder::new("patterns");
    let parts: Vec<String> = (0..30)
        .map(|n| format!("{{string: {{pattern: 'x{n}'}}}}"))
        .collect();
    let schema = folder.file(
        "schema.yaml",
        format!("arrayOf: {{anyOf: [{}]}}", parts.join(", ")),
    );
    let items: String = (0..200).map(|n| format!("- y{n}\n")).collect();
    let file = folder.file("file.yaml", items);
    let ran = run_all(&[&file, "--schema", &schema]);
    assert_eq!(ran.status, 2);
    ran.says(&["more than 4096 pattern answers"]);
}

#[test]
fn a_value_of_4000_levels_is_checked_and_shown() {
    let folder = Folder::new("deep");
    let text = "- ".repeat(4_000) + "1";
    assert_eq!(folder.check("array", &text).status, 0);
    let ran = folder.check("[1]", &text);
    assert_eq!(ran.status, 1);
    ran.says(&["file.yaml:1:1: Value must be one of: 1, got '[[[[", "…"]);
    let schema = "anyOf: [".repeat(100) + "number" + &"]".repeat(100);
    let ran = folder.check(&schema, "1");
    assert_eq!(ran.status, 2);
    ran.says(&["Schemas nest deeper than 64 levels, or refer to themselves"]);
}
