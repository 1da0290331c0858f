//! The options, the exit status and the machine's form.

use super::{Folder, run_all};
use serde_json::Value;

const SCHEMA: &str = "examples/wheel.schema.yaml";
const GOOD: &str = "examples/wheels/plain.yaml";
const BAD: &str = "examples/wheels/step-200.yaml";
const BROKEN: &str = "examples/wheels/broken.yaml";

#[test]
fn the_worst_file_decides_the_exit_status() {
    let status = |files: &[&str]| run_all(&[files, &["--schema", SCHEMA]].concat()).status;
    assert_eq!(status(&[GOOD, GOOD]), 0);
    assert_eq!(status(&[GOOD, BAD]), 1);
    assert_eq!(status(&[BAD, BROKEN, GOOD]), 2);
}

#[test]
fn json_has_every_field_of_the_answer() {
    let ran = run_all(&[BAD, GOOD, BROKEN, "--schema", SCHEMA, "--json"]);
    assert_eq!((ran.status, ran.errors.as_str()), (2, ""));
    let objects: Vec<Value> = ran
        .out
        .lines()
        .map(|line| serde_json::from_str(line).expect("an object"))
        .collect();
    assert_eq!(objects.len(), 3);
    let refused = &objects[0];
    assert_eq!(refused["status"], "refused");
    assert_eq!(refused["file"], BAD);
    assert_eq!(refused["message"], "Number 200 is greater than maximum 127");
    assert_eq!(refused["code"], "Q-1-15");
    assert_eq!(
        (&refused["line"], &refused["column"]),
        (&4.into(), &7.into())
    );
    assert_eq!(refused["instance_path"], serde_json::json!(["step"]));
    assert_eq!(
        refused["schema_path"],
        serde_json::json!(["object", "number"])
    );
    assert_eq!(refused["rule"]["line"], 13);
    let answer = refused["answer"].as_object().expect("an answer");
    let mut fields: Vec<&str> = answer.keys().map(String::as_str).collect();
    fields.sort_unstable();
    let all = "a b bound detail hint instance_steps node number record schema schema_steps table \
               used_links used_notes used_schemas value";
    assert_eq!(fields, all.split_whitespace().collect::<Vec<_>>());
    assert_eq!(
        (&answer["number"], &answer["detail"]),
        (&5.into(), &9.into())
    );
    assert_eq!(
        (&answer["value"], &answer["bound"]),
        (&200.0.into(), &127.0.into())
    );
    assert_eq!(objects[1]["status"], "accepted");
    assert_eq!(objects[1]["answer"]["number"], 0);
    assert_eq!(objects[2]["status"], "unchecked");
    assert_eq!(
        (&objects[2]["answer"], &objects[2]["line"]),
        (&Value::Null, &3.into())
    );
}

#[test]
fn json_has_warnings_and_no_number_for_nan() {
    let file = "examples/wheels/not-a-number.yaml";
    let ran = run_all(&[file, "--schema", SCHEMA, "--json"]);
    let object: Value = serde_json::from_str(&ran.out).expect("an object");
    assert_eq!(object["warnings"][0]["line"], 3);
    let folder = Folder::new("infinite");
    let schema = folder.file("schema.yaml", "number: {maximum: 1}");
    let file = folder.file("file.yaml", ".inf");
    let ran = run_all(&[&file, "--schema", &schema, "--json"]);
    let object: Value = serde_json::from_str(&ran.out).expect("an object");
    assert_eq!(
        (
            &object["answer"]["value"],
            object["answer"]["bound"].as_f64()
        ),
        (&Value::Null, Some(1.0))
    );
}

#[test]
fn quiet_prints_nothing_but_trouble() {
    let ran = run_all(&[GOOD, BAD, "--schema", SCHEMA, "--quiet"]);
    assert_eq!(
        (ran.status, ran.out.as_str(), ran.errors.as_str()),
        (1, "", "")
    );
    let ran = run_all(&[BROKEN, "--schema", SCHEMA, "--quiet"]);
    assert_eq!((ran.status, ran.out.as_str()), (2, ""));
    ran.says(&["broken.yaml:3:5: Parse error"]);
}

#[test]
fn nothing_is_coloured_off_a_terminal() {
    let files = [BAD; 50];
    let ran = run_all(&[&files[..], &["--schema", SCHEMA]].concat());
    assert!(!ran.out.contains('\x1b') && !ran.errors.contains(['\x1b', '\r']));
}

#[test]
fn wrong_words_are_said_with_the_usage() {
    let cases: &[(&[&str], &str)] = &[
        (&[], "--schema SCHEMA.yaml is missing"),
        (&["--schema", SCHEMA], "no file to check"),
        (
            &[GOOD, "--schema", SCHEMA, "--loud"],
            "unknown option '--loud'",
        ),
        (
            &[GOOD, "--schema", SCHEMA, "--mode", "x"],
            "--mode is source or standard, not 'x'",
        ),
    ];
    for (words, part) in cases {
        let ran = run_all(words);
        assert_eq!((ran.status, ran.out.as_str()), (2, ""));
        ran.says(&[part, "wheelcheck FILE... --schema SCHEMA.yaml"]);
    }
    let ran = run_all(&["--help"]);
    assert_eq!((ran.status, ran.errors.as_str()), (0, ""));
    ran.says(&["wheelcheck FILE... --schema SCHEMA.yaml", "Exit status"]);
}
