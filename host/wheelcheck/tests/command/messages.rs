//! One file for each answer: its message, place, path, hint and schema path.

use super::Folder;

/// A schema, a file, and what the refusal says.
const REFUSALS: &[(&str, &str, &[&str])] = &[
    (
        "boolean",
        "1",
        &[
            "file.yaml:1:1: Expected boolean, got integer [Q-1-11]",
            "schema: boolean",
        ],
    ),
    (
        "number",
        "'1'",
        &["Expected number, got string", "    | ^^^"],
    ),
    ("string", "1.5", &["Expected string, got float"]),
    ("null", "[]", &["Expected null, got array"]),
    ("array", "{}", &["Expected array, got object"]),
    ("object", "true", &["Expected object, got boolean"]),
    ("null", "!!int x", &["Expected null, got null"]),
    (
        "object: {required: [a], properties: {a: [1, 'b', 2.5, null]}}",
        "b: 1",
        &[
            "Missing required property 'a' (must be one of: 1, \"b\", 2.5, null) [Q-1-10]",
            "at: (root)",
        ],
    ),
    (
        "object: {required: [a], properties: {a: {anyOf: [boolean, any, string]}}}",
        "{}",
        &["Missing required property 'a' (expected boolean or string)"],
    ),
    (
        "object: {required: [a]}",
        "{}",
        &["Missing required property 'a' [Q-1-10]"],
    ),
    (
        "object: {properties: {a: {object: {closed: true}}}}",
        "a:\n  bé: 1\n",
        &[
            "file.yaml:2:3: Unknown property 'bé' [Q-1-18]",
            "at: a\n",
            "schema: object > object",
        ],
    ),
    (
        "enum: [1, {b: 2, a: [x]}]",
        "c: 1.0\n",
        &["Value must be one of: 1, {\"a\":[\"x\"],\"b\":2}, got '{\"c\":1.0}' [Q-1-12]"],
    ),
    (
        "number: {minimum: 1}",
        "0",
        &["Number 0 is less than minimum 1 [Q-1-15]"],
    ),
    (
        "number: {maximum: 1.5}",
        "2",
        &["Number 2 is greater than maximum 1.5"],
    ),
    (
        "number: {exclusiveMinimum: 0}",
        "-0.0",
        &["Number -0 is not greater than 0"],
    ),
    (
        "number: {exclusiveMaximum: 1e3}",
        "1000",
        &["Number 1000 is not less than 1000"],
    ),
    (
        "number: {multipleOf: 4}",
        "10",
        &["Number 10 is not a multiple of 4 [Q-1-15]"],
    ),
    (
        "string: {minLength: 3}",
        "ab",
        &["String length 2 is less than minimum 3 [Q-1-29]"],
    ),
    (
        "string: {maxLength: 1}",
        "é",
        &["String length 2 is greater than maximum 1"],
    ),
    (
        "arrayOf: {string: {pattern: '^a+$', errorMessage: only a}}",
        "- a\n- b\n",
        &[
            "file.yaml:2:3: String 'b' does not match pattern '^a+$' [Q-1-14]",
            "at: [1]",
            "hint: only a",
            "array > string",
        ],
    ),
    (
        "array: {minItems: 1}",
        "[]",
        &["Array length 0 is less than minimum 1 [Q-1-13]"],
    ),
    (
        "array: {maxItems: 1}",
        "[1, 2]",
        &["Array length 2 is greater than maximum 1"],
    ),
    (
        "array: {uniqueItems: true}",
        "[1, 2, 1]",
        &["Array items must be unique [Q-1-19]"],
    ),
    (
        "object: {minProperties: 1}",
        "{}",
        &["Object has 0 properties, less than minimum 1 [Q-1-16]"],
    ),
    (
        "object: {maxProperties: 1}",
        "{a: 1, b: 2}",
        &["Object has 2 properties, greater than maximum 1"],
    ),
    (
        "ref: nothing",
        "1",
        &[
            "Unresolved schema reference: nothing [Q-1-17]",
            "schema: (root)",
        ],
    ),
    (
        "object",
        "a: 1\nb: 2\na: 3\n",
        &["file.yaml:3:1: Duplicate key 'a' [Q-1-20]"],
    ),
    (
        "object: {properties: {a: {string: {pattern: '('}}}}",
        "a: x\n",
        &[
            "file.yaml:1:4: Invalid regex pattern '(': unclosed group [Q-1-99]",
            "at: a",
            "schema: (root)",
        ],
    ),
    (
        "anyOf: [boolean, {array: {items: boolean}}]",
        "[true, 1]",
        &["Expected boolean, got array", "schema: anyOf > boolean"],
    ),
    (
        "allOf: [any, {number: {minimum: 5}}]",
        "3",
        &["Number 3 is less than minimum 5", "schema: allOf > number"],
    ),
];

#[test]
fn each_answer_says_what_is_wrong_and_where() {
    let folder = Folder::new("refusals");
    for (schema, text, parts) in REFUSALS {
        let ran = folder.check(schema, text);
        assert_eq!(
            ran.status, 1,
            "{schema} on {text}: {}{}",
            ran.out, ran.errors
        );
        ran.says(parts);
    }
}

const ACCEPTED: &[(&str, &str)] = &[
    ("true", "x"),
    ("any", "x"),
    ("boolean", "false"),
    ("null", "~"),
    ("'null'", "~"),
    ("null: {description: nothing}", "# nothing\n---\n"),
    ("[a, 1, null]", "1"),
    ("enum: {values: [a, {b: 1}], description: x}", "{b: 1}"),
    ("anyOf: {schemas: [boolean, number], description: x}", "1"),
    (
        "number: {minimum: -.inf, maximum: 9007199254740992}",
        "-9223372036854775808",
    ),
    ("object: {additionalProperties: number}", "a: 1"),
    ("object", "1: x"),
    (
        "array: {items: {$id: self, array: {items: {ref: self}}}}",
        "[[[[]]]]",
    ),
];

#[test]
fn what_a_schema_allows_is_accepted() {
    let folder = Folder::new("accepted");
    for (schema, text) in ACCEPTED {
        let ran = folder.check(schema, text);
        assert_eq!(
            ran.status, 0,
            "{schema} on {text}: {}{}",
            ran.out, ran.errors
        );
    }
}

#[test]
fn modes_differ_where_the_rules_say_so() {
    let folder = Folder::new("modes");
    let schema = folder.file("s.yaml", "anyOf: [{string: {maxLength: 1}}, {enum: [1]}]");
    for (name, text) in [("length.yaml", "é"), ("one.yaml", "1.0")] {
        let file = folder.file(name, text);
        let source = super::run_all(&[&file, "--schema", &schema, "--mode", "source"]);
        let unnamed = super::run_all(&[&file, "--schema", &schema]);
        let standard = super::run_all(&[&file, "--schema", &schema, "--mode", "standard"]);
        assert_eq!(
            [source.status, unnamed.status, standard.status],
            [1, 1, 0],
            "{text}"
        );
    }
}

#[test]
fn what_has_no_verdict_is_not_checked() {
    let folder = Folder::new("no-verdict");
    let ran = folder.check("anyOf: []", "1");
    assert_eq!(ran.status, 2);
    ran.says(&["cannot be checked: an anyOf accepts nothing here and leaves no error"]);
    let ran = folder.check("{$id: a, ref: a}", "1");
    assert_eq!(ran.status, 2);
    ran.says(&["cannot be checked: more than 64 visits nest"]);
}
