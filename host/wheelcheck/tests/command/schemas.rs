//! What is wrong with a schema is said with its place, and the command does not run.

use super::Folder;

const WRONG: &[(&str, &[&str])] = &[
    (
        "bolean",
        &[
            "schema.yaml:1:1: Invalid schema type: bolean",
            "did you mean 'boolean'?",
        ],
    ),
    (
        "integer",
        &["Invalid schema type: integer", "known are: boolean, number"],
    ),
    ("anyOf", &["'anyOf' does not stand alone"]),
    (
        "5",
        &["a schema is a word, a list of values or an object, got integer"],
    ),
    ("false", &["there is no schema 'false'", "closed: true"]),
    ("{}", &["the schema's kind is missing"]),
    ("description: x", &["the schema's kind is missing"]),
    ("wheel: {}", &["Invalid schema type: wheel"]),
    (
        "number: {}\nstring: {}\n",
        &[
            "schema.yaml:2:1:",
            "a schema is of one kind, not 'number' and 'string'",
        ],
    ),
    (
        "number:\n  minimun: 1\n",
        &[
            "schema.yaml:2:3:",
            "unknown word 'minimun' in a number schema",
            "did you mean 'minimum'?",
            "^^^^^^^",
        ],
    ),
    (
        "number: {minimum: low}",
        &["'minimum' is a number, got string"],
    ),
    (
        "number: {minimum: .nan}",
        &["'minimum' is a number that is one"],
    ),
    (
        "number: {maximum: 9007199254740993}",
        &["no f64 is 9007199254740993"],
    ),
    (
        "number: {minimum: 1, minimum: 2}",
        &["schema.yaml:1:22:", "'minimum' is there twice"],
    ),
    ("number: [1]", &["a number schema is an object, got array"]),
    (
        "string: {minLength: -1}",
        &["'minLength' is a count from 0 to 4294967294"],
    ),
    (
        "string: {pattern: 5}",
        &["'pattern' is a string, got integer"],
    ),
    ("string: {1: 2}", &["a key is a word, got integer"]),
    (
        "array: {uniqueItems: 1}",
        &["'uniqueItems' is a boolean, got integer"],
    ),
    ("array: {items: wide}", &["Invalid schema type: wide"]),
    ("enum: red", &["an enum schema is an object, got string"]),
    (
        "enum: {description: x}",
        &["Missing required field 'values'"],
    ),
    ("allOf: {schemas: 1}", &["'allOf' is a list, got integer"]),
    ("ref: 5", &["a reference is a name, got integer"]),
    (
        "object: {properties: [a]}",
        &["'properties' is an object, got array"],
    ),
    (
        "object: {properties: {1: any}}",
        &["a property's name is a string"],
    ),
    (
        "object: {properties: {a: any, a: any}}",
        &["'a' is there twice"],
    ),
    (
        "object: {required: a}",
        &["'required' is a list, got string"],
    ),
    (
        "object: {required: [1]}",
        &["'required' is a list of strings, got integer"],
    ),
    (
        "object: {additionalProperties: false}",
        &["there is no schema 'false'"],
    ),
    (
        "object: {closed: 'yes'}",
        &["'closed' is a boolean, got string"],
    ),
    (
        "{any: {}, hidden: 1}",
        &["'hidden' is a boolean, got integer"],
    ),
    ("{any: {}, tags: [a]}", &["'tags' is an object, got array"]),
    (
        "{$id: a, any: {}}\n---\n{$id: a, any: {}}\n",
        &["schema.yaml:3:10:", "the $id 'a' is there already"],
    ),
    ("object: {super: []}", &["base schema cannot be empty list"]),
    (
        "object: {super: string}",
        &[
            "schema.yaml:1:17:",
            "Base schema must be an object schema, got string",
        ],
    ),
    (
        "{$id: b, object: {}}\n---\nobject: {super: {ref: b}}\n",
        &["Base schema must be an object schema, got $ref"],
    ),
    (
        "resolveRef: missing",
        &["Cannot resolve eager reference 'missing' - not found in registry"],
    ),
    (
        "{$id: a, resolveRef: a}",
        &["Schemas nest deeper than 64 levels, or refer to themselves"],
    ),
    (
        "{$id: b, object: {}}\n---\nobject:\n  super: {resolveRef: b}\n  properties:\n    a:\n      object: {super: {resolveRef: b}}\n",
        &[
            "schema.yaml:7:7:",
            "this 'super' is never merged",
            "give this schema an $id",
        ],
    ),
    ("a: [", &["Parse error"]),
    ("", &["there is no schema in it"]),
];

#[test]
fn what_is_wrong_is_said_with_its_place() {
    let folder = Folder::new("schemas");
    for (schema, parts) in WRONG {
        let ran = folder.check(schema, "1");
        assert_eq!(ran.status, 2, "{schema}: {}{}", ran.out, ran.errors);
        assert_eq!(ran.out, "", "{schema}");
        ran.says(&["schema.yaml"]);
        ran.says(parts);
    }
}

#[test]
fn bases_are_merged_and_names_resolved() {
    let folder = Folder::new("bases");
    let schema = "
$id: base
object: {required: [a], properties: {a: number, b: string}}
---
$id: middle
object: {super: {resolveRef: base}, closed: true, properties: {b: boolean}}
---
arrayOf: {ref: middle}
";
    let refused = [
        (
            "[{b: true}]",
            "Missing required property 'a' (expected number)",
        ),
        ("[{a: 1, b: x}]", "Expected boolean, got string"),
        ("[{a: 1, c: x}]", "Unknown property 'c'"),
    ];
    for (text, part) in refused {
        let ran = folder.check(schema, text);
        assert_eq!(ran.status, 1, "{text}");
        ran.says(&[part]);
    }
    assert_eq!(folder.check(schema, "[{a: 1, b: true}]").status, 0);
}

#[test]
fn outer_annotations_go_over_inner_ones() {
    let folder = Folder::new("outer");
    let ran = folder.check("{number: {errorMessage: inner}, errorMessage: outer}", "x");
    ran.says(&["hint: outer"]);
}

#[test]
fn what_is_never_checked_is_warned_of() {
    let folder = Folder::new("warned");
    let schema = "object: {patternProperties: {a: number}, propertyNames: string, namingConvention: [snake_case]}";
    let ran = folder.check(schema, "a: x");
    assert_eq!(ran.status, 0);
    for word in ["patternProperties", "propertyNames", "namingConvention"] {
        ran.says(&[&format!(
            "warning: '{word}' is carried and merged, never checked"
        )]);
    }
    let ran = folder.check("string: {pattern: '['}", "1");
    assert_eq!(ran.status, 1);
    ran.says(&["warning: Invalid regex pattern '['"]);
}

#[test]
fn there_are_128_names_and_no_more() {
    let folder = Folder::new("names");
    let names = |count: usize| -> String {
        (0..count)
            .map(|name| format!("{{$id: n{name}, any: {{}}}}\n---\n"))
            .chain(["number".to_string()])
            .collect()
    };
    assert_eq!(folder.check(&names(128), "1").status, 0);
    let ran = folder.check(&names(129), "1");
    assert_eq!(ran.status, 2);
    ran.says(&[
        "more than 256 named schemas",
        "each name takes two of the 256 entries",
    ]);
}
