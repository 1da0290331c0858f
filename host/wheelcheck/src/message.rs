//! What an answer says, in the original's texts.

use quarto_yaml_tables::layout::{NONE, node, schema};
use quarto_yaml_tables::remote::NO_ANSWER;
use quarto_yaml_tables::{Answer, Detail, RawTables};
use serde_json::{Map, Number, Value};

/// A schema kind's name, from "true" to "$ref".
pub fn schema_name(kind: u32) -> &'static str {
    let name = schema::TYPE_NAMES.get(kind as usize);
    name.copied().unwrap_or("unknown")
}

/// The name of a node kind's type.
pub fn node_name(kind: u32) -> &'static str {
    let name = node::TYPE_NAMES.get(kind as usize);
    name.copied().unwrap_or("unknown")
}

/// The answer's number in words, for summaries.
pub fn answer_name(number: u32) -> &'static str {
    match number {
        0 => "accepted",
        1 => "type mismatch",
        2 => "required property missing",
        3 => "unknown property",
        4 => "not in enum",
        5 => "number out of range",
        6 => "not a multiple",
        7 => "string length",
        8 => "pattern mismatch",
        9 => "array length",
        10 => "items not unique",
        11 => "property count",
        12 => "unresolved reference",
        13 => "duplicate key",
        14 => "invalid pattern",
        20 => "bad table",
        21 => "number out of the tables",
        22 => "path buffer short",
        23 => "too deep",
        24 => "pattern answer missing",
        25 => "no alternative left an error",
        30 => "no bases",
        31 => "base not an object",
        32 => "eager reference unknown",
        33 => "no room",
        40 => "not found",
        _ => "no answer",
    }
}

/// The original's error code of a refusal from 1 to 14.
pub fn code(number: u32) -> Option<&'static str> {
    Some(match number {
        1 => "Q-1-11",
        2 => "Q-1-10",
        3 => "Q-1-18",
        4 => "Q-1-12",
        5 | 6 => "Q-1-15",
        7 => "Q-1-29",
        8 => "Q-1-14",
        9 => "Q-1-13",
        10 => "Q-1-19",
        11 => "Q-1-16",
        12 => "Q-1-17",
        13 => "Q-1-20",
        14 => "Q-1-99",
        _ => return None,
    })
}

/// An invalid pattern in the original's words, its error on one line.
pub fn invalid_pattern(pattern: &str, error: &regex::Error) -> String {
    let whole = error.to_string();
    let last = whole.lines().last().unwrap_or("").trim();
    let reason = last.strip_prefix("error: ").unwrap_or(last);
    format!("Invalid regex pattern '{pattern}': {reason}")
}

/// What a refusal from 1 to 13 says.
pub fn refusal(tables: &RawTables, answer: &Answer) -> String {
    let detail = answer.detail().unwrap_or(Detail::Empty);
    match (answer.number, detail) {
        (1, Detail::Type(expected, got)) => {
            format!("Expected {}, got {}", schema_name(expected), node_name(got))
        }
        (2, Detail::Property(property, part)) => missing(tables, property, part),
        (3, Detail::Key(key)) => format!("Unknown property '{}'", tables.string(key)),
        (4, _) => {
            let words = tables.schema(answer.schema);
            let allowed = allowed(tables, &words).join(", ");
            let value = json(tables, answer.node);
            format!("Value must be one of: {allowed}, got '{value}'")
        }
        (5, Detail::BelowMinimum(value, bound)) => {
            format!("Number {value} is less than minimum {bound}")
        }
        (5, Detail::AboveMaximum(value, bound)) => {
            format!("Number {value} is greater than maximum {bound}")
        }
        (5, Detail::AtOrBelowExclusiveMinimum(value, bound)) => {
            format!("Number {value} is not greater than {bound}")
        }
        (5, Detail::AtOrAboveExclusiveMaximum(value, bound)) => {
            format!("Number {value} is not less than {bound}")
        }
        (6, Detail::Multiple(value, multiple)) => {
            format!("Number {value} is not a multiple of {multiple}")
        }
        (7, Detail::Count(count, limit)) => outside("String length", count, limit),
        (8, Detail::Pattern(subject, pattern)) => {
            let [subject, pattern] = [subject, pattern].map(|number| tables.string(number));
            format!("String '{subject}' does not match pattern '{pattern}'")
        }
        (9, Detail::Count(count, limit)) => outside("Array length", count, limit),
        (10, _) => "Array items must be unique".to_string(),
        (11, Detail::Count(count, limit)) => {
            let side = side(count, limit);
            format!("Object has {count} properties, {side} {limit}")
        }
        (12, Detail::Reference(name)) => {
            format!("Unresolved schema reference: {}", tables.string(name))
        }
        (13, Detail::Key(key)) => format!("Duplicate key '{}'", tables.string(key)),
        (number, _) => answer_name(number).to_string(),
    }
}

/// A count breaks the minimum where it is below it, else the maximum.
fn side(count: u32, limit: u32) -> &'static str {
    match count < limit {
        true => "less than minimum",
        false => "greater than maximum",
    }
}

fn outside(what: &str, count: u32, limit: u32) -> String {
    let side = side(count, limit);
    format!("{what} {count} is {side} {limit}")
}

/// A missing property, with what it should have been where its schema says so.
fn missing(tables: &RawTables, property: u32, part: u32) -> String {
    let start = format!("Missing required property '{}'", tables.string(property));
    if part == NONE {
        return start;
    }
    let words = tables.schema(part);
    let values = match words[0] {
        schema::ENUM => allowed(tables, &words),
        _ => Vec::new(),
    };
    if !values.is_empty() {
        return format!("{start} (must be one of: {})", values.join(", "));
    }
    match expected_type(tables, part) {
        Some(kind) => format!("{start} (expected {kind})"),
        None => start,
    }
}

/// The type or types that a schema permits, where it says so.
fn expected_type(tables: &RawTables, number: u32) -> Option<String> {
    let words = tables.schema(number);
    match words[0] {
        schema::BOOLEAN
        | schema::NUMBER
        | schema::STRING
        | schema::NULL
        | schema::ARRAY
        | schema::OBJECT => Some(schema_name(words[0]).to_string()),
        schema::ANY_OF => {
            let parts = tables.list(words[2], words[3]);
            let names: Vec<String> = parts
                .iter()
                .filter_map(|&part| expected_type(tables, part))
                .collect();
            (!names.is_empty()).then(|| names.join(" or "))
        }
        _ => None,
    }
}

/// The values of an enum as JSON.
fn allowed(tables: &RawTables, words: &[u32; 16]) -> Vec<String> {
    if words[0] != schema::ENUM {
        return Vec::new();
    }
    let nodes = tables.list(words[2], words[3]);
    nodes
        .iter()
        .map(|&node| json(tables, node).to_string())
        .collect()
}

/// A node as JSON, as the original converts it.
pub fn json(tables: &RawTables, number: u32) -> Value {
    let [kind, a, b, _] = tables.node(number);
    match kind {
        node::BOOLEAN => Value::Bool(a == 1),
        node::INTEGER => Value::from(tables.numbers[a as usize] as i64),
        node::REAL => tables
            .numbers
            .get(b as usize)
            .and_then(|&bits| Number::from_f64(f64::from_bits(bits)))
            .map_or(Value::Null, Value::Number),
        node::STRING => Value::String(tables.string(a)),
        node::ARRAY => {
            let items = tables.list(a, b);
            Value::Array(items.iter().map(|&item| json(tables, item)).collect())
        }
        node::OBJECT => {
            let mut map = Map::new();
            for (key, value) in tables.pairs(a, b) {
                let [kind, name, ..] = tables.node(key);
                if kind == node::STRING {
                    map.insert(tables.string(name), json(tables, value));
                }
            }
            Value::Object(map)
        }
        _ => Value::Null,
    }
}

/// Why a schema is not compiled; `culprit` is the record that is at fault, where it is known.
pub fn compile_refusal(tables: &RawTables, number: u32, culprit: Option<u32>) -> String {
    let words = culprit.map(|record| tables.schema(record));
    let reason = match (number, words) {
        (23, _) => "Schemas nest deeper than 64 levels, or refer to themselves".to_string(),
        (30, _) => "base schema cannot be empty list".to_string(),
        (31, Some(words)) => {
            let kind = schema_name(words[0]);
            format!("Base schema must be an object schema, got {kind}")
        }
        (32, Some(words)) => {
            let name = tables.string(words[2]);
            format!("Cannot resolve eager reference '{name}' - not found in registry")
        }
        (33, _) => "The compiled schemas do not fit the tables".to_string(),
        (NO_ANSWER, _) => "The library gave no answer in time, or ended".to_string(),
        (other, _) => format!("The schema is not compiled: {}", answer_name(other)),
    };
    format!("Invalid schema structure: {reason}")
}

/// Why a file could not be checked.
pub fn no_verdict(number: u32) -> String {
    match number {
        23 => "cannot be checked: more than 64 visits nest".to_string(),
        25 => "cannot be checked: an anyOf accepts nothing here and leaves no error".to_string(),
        NO_ANSWER => "cannot be checked: the library gave no answer in time, or ended".to_string(),
        other => format!("cannot be checked: {} (answer {other})", answer_name(other)),
    }
}
