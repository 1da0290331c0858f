//! Notes as the original's annotations, and their words back.
//!
//! The words are opaque: each becomes a string that holds it, so that it
//! travels and can be read again.

use quarto_yaml_tables::RawTables;
use quarto_yaml_tables::layout::{NONE, note};
use quarto_yaml_validation::schema::{NamingConvention, SchemaAnnotations};
use serde_json::Value;
use std::collections::HashMap;

/// The string that stands for an opaque word.
fn string(word: u32) -> Option<String> {
    (word != NONE).then(|| format!("word {word}"))
}

/// The word of a string made above.
pub fn word(string: &str) -> Option<u32> {
    string.strip_prefix("word ")?.parse().ok()
}

/// A note, or none.
pub fn annotations(tables: &RawTables, number: u32) -> SchemaAnnotations {
    if number == NONE {
        return SchemaAnnotations::default();
    }
    let words = tables.note(number);
    let [
        id,
        description,
        documentation,
        message,
        hidden,
        completions,
        additional,
        tags,
        _,
    ] = words;
    SchemaAnnotations {
        id: string(id),
        description: string(description),
        documentation: string(documentation),
        error_message: string(message),
        hidden: (hidden != NONE).then_some(hidden == 1),
        completions: string(completions).map(|word| vec![word]),
        additional_completions: string(additional).map(|word| vec![word]),
        tags: string(tags).map(|word| held_tags(word, words[note::CASE_DETECTION] == 1)),
    }
}

/// Tags that hold their word and, where asked for, case-detection true.
fn held_tags(word: String, case_detection: bool) -> HashMap<String, Value> {
    let mut tags = HashMap::from([("word".to_string(), Value::String(word))]);
    if case_detection {
        tags.insert("case-detection".to_string(), Value::Bool(true));
    }
    tags
}

/// A naming convention by its opaque word.
pub fn naming(word: u32) -> Option<NamingConvention> {
    string(word).map(NamingConvention::Single)
}
