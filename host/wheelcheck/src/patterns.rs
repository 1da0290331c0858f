//! Answers of the regex engine, for every pattern that may meet a string.

use quarto_yaml_tables::layout::{NONE, node, schema};
use quarto_yaml_tables::{PatternAnswer, RawTables, TableError, Tables};
use regex::Regex;
use std::collections::{HashMap, HashSet};

/// Patterns that were compiled already, none where a pattern is invalid.
#[derive(Debug, Default)]
pub struct Patterns {
    known: HashMap<String, Option<Regex>>,
}

impl Patterns {
    /// What the engine says of a subject.
    pub fn answer(&mut self, pattern: &str, subject: &str) -> PatternAnswer {
        if !self.known.contains_key(pattern) {
            self.known
                .insert(pattern.to_string(), Regex::new(pattern).ok());
        }
        match &self.known[pattern] {
            None => PatternAnswer::Invalid,
            Some(regex) if regex.is_match(subject) => PatternAnswer::Match,
            Some(_) => PatternAnswer::NoMatch,
        }
    }

    /// Fills table 6 for a check of this node against this schema.
    pub fn fill(&mut self, tables: &mut Tables, node: u32, schema: u32) -> Result<(), TableError> {
        for (pattern, subject) in meetings(tables.raw(), node, schema) {
            let [pattern, subject] = [pattern, subject].map(|text| {
                let number = tables.text_at(text).expect("a text of these tables");
                let bytes = tables.bytes(number).to_vec();
                (number, String::from_utf8(bytes).expect("texts are UTF-8"))
            });
            let answer = self.answer(&pattern.1, &subject.1);
            tables.answer_pattern(pattern.0, subject.0, answer)?;
        }
        Ok(())
    }
}

/// Every pattern with every string that a visit may ask it of, equal pairs once.
///
/// A visit may end before it asks; it never asks more.
fn meetings(tables: &RawTables, node: u32, schema: u32) -> Vec<(u32, u32)> {
    let mut seen = HashSet::new();
    let mut asked = HashSet::new();
    let mut found = Vec::new();
    let mut waiting = vec![(node, schema)];
    while let Some((node, schema)) = waiting.pop() {
        if !seen.insert((node, schema)) {
            continue;
        }
        let words = tables.schema(schema);
        let [kind, a, b, _] = tables.node(node);
        match words[0] {
            schema::STRING if kind == node::STRING && words[4] != NONE => {
                let pair = (words[4], a);
                let new = asked.insert((tables.text(pair.0), tables.text(pair.1)));
                found.extend(new.then_some(pair));
            }
            schema::ANY_OF | schema::ALL_OF => {
                let parts = tables.list(words[2], words[3]);
                waiting.extend(parts.iter().rev().map(|&part| (node, part)));
            }
            schema::ARRAY if kind == node::ARRAY && words[2] != NONE => {
                let items = tables.list(a, b);
                waiting.extend(items.iter().rev().map(|&item| (item, words[2])));
            }
            schema::OBJECT if kind == node::OBJECT => {
                for (key, value) in tables.pairs(a, b) {
                    let [kind, text, ..] = tables.node(key);
                    let part = match kind {
                        node::STRING => property(tables, &words, tables.text(text)),
                        _ => NONE,
                    };
                    if part != NONE {
                        waiting.push((value, part));
                    }
                }
            }
            schema::REF => waiting.extend(resolve(tables, words[2]).map(|target| (node, target))),
            _ => {}
        }
    }
    found
}

/// The schema of a property, or that of additional ones.
fn property(tables: &RawTables, words: &[u32; 16], key: &[u8]) -> u32 {
    let [first, count] = [words[schema::PROPERTIES], words[schema::PROPERTIES + 1]];
    tables
        .pairs(first, count)
        .find(|(text, _)| tables.text(*text) == key)
        .map_or(words[schema::ADDITIONAL], |(_, part)| part)
}

/// The schema that a name means: its last registry entry.
pub fn resolve(tables: &RawTables, name: u32) -> Option<u32> {
    let entries = tables.registry.chunks_exact(2);
    entries
        .rev()
        .find(|entry| tables.text(entry[0]) == tables.text(name))
        .map(|entry| entry[1])
}

#[cfg(test)]
mod tests {
    use super::*;
    use quarto_yaml_tables::{ObjectRules, StringRules};

    #[test]
    fn only_what_may_meet_is_answered_and_once() {
        let mut tables = Tables::new();
        let [code, name, pattern] = ["code", "name", "^[a-z]+$"].map(|t| tables.text(t).unwrap());
        let rules = StringRules {
            pattern: Some(pattern),
            ..StringRules::default()
        };
        let string = tables.string_schema(None, &rules).unwrap();
        let both = tables.any_of(None, &[string, string]).unwrap();
        let rules = ObjectRules {
            properties: vec![(code, both)],
            ..ObjectRules::default()
        };
        let schema = tables.object_schema(None, &rules).unwrap();
        let mut entries = Vec::new();
        for (key, text) in [(code, "abc"), (name, "x1")] {
            let key = tables.string(key).unwrap();
            let text = tables.text(text).unwrap();
            entries.push((key, tables.string(text).unwrap()));
        }
        let object = tables.object(&entries).unwrap();
        let mut patterns = Patterns::default();
        patterns
            .fill(&mut tables, object.get(), schema.get())
            .unwrap();
        assert_eq!(tables.raw().patterns, [pattern.get(), 3, 1]);
    }

    #[test]
    fn a_reference_to_itself_ends() {
        let mut tables = Tables::new();
        let name = tables.text("a").unwrap();
        let node = tables.string(name).unwrap();
        let schema = tables.reference(None, name, false).unwrap();
        tables.register(name, schema).unwrap();
        assert!(meetings(tables.raw(), node.get(), schema.get()).is_empty());
    }

    #[test]
    fn an_invalid_pattern_is_invalid() {
        let mut patterns = Patterns::default();
        assert_eq!(patterns.answer("(", "x"), PatternAnswer::Invalid);
        assert_eq!(patterns.answer("^x", "x"), PatternAnswer::Match);
        assert_eq!(patterns.answer("^y", "x"), PatternAnswer::NoMatch);
    }
}
