//! Schemas from YAML: every form that docs/SCHEMAS.md lists, and no other.

mod fields;
mod kinds;
mod notes;

use crate::source::{Failure, Place, Source, Trouble};
use crate::values::{fill, too_large};
use crate::yaml::{self, Kind, Value};
use fields::{Fields, list, structure, suggestion, word};
use notes::{ANNOTATIONS, Annotations};
use quarto_yaml_tables::{Node, Schema, TableError, Tables, Text};
use regex::Regex;

/// Kinds that a schema's word may be, alone or before its own words.
const KINDS: &[&str] = &[
    "boolean",
    "number",
    "string",
    "null",
    "enum",
    "any",
    "anyOf",
    "allOf",
    "array",
    "arrayOf",
    "object",
    "ref",
    "$ref",
    "resolveRef",
];

/// A schema's name, from its `$id`.
#[derive(Clone, Copy, Debug, PartialEq, Eq)]
pub struct Name {
    /// The name's text.
    pub text: Text,
    /// The schema that it names.
    pub schema: Schema,
}

/// A place in one of the sources.
#[derive(Clone, Copy, Debug, PartialEq, Eq)]
pub struct Located {
    /// The source's number.
    pub source: usize,
    /// The place in it.
    pub place: Place,
}

/// The schemas that were read, in tables.
#[derive(Clone, Debug, Default)]
pub struct Schemas {
    /// The tables that hold them.
    pub tables: Tables,
    /// What the opaque words of notes stand for.
    pub words: Vec<String>,
    /// The files that they were read from.
    pub sources: Vec<Source>,
    /// The names, in the order of their registration.
    pub names: Vec<Name>,
    /// What is carried and never checked, and patterns that are none.
    pub warnings: Vec<Failure>,
    places: Vec<Located>,
}

impl Schemas {
    /// Reads all schemas of a file, one a document.
    pub fn read(&mut self, source: Source) -> Result<Vec<Schema>, Box<Failure>> {
        self.sources.push(source.clone());
        let documents = yaml::read_all(&source).map_err(|trouble| source.failure(trouble))?;
        if documents.is_empty() {
            let trouble = Trouble::of_file("Unexpected end of input: there is no schema in it");
            return Err(source.failure(trouble));
        }
        documents
            .iter()
            .map(|document| self.schema(document))
            .collect::<Result<_, _>>()
            .map_err(|trouble| source.failure(trouble))
    }

    /// Where a schema record was read, none for one that compiling made.
    pub fn place(&self, schema: u32) -> Option<Located> {
        self.places.get(schema as usize).copied()
    }

    fn schema(&mut self, value: &Value) -> Result<Schema, Trouble> {
        match &value.kind {
            Kind::String(kind) => self.short(value, kind),
            Kind::Null => self.short(value, "null"),
            Kind::Boolean(true) => {
                let schema = self.tables.true_schema();
                self.placed(value, schema)
            }
            Kind::Boolean(false) => {
                let trouble = structure(value, "there is no schema 'false'");
                Err(trouble.hint("an object that allows no other properties is 'closed: true'"))
            }
            Kind::Array(items) => self.values(value, items, &Annotations::default()),
            Kind::Object(entries) => self.object_form(value, entries),
            Kind::Integer(_) | Kind::Real(_) | Kind::Bad => {
                let got = value.type_name();
                Err(structure(
                    value,
                    format!("a schema is a word, a list of values or an object, got {got}"),
                ))
            }
        }
    }

    /// A kind's word alone.
    fn short(&mut self, value: &Value, kind: &str) -> Result<Schema, Trouble> {
        match kind {
            "boolean" | "number" | "string" | "null" | "any" | "array" | "object" => {
                let nothing = Value {
                    place: value.place,
                    kind: Kind::Null,
                };
                self.kind(value, kind, &nothing, Annotations::default())
            }
            _ if KINDS.contains(&kind) => {
                Err(structure(value, format!("'{kind}' does not stand alone")))
            }
            _ => Err(
                Trouble::at(value.place, format!("Invalid schema type: {kind}"))
                    .hint(suggestion(kind, &[KINDS])),
            ),
        }
    }

    /// One kind's word with what it says, and annotations beside it.
    fn object_form(
        &mut self,
        value: &Value,
        entries: &[(Value, Value)],
    ) -> Result<Schema, Trouble> {
        let mut kind: Option<(&Value, &str, &Value)> = None;
        for (key, held) in entries {
            let word = word(key)?;
            if ANNOTATIONS.contains(&word) {
                continue;
            }
            if !KINDS.contains(&word) {
                let message = format!("Invalid schema type: {word}");
                return Err(
                    Trouble::at(key.place, message).hint(suggestion(word, &[KINDS, ANNOTATIONS]))
                );
            }
            if let Some((_, first, _)) = kind {
                let message = format!("a schema is of one kind, not '{first}' and '{word}'");
                return Err(structure(key, message));
            }
            kind = Some((key, word, held));
        }
        let fields = Fields::of("a schema", value, &[KINDS, ANNOTATIONS])?;
        let outer = Annotations::of(&fields)?;
        let Some((key, word, held)) = kind else {
            let hint = format!("one of {}", KINDS.join(", "));
            return Err(structure(value, "the schema's kind is missing").hint(hint));
        };
        self.kind(key, word, held, outer)
    }

    /// A list of values, one of which the value must be.
    fn values(
        &mut self,
        at: &Value,
        items: &[Value],
        annotations: &Annotations,
    ) -> Result<Schema, Trouble> {
        let nodes = items
            .iter()
            .map(|item| fill(&mut self.tables, &mut Vec::new(), item))
            .collect::<Result<Vec<Node>, TableError>>()
            .map_err(too_large)?;
        let note = self.note(annotations)?;
        let schema = self.tables.enum_schema(note, &nodes);
        self.named(at, schema, annotations)
    }

    fn schemas(&mut self, value: &Value, word: &str) -> Result<Vec<Schema>, Trouble> {
        let items = list(value, word)?;
        items.iter().map(|item| self.schema(item)).collect()
    }

    fn note(
        &mut self,
        annotations: &Annotations,
    ) -> Result<Option<quarto_yaml_tables::Note>, Trouble> {
        annotations
            .note(&mut self.tables, &mut self.words)
            .map_err(too_large)
    }

    fn text(&mut self, text: &str) -> Result<Text, Trouble> {
        self.tables.text(text).map_err(too_large)
    }

    /// Keeps the place of a record that was just added.
    fn placed(
        &mut self,
        at: &Value,
        schema: Result<Schema, TableError>,
    ) -> Result<Schema, Trouble> {
        let schema = schema.map_err(too_large)?;
        self.places.push(Located {
            source: self.sources.len() - 1,
            place: at.place,
        });
        Ok(schema)
    }

    /// Keeps the place of a record that was just added, and registers its `$id`.
    fn named(
        &mut self,
        at: &Value,
        schema: Result<Schema, TableError>,
        annotations: &Annotations,
    ) -> Result<Schema, Trouble> {
        let schema = self.placed(at, schema)?;
        if let Some(id) = &annotations.id {
            let taken = self
                .names
                .iter()
                .any(|name| self.tables.bytes(name.text) == id.as_bytes());
            if taken {
                return Err(structure(at, format!("the $id '{id}' is there already")));
            }
            let text = self.text(id)?;
            self.tables.register(text, schema).map_err(too_large)?;
            self.names.push(Name { text, schema });
        }
        Ok(schema)
    }

    fn warn(&mut self, at: &Value, message: String) {
        let source = &self.sources[self.sources.len() - 1];
        let failure = source.failure(Trouble::at(at.place, message));
        self.warnings.push(*failure);
    }

    /// A pattern's text; warns where it is none, for then every string is refused.
    fn pattern(&mut self, at: &Value, pattern: &str) -> Result<Text, Trouble> {
        if let Err(error) = Regex::new(pattern) {
            self.warn(at, crate::message::invalid_pattern(pattern, &error));
        }
        self.text(pattern)
    }
}
