//! Annotations: what any schema may say about itself.

use super::fields::{Fields, structure};
use crate::source::Trouble;
use crate::yaml::{Kind, Value};
use quarto_yaml_tables::{Note, NoteFields, TableError, Tables};

/// The words of annotations.
pub const ANNOTATIONS: &[&str] = &[
    "$id",
    "description",
    "documentation",
    "errorMessage",
    "hidden",
    "completions",
    "additionalCompletions",
    "tags",
];

/// A schema's annotations, as the original's `SchemaAnnotations` has them.
#[derive(Clone, Debug, Default, PartialEq)]
pub struct Annotations {
    /// The name that registers the schema.
    pub id: Option<String>,
    description: Option<String>,
    documentation: Option<String>,
    error_message: Option<String>,
    hidden: Option<bool>,
    completions: Option<Vec<String>>,
    additional_completions: Option<Vec<String>>,
    tags: Option<Vec<(String, Value)>>,
}

impl Annotations {
    /// Those among these words.
    pub fn of(fields: &Fields) -> Result<Self, Trouble> {
        let string = |word| Ok::<_, Trouble>(fields.string(word)?.map(str::to_string));
        let strings = |word| {
            let list = fields.strings(word)?;
            Ok::<_, Trouble>(list.map(|list| list.into_iter().map(str::to_string).collect()))
        };
        Ok(Self {
            id: string("$id")?,
            description: string("description")?,
            documentation: string("documentation")?,
            error_message: string("errorMessage")?,
            hidden: fields.boolean("hidden")?,
            completions: strings("completions")?,
            additional_completions: strings("additionalCompletions")?,
            tags: fields.get("tags").map(tags).transpose()?,
        })
    }

    /// These with outer ones over them, as the original's `merge_annotations` does it.
    pub fn under(self, outer: Self) -> Self {
        let mut joined = self.completions.unwrap_or_default();
        joined.extend(self.additional_completions.unwrap_or_default());
        joined.extend(outer.additional_completions.unwrap_or_default());
        Self {
            id: outer.id.or(self.id),
            description: outer.description.or(self.description),
            documentation: outer.documentation.or(self.documentation),
            error_message: outer.error_message.or(self.error_message),
            hidden: outer.hidden.or(self.hidden),
            completions: outer
                .completions
                .or_else(|| (!joined.is_empty()).then_some(joined)),
            additional_completions: None,
            tags: match (self.tags, outer.tags) {
                (inner, None) => inner,
                (None, outer) => outer,
                (Some(mut inner), Some(outer)) => {
                    inner.retain(|(key, _)| outer.iter().all(|(other, _)| other != key));
                    inner.extend(outer);
                    Some(inner)
                }
            },
        }
    }

    /// The note in the tables, none where nothing is said; what it says goes to `words`.
    pub fn note(
        &self,
        tables: &mut Tables,
        words: &mut Vec<String>,
    ) -> Result<Option<Note>, TableError> {
        if *self == Self::default() {
            return Ok(None);
        }
        let mut word = |text: &Option<String>| {
            text.as_ref().map(|text| {
                words.push(text.clone());
                words.len() as u32 - 1
            })
        };
        let list = |texts: &Option<Vec<String>>| texts.as_ref().map(|texts| texts.join("\n"));
        let case_detection = self
            .tags
            .iter()
            .flatten()
            .any(|(key, value)| key == "case-detection" && value.kind == Kind::Boolean(true));
        let tags = self.tags.as_ref().map(|tags| {
            let keys: Vec<&str> = tags.iter().map(|(key, _)| key.as_str()).collect();
            keys.join("\n")
        });
        let fields = NoteFields {
            id: word(&self.id),
            description: word(&self.description),
            documentation: word(&self.documentation),
            error_message: word(&self.error_message),
            hidden: self.hidden.map(u32::from),
            completions: word(&list(&self.completions)),
            additional_completions: word(&list(&self.additional_completions)),
            tags: word(&tags),
            case_detection,
        };
        tables.note(&fields).map(Some)
    }
}

fn tags(value: &Value) -> Result<Vec<(String, Value)>, Trouble> {
    let Kind::Object(entries) = &value.kind else {
        let got = value.type_name();
        return Err(structure(value, format!("'tags' is an object, got {got}")));
    };
    let mut tags: Vec<(String, Value)> = Vec::with_capacity(entries.len());
    for (key, held) in entries {
        let name = key
            .as_str()
            .ok_or_else(|| structure(key, "a tag's name is a string"))?;
        if tags.iter().any(|(other, _)| other == name) {
            return Err(structure(key, format!("'{name}' is there twice")));
        }
        tags.push((name.to_string(), held.clone()));
    }
    Ok(tags)
}
