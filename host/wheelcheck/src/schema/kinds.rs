//! What each kind's words say.

use super::Schemas;
use super::fields::{Fields, list, structure};
use super::notes::{ANNOTATIONS, Annotations};
use crate::source::Trouble;
use crate::yaml::{Kind, Value};
use quarto_yaml_tables::{
    ArrayRules, NumberRules, ObjectRules, Schema, StringRules, TableError, Text,
};

const NUMBER: &[&str] = &[
    "minimum",
    "maximum",
    "exclusiveMinimum",
    "exclusiveMaximum",
    "multipleOf",
];
const STRING: &[&str] = &["minLength", "maxLength", "pattern"];
const ARRAY: &[&str] = &["items", "minItems", "maxItems", "uniqueItems"];
const OBJECT: &[&str] = &[
    "properties",
    "patternProperties",
    "additionalProperties",
    "propertyNames",
    "namingConvention",
    "required",
    "closed",
    "minProperties",
    "maxProperties",
    "super",
];

impl Schemas {
    /// A schema of this kind; `at` is the kind's word, `held` what it says.
    pub(super) fn kind(
        &mut self,
        at: &Value,
        kind: &str,
        held: &Value,
        outer: Annotations,
    ) -> Result<Schema, Trouble> {
        match kind {
            "boolean" => self.plain(at, held, outer, "a boolean schema", |schemas, note| {
                schemas.tables.boolean_schema(note)
            }),
            "null" => self.plain(at, held, outer, "a null schema", |schemas, note| {
                schemas.tables.null_schema(note)
            }),
            "any" => self.plain(at, held, outer, "an any schema", |schemas, note| {
                schemas.tables.any_schema(note)
            }),
            "number" => self.number(at, held, outer),
            "string" => self.string(at, held, outer),
            "enum" => {
                let (items, annotations) = listed(held, outer, "an enum schema", "values")?;
                self.values(at, list(items, "values")?, &annotations)
            }
            "anyOf" | "allOf" => {
                let owner = format!("an {kind} schema");
                let (items, annotations) = listed(held, outer, &owner, "schemas")?;
                let parts = self.schemas(items, kind)?;
                let note = self.note(&annotations)?;
                let schema = match kind {
                    "anyOf" => self.tables.any_of(note, &parts),
                    _ => self.tables.all_of(note, &parts),
                };
                self.named(at, schema, &annotations)
            }
            "array" => self.array(at, held, outer),
            "arrayOf" => {
                let rules = ArrayRules {
                    items: Some(self.schema(held)?),
                    ..ArrayRules::default()
                };
                let note = self.note(&outer)?;
                let schema = self.tables.array_schema(note, &rules);
                self.named(at, schema, &outer)
            }
            "object" => self.object(at, held, outer),
            _ => self.reference(at, held, outer, kind == "resolveRef"),
        }
    }

    /// A kind that has only annotations.
    fn plain(
        &mut self,
        at: &Value,
        held: &Value,
        outer: Annotations,
        owner: &str,
        add: fn(&mut Self, Option<quarto_yaml_tables::Note>) -> Result<Schema, TableError>,
    ) -> Result<Schema, Trouble> {
        let fields = Fields::of(owner, held, &[ANNOTATIONS])?;
        let annotations = Annotations::of(&fields)?.under(outer);
        let note = self.note(&annotations)?;
        let schema = add(self, note);
        self.named(at, schema, &annotations)
    }

    fn number(&mut self, at: &Value, held: &Value, outer: Annotations) -> Result<Schema, Trouble> {
        let fields = Fields::of("a number schema", held, &[NUMBER, ANNOTATIONS])?;
        let annotations = Annotations::of(&fields)?.under(outer);
        let rules = NumberRules {
            minimum: fields.number("minimum")?,
            maximum: fields.number("maximum")?,
            exclusive_minimum: fields.number("exclusiveMinimum")?,
            exclusive_maximum: fields.number("exclusiveMaximum")?,
            multiple_of: fields.number("multipleOf")?,
        };
        let note = self.note(&annotations)?;
        let schema = self.tables.number_schema(note, &rules);
        self.named(at, schema, &annotations)
    }

    fn string(&mut self, at: &Value, held: &Value, outer: Annotations) -> Result<Schema, Trouble> {
        let fields = Fields::of("a string schema", held, &[STRING, ANNOTATIONS])?;
        let annotations = Annotations::of(&fields)?.under(outer);
        let pattern = match (fields.string("pattern")?, fields.get("pattern")) {
            (Some(pattern), Some(value)) => Some(self.pattern(value, pattern)?),
            _ => None,
        };
        let rules = StringRules {
            minimum: fields.count("minLength")?,
            maximum: fields.count("maxLength")?,
            pattern,
        };
        let note = self.note(&annotations)?;
        let schema = self.tables.string_schema(note, &rules);
        self.named(at, schema, &annotations)
    }

    fn array(&mut self, at: &Value, held: &Value, outer: Annotations) -> Result<Schema, Trouble> {
        let fields = Fields::of("an array schema", held, &[ARRAY, ANNOTATIONS])?;
        let annotations = Annotations::of(&fields)?.under(outer);
        let rules = ArrayRules {
            items: self.optional(&fields, "items")?,
            minimum: fields.count("minItems")?,
            maximum: fields.count("maxItems")?,
            unique: fields.boolean("uniqueItems")?,
        };
        let note = self.note(&annotations)?;
        let schema = self.tables.array_schema(note, &rules);
        self.named(at, schema, &annotations)
    }

    fn object(&mut self, at: &Value, held: &Value, outer: Annotations) -> Result<Schema, Trouble> {
        let fields = Fields::of("an object schema", held, &[OBJECT, ANNOTATIONS])?;
        let annotations = Annotations::of(&fields)?.under(outer);
        for word in ["patternProperties", "propertyNames", "namingConvention"] {
            if let Some((key, _)) = fields.entry(word) {
                let message = format!("'{word}' is carried and merged, never checked");
                self.warn(key, message);
            }
        }
        let required = fields.strings("required")?.unwrap_or_default();
        let rules = ObjectRules {
            properties: self.keyed(&fields, "properties")?,
            pattern_properties: self.keyed(&fields, "patternProperties")?,
            additional: self.optional(&fields, "additionalProperties")?,
            required: required
                .into_iter()
                .map(|text| self.text(text))
                .collect::<Result<_, _>>()?,
            minimum: fields.count("minProperties")?,
            maximum: fields.count("maxProperties")?,
            closed: fields.boolean("closed")?.unwrap_or(false),
            names: self.optional(&fields, "propertyNames")?,
            naming: self.naming(&fields)?,
            bases: self.bases(&fields)?,
        };
        let note = self.note(&annotations)?;
        let schema = self.tables.object_schema(note, &rules);
        self.named(at, schema, &annotations)
    }

    fn reference(
        &mut self,
        at: &Value,
        held: &Value,
        outer: Annotations,
        eager: bool,
    ) -> Result<Schema, Trouble> {
        let Some(name) = held.as_str() else {
            let got = held.type_name();
            return Err(structure(held, format!("a reference is a name, got {got}")));
        };
        let name = self.text(name)?;
        let note = self.note(&outer)?;
        let schema = self.tables.reference(note, name, eager);
        self.named(at, schema, &outer)
    }

    fn optional(&mut self, fields: &Fields, word: &str) -> Result<Option<Schema>, Trouble> {
        fields.get(word).map(|value| self.schema(value)).transpose()
    }

    /// Keys and schemas; keys differ.
    fn keyed(&mut self, fields: &Fields, word: &str) -> Result<Vec<(Text, Schema)>, Trouble> {
        let Some(value) = fields.get(word) else {
            return Ok(Vec::new());
        };
        let Kind::Object(entries) = &value.kind else {
            let got = value.type_name();
            return Err(structure(
                value,
                format!("'{word}' is an object, got {got}"),
            ));
        };
        let mut pairs = Vec::with_capacity(entries.len());
        let mut seen: Vec<&str> = Vec::with_capacity(entries.len());
        for (key, held) in entries {
            let name = key
                .as_str()
                .ok_or_else(|| structure(key, "a property's name is a string"))?;
            if seen.contains(&name) {
                return Err(structure(key, format!("'{name}' is there twice")));
            }
            seen.push(name);
            let text = self.text(name)?;
            pairs.push((text, self.schema(held)?));
        }
        Ok(pairs)
    }

    /// A naming convention or several, as an opaque word.
    fn naming(&mut self, fields: &Fields) -> Result<Option<u32>, Trouble> {
        let text = match fields.get("namingConvention") {
            None => return Ok(None),
            Some(Value {
                kind: Kind::String(text),
                ..
            }) => text.clone(),
            Some(_) => {
                let list = fields.strings("namingConvention")?;
                list.unwrap_or_default().join("\n")
            }
        };
        self.words.push(text);
        Ok(Some(self.words.len() as u32 - 1))
    }

    /// One base, or a list of them.
    fn bases(&mut self, fields: &Fields) -> Result<Option<Vec<Schema>>, Trouble> {
        match fields.get("super") {
            None => Ok(None),
            Some(value) if matches!(value.kind, Kind::Array(_)) => {
                self.schemas(value, "super").map(Some)
            }
            Some(value) => Ok(Some(vec![self.schema(value)?])),
        }
    }
}

/// A kind that is a list, or an object with that list among its words.
fn listed<'a>(
    held: &'a Value,
    outer: Annotations,
    owner: &str,
    word: &str,
) -> Result<(&'a Value, Annotations), Trouble> {
    if matches!(held.kind, Kind::Array(_)) {
        return Ok((held, outer));
    }
    let fields = Fields::of(owner, held, &[&[word], ANNOTATIONS])?;
    let annotations = Annotations::of(&fields)?.under(outer);
    match fields.get(word) {
        Some(items) => Ok((items, annotations)),
        None => Err(Trouble::at(
            held.place,
            format!("Missing required field '{word}'"),
        )),
    }
}
