//! Schemas: table 4.

use crate::layout::{NONE, SCHEMAS, schema};
use crate::tables::optional;
use crate::{Node, Note, Schema, TableError, Tables, Text};

/// What a number schema asks.
#[derive(Clone, Copy, Debug, Default, PartialEq)]
pub struct NumberRules {
    /// Values below are refused.
    pub minimum: Option<f64>,
    /// Values above are refused.
    pub maximum: Option<f64>,
    /// Values at or below are refused.
    pub exclusive_minimum: Option<f64>,
    /// Values at or above are refused.
    pub exclusive_maximum: Option<f64>,
    /// Values that are no multiple are refused.
    pub multiple_of: Option<f64>,
}

/// What a string schema asks.
#[derive(Clone, Copy, Debug, Default, PartialEq, Eq)]
pub struct StringRules {
    /// The least length.
    pub minimum: Option<u32>,
    /// The greatest length.
    pub maximum: Option<u32>,
    /// The pattern to match.
    pub pattern: Option<Text>,
}

/// What an array schema asks.
#[derive(Clone, Copy, Debug, Default, PartialEq, Eq)]
pub struct ArrayRules {
    /// The schema of each item.
    pub items: Option<Schema>,
    /// The least count of items.
    pub minimum: Option<u32>,
    /// The greatest count of items.
    pub maximum: Option<u32>,
    /// Whether no two items may be equal.
    pub unique: Option<bool>,
}

/// What an object schema asks.
#[derive(Clone, Debug, Default, PartialEq, Eq)]
pub struct ObjectRules {
    /// The schemas of named properties; names differ in bytes.
    pub properties: Vec<(Text, Schema)>,
    /// The schemas of properties by pattern; patterns differ in bytes.
    pub pattern_properties: Vec<(Text, Schema)>,
    /// The schema of any other property.
    pub additional: Option<Schema>,
    /// Properties that must be there.
    pub required: Vec<Text>,
    /// The least count of entries.
    pub minimum: Option<u32>,
    /// The greatest count of entries.
    pub maximum: Option<u32>,
    /// Whether other properties are refused.
    pub closed: bool,
    /// The schema of the names.
    pub names: Option<Schema>,
    /// The naming convention: the host's own word.
    pub naming: Option<u32>,
    /// The schemas to be merged into this one.
    pub bases: Option<Vec<Schema>>,
}

impl Tables {
    /// Adds the schema that accepts everything and has no note.
    pub fn true_schema(&mut self) -> Result<Schema, TableError> {
        self.schema(schema::TRUE, None, &[])
    }

    /// Adds a schema for booleans.
    pub fn boolean_schema(&mut self, note: Option<Note>) -> Result<Schema, TableError> {
        self.schema(schema::BOOLEAN, note, &[])
    }

    /// Adds a schema for numbers.
    pub fn number_schema(
        &mut self,
        note: Option<Note>,
        rules: &NumberRules,
    ) -> Result<Schema, TableError> {
        let bounds = [
            rules.minimum,
            rules.maximum,
            rules.exclusive_minimum,
            rules.exclusive_maximum,
            rules.multiple_of,
        ];
        let numbers = self.raw.numbers.len();
        let result = bounds
            .into_iter()
            .map(|bound| bound.map_or(Ok(NONE), |bound| self.number(bound.to_bits())))
            .collect::<Result<Vec<u32>, _>>()
            .and_then(|words| self.schema(schema::NUMBER, note, &words));
        if result.is_err() {
            self.raw.numbers.truncate(numbers);
        }
        result
    }

    /// Adds a schema for strings.
    pub fn string_schema(
        &mut self,
        note: Option<Note>,
        rules: &StringRules,
    ) -> Result<Schema, TableError> {
        let pattern = rules
            .pattern
            .map_or(Ok(NONE), |pattern| self.known_text(pattern))?;
        let words = [optional(rules.minimum)?, optional(rules.maximum)?, pattern];
        self.schema(schema::STRING, note, &words)
    }

    /// Adds a schema for the null value.
    pub fn null_schema(&mut self, note: Option<Note>) -> Result<Schema, TableError> {
        self.schema(schema::NULL, note, &[])
    }

    /// Adds a schema for the listed values.
    pub fn enum_schema(
        &mut self,
        note: Option<Note>,
        values: &[Node],
    ) -> Result<Schema, TableError> {
        let links = self.known_nodes(values.iter().copied())?;
        self.schema_with_list(schema::ENUM, note, &links)
    }

    /// Adds a schema that accepts everything.
    pub fn any_schema(&mut self, note: Option<Note>) -> Result<Schema, TableError> {
        self.schema(schema::ANY, note, &[])
    }

    /// Adds a schema that accepts what one of its parts accepts.
    pub fn any_of(&mut self, note: Option<Note>, parts: &[Schema]) -> Result<Schema, TableError> {
        let links = self.known_schemas(parts)?;
        self.schema_with_list(schema::ANY_OF, note, &links)
    }

    /// Adds a schema that accepts what all of its parts accept.
    pub fn all_of(&mut self, note: Option<Note>, parts: &[Schema]) -> Result<Schema, TableError> {
        let links = self.known_schemas(parts)?;
        self.schema_with_list(schema::ALL_OF, note, &links)
    }

    /// Adds a schema for arrays.
    pub fn array_schema(
        &mut self,
        note: Option<Note>,
        rules: &ArrayRules,
    ) -> Result<Schema, TableError> {
        let words = [
            self.optional_schema(rules.items)?,
            optional(rules.minimum)?,
            optional(rules.maximum)?,
            rules.unique.map_or(NONE, u32::from),
        ];
        self.schema(schema::ARRAY, note, &words)
    }

    /// Adds a schema for objects.
    pub fn object_schema(
        &mut self,
        note: Option<Note>,
        rules: &ObjectRules,
    ) -> Result<Schema, TableError> {
        let note = self.known_note(note)?;
        let properties = self.keyed(&rules.properties)?;
        let patterns = self.keyed(&rules.pattern_properties)?;
        let required = rules
            .required
            .iter()
            .map(|&text| self.known_text(text))
            .collect::<Result<Vec<u32>, _>>()?;
        let additional = self.optional_schema(rules.additional)?;
        let names = self.optional_schema(rules.names)?;
        let bases = rules
            .bases
            .as_ref()
            .map(|bases| self.known_schemas(bases))
            .transpose()?;
        let [minimum, maximum] = [optional(rules.minimum)?, optional(rules.maximum)?];
        let naming = optional(rules.naming)?;
        self.append_with_lists(SCHEMAS, |tables| {
            let mut words = vec![schema::OBJECT, note];
            words.extend(tables.list(&properties, rules.properties.len())?);
            words.extend(tables.list(&patterns, rules.pattern_properties.len())?);
            words.push(additional);
            words.extend(tables.list(&required, required.len())?);
            words.extend([minimum, maximum, rules.closed.into(), names, naming]);
            words.extend(match &bases {
                Some(bases) => tables.list(bases, bases.len())?,
                None => [NONE, 0],
            });
            Ok(words)
        })
        .map(Schema)
    }

    /// Adds a reference to a registered schema; an eager one is resolved by compiling.
    pub fn reference(
        &mut self,
        note: Option<Note>,
        name: Text,
        eager: bool,
    ) -> Result<Schema, TableError> {
        let name = self.known_text(name)?;
        self.schema(schema::REF, note, &[name, eager.into()])
    }

    fn schema(
        &mut self,
        kind: u32,
        note: Option<Note>,
        words: &[u32],
    ) -> Result<Schema, TableError> {
        let record = record(kind, self.known_note(note)?, words);
        self.append(SCHEMAS, &record).map(Schema)
    }

    fn schema_with_list(
        &mut self,
        kind: u32,
        note: Option<Note>,
        links: &[u32],
    ) -> Result<Schema, TableError> {
        let note = self.known_note(note)?;
        self.append_with_lists(SCHEMAS, |tables| {
            let list = tables.list(links, links.len())?;
            Ok(record(kind, note, &list).to_vec())
        })
        .map(Schema)
    }

    fn known_schemas(&self, schemas: &[Schema]) -> Result<Vec<u32>, TableError> {
        schemas
            .iter()
            .map(|&schema| self.known_schema(schema))
            .collect()
    }

    fn optional_schema(&self, schema: Option<Schema>) -> Result<u32, TableError> {
        schema.map_or(Ok(NONE), |schema| self.known_schema(schema))
    }
}

/// A record with zeros in the words that its kind does not use.
fn record(kind: u32, note: u32, words: &[u32]) -> [u32; 16] {
    let mut record = [0; 16];
    record[0] = kind;
    record[1] = note;
    record[2..2 + words.len()].copy_from_slice(words);
    record
}
