//! Schema records as the original's schemas.

use crate::annotations::{annotations, naming};
use crate::values::value;
use quarto_yaml_tables::RawTables;
use quarto_yaml_tables::layout::{NONE, schema as kind};
use quarto_yaml_validation::schema::{
    AllOfSchema, AnyOfSchema, AnySchema, ArraySchema, BooleanSchema, EnumSchema, NullSchema,
    NumberSchema, ObjectSchema, RefSchema, Schema, SchemaRegistry, StringSchema,
};
use quarto_yaml_validation::validator::json_of;
use std::collections::HashMap;

/// The registry with every entry registered in order.
pub fn registry(tables: &RawTables) -> SchemaRegistry {
    let mut registry = SchemaRegistry::new();
    for entry in tables.registry.chunks_exact(2) {
        registry.register(tables.string(entry[0]), schema(tables, entry[1]));
    }
    registry
}

/// A schema record and all below it.
pub fn schema(tables: &RawTables, number: u32) -> Schema {
    let words = tables.schema(number);
    let annotations = annotations(tables, words[1]);
    let number = |word: usize| match words[word] {
        NONE => None,
        place => Some(f64::from_bits(tables.numbers[place as usize])),
    };
    let count = |word: usize| (words[word] != NONE).then_some(words[word] as usize);
    let parts = || schemas(tables, words[2], words[3]);
    match words[0] {
        kind::BOOLEAN => Schema::Boolean(BooleanSchema { annotations }),
        kind::NUMBER => Schema::Number(NumberSchema {
            annotations,
            minimum: number(2),
            maximum: number(3),
            exclusive_minimum: number(4),
            exclusive_maximum: number(5),
            multiple_of: number(6),
        }),
        kind::STRING => Schema::String(StringSchema {
            annotations,
            min_length: count(2),
            max_length: count(3),
            pattern: (words[4] != NONE).then(|| tables.string(words[4])),
        }),
        kind::NULL => Schema::Null(NullSchema { annotations }),
        kind::ENUM => Schema::Enum(EnumSchema {
            annotations,
            values: tables
                .list(words[2], words[3])
                .iter()
                .map(|&listed| json_of(&value(tables, listed).yaml))
                .collect(),
        }),
        kind::ANY => Schema::Any(AnySchema { annotations }),
        kind::ANY_OF => Schema::AnyOf(AnyOfSchema {
            annotations,
            schemas: parts(),
        }),
        kind::ALL_OF => Schema::AllOf(AllOfSchema {
            annotations,
            schemas: parts(),
        }),
        kind::ARRAY => Schema::Array(ArraySchema {
            annotations,
            items: optional(tables, words[2]),
            min_items: count(3),
            max_items: count(4),
            unique_items: (words[5] != NONE).then_some(words[5] == 1),
        }),
        kind::OBJECT => Schema::Object(ObjectSchema {
            annotations,
            properties: keyed(tables, &words, kind::PROPERTIES),
            pattern_properties: keyed(tables, &words, kind::PATTERN_PROPERTIES),
            additional_properties: optional(tables, words[kind::ADDITIONAL]),
            required: tables
                .list(words[kind::REQUIRED], words[kind::REQUIRED + 1])
                .iter()
                .map(|&required| tables.string(required))
                .collect(),
            min_properties: count(kind::MINIMUM),
            max_properties: count(kind::MAXIMUM),
            closed: words[kind::CLOSED] == 1,
            property_names: optional(tables, words[kind::NAMES]),
            naming_convention: naming(words[kind::NAMING]),
            base_schema: (words[kind::BASES] != NONE)
                .then(|| schemas(tables, words[kind::BASES], words[kind::BASES + 1])),
        }),
        kind::REF => Schema::Ref(RefSchema {
            annotations,
            reference: tables.string(words[2]),
            eager: words[3] == 1,
        }),
        _ => Schema::True,
    }
}

fn schemas(tables: &RawTables, first: u32, count: u32) -> Vec<Schema> {
    let parts = tables.list(first, count);
    parts.iter().map(|&part| schema(tables, part)).collect()
}

fn optional(tables: &RawTables, number: u32) -> Option<Box<Schema>> {
    (number != NONE).then(|| Box::new(schema(tables, number)))
}

fn keyed(tables: &RawTables, words: &[u32; 16], place: usize) -> HashMap<String, Schema> {
    tables
        .pairs(words[place], words[place + 1])
        .map(|(key, part)| (tables.string(key), schema(tables, part)))
        .collect()
}
