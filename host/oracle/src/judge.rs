//! The original's calls, and both sides' answers in one form.

use crate::INDEX_PANIC;
use crate::annotations::word;
use crate::compiled::tree;
use crate::names;
use crate::said::{Compiled, Detail, Said, Validated};
use crate::schemas::{registry, schema};
use crate::values::value;
use quarto_source_map::SourceContext;
use quarto_yaml::YamlWithSourceInfo;
use quarto_yaml_tables::layout::NONE;
use quarto_yaml_tables::{Answer, Detail as Given, RawTables};
use quarto_yaml_validation::error::{SchemaResult, ValidationResult};
use quarto_yaml_validation::validator::{self, advertised_types, json_of};
use quarto_yaml_validation::{
    InstancePath, Schema, SchemaError, SchemaRegistry, ValidationError, ValidationErrorKind,
};
use std::hint::black_box;
use std::panic::{AssertUnwindSafe, catch_unwind, resume_unwind};

/// The node that a path leads to.
pub fn navigate(tables: &RawTables, node: u32, path: &[u32], key_wanted: bool) -> Option<u32> {
    let mut steps = InstancePath::new();
    for step in path.chunks_exact(2) {
        match step[0] {
            0 => steps.push_key(tables.string(step[1])),
            _ => steps.push_index(step[1] as usize),
        }
    }
    let start = value(tables, node);
    validator::navigate(&steps, &start, key_wanted, 0)
        .map(|found| found.source_info.start_offset() as u32)
}

/// Whether two nodes are equal as enum compares, and as unique does.
pub fn equal(tables: &RawTables, left: u32, right: u32) -> [bool; 2] {
    let [left, right] = [left, right].map(|node| json_of(&value(tables, node).yaml));
    [left == right, format!("{left:?}") == format!("{right:?}")]
}

/// A validation whose value, schema and registry stand ready.
pub struct Prepared {
    value: YamlWithSourceInfo,
    schema: Schema,
    registry: SchemaRegistry,
}

impl Prepared {
    /// The original's values of a node and a schema.
    pub fn new(tables: &RawTables, node: u32, number: u32) -> Self {
        Self {
            value: value(tables, node),
            schema: schema(tables, number),
            registry: registry(tables),
        }
    }

    /// The answer's number, 0 where the value is accepted.
    pub fn number(&self) -> u32 {
        let result = original_validate(self);
        original_done();
        result.map_or_else(|error| kind_said(error.kind).0, |()| 0)
    }
}

/// The original's call alone, under a name by which its instructions can be counted.
#[unsafe(no_mangle)]
#[inline(never)]
fn original_validate(ready: &Prepared) -> ValidationResult<()> {
    validator::validate(&ready.value, &ready.schema, &ready.registry, &SourceContext)
}

/// Where the count ends.
#[unsafe(no_mangle)]
#[inline(never)]
fn original_done() {
    black_box(());
}

/// What the original says of a node under a schema.
pub fn validate(tables: &RawTables, node: u32, number: u32) -> Validated {
    validate_schema(tables, node, &schema(tables, number), &registry(tables))
}

/// The message and the code of the original's refusal, where it refuses.
pub fn message(tables: &RawTables, node: u32, number: u32) -> Option<(String, String)> {
    let (start, schema) = (value(tables, node), schema(tables, number));
    let result = validator::validate(&start, &schema, &registry(tables), &SourceContext);
    let error = result.err()?;
    Some((error.message(), error.error_code().to_string()))
}

fn validate_schema(
    tables: &RawTables,
    node: u32,
    schema: &Schema,
    registry: &SchemaRegistry,
) -> Validated {
    let start = value(tables, node);
    let call = || validator::validate(&start, schema, registry, &SourceContext);
    match catch_unwind(AssertUnwindSafe(call)) {
        Ok(result) => outcome(result),
        Err(panic) => {
            let message = panic.downcast_ref::<String>();
            if message.is_some_and(|message| message.starts_with(INDEX_PANIC)) {
                return Validated::NoErrorLeft;
            }
            resume_unwind(panic)
        }
    }
}

/// What the original compiles a schema to.
pub fn compile(tables: &RawTables, number: u32) -> Compiled {
    match compiled(tables, number, &registry(tables)) {
        Ok(schema) => Compiled::Tree(tree(&schema)),
        Err(number) => Compiled::Refused(number),
    }
}

/// What the original says of a node under a schema that it has compiled.
pub fn compile_then_validate(tables: &RawTables, node: u32, number: u32) -> Result<Validated, u32> {
    let registry = registry(tables);
    let schema = compiled(tables, number, &registry)?;
    Ok(validate_schema(tables, node, &schema, &registry))
}

fn compiled(tables: &RawTables, number: u32, registry: &SchemaRegistry) -> Result<Schema, u32> {
    refusal_number(schema(tables, number).compile(registry))
}

/// The number of a compile's refusal, known by its message.
fn refusal_number(result: SchemaResult<Schema>) -> Result<Schema, u32> {
    result.map_err(|error| match &error {
        SchemaError::InvalidStructure { message, .. } => match message {
            message if message.starts_with("base schema cannot be empty") => 30,
            message if message.starts_with("Base schema must be an object") => 31,
            message if message.starts_with("Cannot resolve") => 32,
            message => panic!("an unknown refusal: {message}"),
        },
        error => panic!("an unknown refusal: {error}"),
    })
}

fn outcome(result: ValidationResult<()>) -> Validated {
    let Err(error) = result else {
        return Validated::Accepted;
    };
    let ValidationError {
        kind,
        instance_path,
        schema_path,
        yaml_node,
        custom_hint,
        ..
    } = error;
    let (number, detail) = kind_said(kind);
    Validated::Refused(Said {
        number,
        node: yaml_node.map(|node| node.source_info.start_offset() as u32),
        hint: custom_hint.map(|hint| word(&hint).expect("a hint made here")),
        detail,
        instance: instance_path
            .segments()
            .iter()
            .map(ToString::to_string)
            .collect(),
        steps: schema_path.segments().to_vec(),
    })
}

fn kind_said(kind: ValidationErrorKind) -> (u32, Detail) {
    use ValidationErrorKind as Kind;
    match kind {
        Kind::TypeMismatch { expected, got } => (1, Detail::Type(expected, got)),
        Kind::MissingRequiredProperty {
            property,
            allowed,
            expected_type,
        } => (2, Detail::Missing(property, allowed, expected_type)),
        Kind::UnknownProperty { property } => (3, Detail::Text(property)),
        Kind::InvalidEnumValue { .. } => (4, Detail::Empty),
        Kind::NumberOutOfRange {
            value,
            minimum,
            maximum,
            exclusive_minimum,
            exclusive_maximum,
        } => {
            let bounds = [minimum, maximum, exclusive_minimum, exclusive_maximum];
            let bits = bounds.map(|bound| bound.map(f64::to_bits));
            (5, Detail::Range(value.to_bits(), bits))
        }
        Kind::NumberNotMultipleOf { value, multiple_of } => {
            (6, Detail::Multiple(value.to_bits(), multiple_of.to_bits()))
        }
        Kind::StringLengthInvalid {
            length,
            min_length,
            max_length,
        } => (7, Detail::Count(length, min_length, max_length)),
        Kind::StringPatternMismatch { value, pattern } => (8, Detail::Pattern(value, pattern)),
        Kind::ArrayLengthInvalid {
            length,
            min_items,
            max_items,
        } => (9, Detail::Count(length, min_items, max_items)),
        Kind::ArrayItemsNotUnique => (10, Detail::Empty),
        Kind::ObjectPropertyCountInvalid {
            count,
            min_properties,
            max_properties,
        } => (11, Detail::Count(count, min_properties, max_properties)),
        Kind::UnresolvedReference { ref_id } => (12, Detail::Text(ref_id)),
        Kind::DuplicateKey { key } => (13, Detail::Text(key)),
        Kind::Other { .. } => (14, Detail::Empty),
    }
}

/// An answer in the original's words.
pub fn said(tables: &RawTables, answer: &Answer, instance: &[u32], steps: &[u32]) -> Validated {
    match answer.number {
        0 => return Validated::Accepted,
        1..=14 => {}
        25 => return Validated::NoErrorLeft,
        number => return Validated::Other(number),
    }
    let path = instance
        .chunks_exact(2)
        .take(answer.instance_steps as usize);
    let steps = steps.iter().take(answer.schema_steps as usize);
    let present = |word: u32| (word != NONE).then_some(word);
    Validated::Refused(Said {
        number: answer.number,
        node: present(answer.node),
        hint: present(answer.hint),
        detail: detail_said(tables, answer),
        instance: path.map(|step| printed(tables, step)).collect(),
        steps: steps.map(|&kind| names::at(&names::SCHEMA, kind)).collect(),
    })
}

fn printed(tables: &RawTables, step: &[u32]) -> String {
    match step[0] {
        0 => tables.string(step[1]),
        1 => format!("[{}]", step[1]),
        tag => format!("?{tag}"),
    }
}

fn detail_said(tables: &RawTables, answer: &Answer) -> Detail {
    let range = |place: usize, value: f64, bound: f64| {
        let mut bounds = [None; 4];
        bounds[place] = Some(bound.to_bits());
        Detail::Range(value.to_bits(), bounds)
    };
    match answer.detail() {
        Some(Given::Empty) => Detail::Empty,
        Some(Given::Type(expected, found)) => Detail::Type(
            names::at(&names::SCHEMA, expected),
            names::at(&names::NODE, found),
        ),
        Some(Given::Property(property, schema)) => missing(tables, property, schema),
        Some(Given::Key(key)) => Detail::Text(tables.string(key)),
        Some(Given::Count(count, limit)) => broken(count as usize, limit as usize),
        Some(Given::Multiple(value, multiple)) => {
            Detail::Multiple(value.to_bits(), multiple.to_bits())
        }
        Some(Given::Pattern(subject, pattern)) => {
            Detail::Pattern(tables.string(subject), tables.string(pattern))
        }
        Some(Given::Reference(name)) => Detail::Text(tables.string(name)),
        Some(Given::BelowMinimum(value, bound)) => range(0, value, bound),
        Some(Given::AboveMaximum(value, bound)) => range(1, value, bound),
        Some(Given::AtOrBelowExclusiveMinimum(value, bound)) => range(2, value, bound),
        Some(Given::AtOrAboveExclusiveMaximum(value, bound)) => range(3, value, bound),
        None => Detail::Text(format!("detail {}", answer.detail)),
    }
}

/// A count and the one limit that it breaks.
fn broken(count: usize, limit: usize) -> Detail {
    if count < limit {
        Detail::Count(count, Some(limit), None)
    } else {
        Detail::Count(count, None, Some(limit))
    }
}

/// What a missing property advertises, by its schema's record.
fn missing(tables: &RawTables, property: u32, number: u32) -> Detail {
    let property = tables.string(property);
    if number == NONE {
        return Detail::Missing(property, None, None);
    }
    match schema(tables, number) {
        Schema::Enum(listed) if !listed.values.is_empty() => {
            let values = listed.values.iter().map(ToString::to_string).collect();
            Detail::Missing(property, Some(values), None)
        }
        other => Detail::Missing(property, None, advertised_types(&other)),
    }
}
