//! A schema in words, its maps in the order of their keys and reals by their bits.

use quarto_yaml_validation::schema::{Schema, SchemaAnnotations};
use std::collections::{BTreeMap, HashMap};
use std::fmt::Write;

/// Equal words mean equal schemas, whatever the order of their maps.
pub fn tree(schema: &Schema) -> String {
    let mut out = String::new();
    write_schema(&mut out, schema);
    out
}

fn write_schema(out: &mut String, schema: &Schema) {
    out.push('(');
    out.push_str(schema.type_name());
    write_note(out, schema.annotations());
    match schema {
        Schema::Number(s) => {
            let bounds = [
                s.minimum,
                s.maximum,
                s.exclusive_minimum,
                s.exclusive_maximum,
                s.multiple_of,
            ];
            write_debug(out, &bounds.map(|bound| bound.map(f64::to_bits)));
        }
        Schema::String(s) => write_debug(out, &(s.min_length, s.max_length, &s.pattern)),
        Schema::Enum(s) => write_debug(out, &s.values),
        Schema::AnyOf(s) => write_list(out, &s.schemas),
        Schema::AllOf(s) => write_list(out, &s.schemas),
        Schema::Array(s) => {
            write_optional(out, s.items.as_deref());
            write_debug(out, &(s.min_items, s.max_items, s.unique_items));
        }
        Schema::Object(s) => {
            write_keyed(out, &s.properties);
            write_keyed(out, &s.pattern_properties);
            write_optional(out, s.additional_properties.as_deref());
            write_debug(out, &(&s.required, s.min_properties, s.max_properties));
            write_debug(out, &(s.closed, &s.naming_convention));
            write_optional(out, s.property_names.as_deref());
            match &s.base_schema {
                Some(bases) => write_list(out, bases),
                None => out.push_str(" no bases"),
            }
        }
        Schema::Ref(s) => write_debug(out, &(&s.reference, s.eager)),
        Schema::True | Schema::Boolean(_) | Schema::Null(_) | Schema::Any(_) => {}
    }
    out.push(')');
}

fn write_debug(out: &mut String, value: &impl std::fmt::Debug) {
    write!(out, " {value:?}").expect("a string takes all");
}

fn write_note(out: &mut String, note: &SchemaAnnotations) {
    if *note == SchemaAnnotations::default() {
        return;
    }
    let tags: Option<BTreeMap<_, _>> = note.tags.as_ref().map(|tags| tags.iter().collect());
    write_debug(
        out,
        &[
            &note.id,
            &note.description,
            &note.documentation,
            &note.error_message,
        ],
    );
    write_debug(
        out,
        &(
            note.hidden,
            &note.completions,
            &note.additional_completions,
            tags,
        ),
    );
}

fn write_list(out: &mut String, schemas: &[Schema]) {
    out.push_str(" [");
    for schema in schemas {
        write_schema(out, schema);
    }
    out.push(']');
}

fn write_optional(out: &mut String, schema: Option<&Schema>) {
    match schema {
        Some(schema) => {
            out.push(' ');
            write_schema(out, schema);
        }
        None => out.push_str(" none"),
    }
}

fn write_keyed(out: &mut String, schemas: &HashMap<String, Schema>) {
    let ordered: BTreeMap<_, _> = schemas.iter().collect();
    out.push_str(" {");
    for (key, schema) in ordered {
        write!(out, "{key:?}: ").expect("a string takes all");
        write_schema(out, schema);
    }
    out.push('}');
}
