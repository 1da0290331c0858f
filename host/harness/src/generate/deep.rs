//! Deep nesting, about the limit of 64 levels.

use super::build::fits;
use super::{Stream, room, validate};
use crate::case::{Case, Request};
use crate::rng::Rng;
use quarto_yaml_tables::{ArrayRules, Node, ObjectRules, Schema, TableError, Tables, Text};

/// A value and a schema that nest about 64 deep.
pub fn case(kind: Stream, rng: &mut Rng) -> Option<Case> {
    let mut tables = Tables::new();
    let levels = rng.between(60, 67);
    let (node, schema, key) = chain(&mut tables, levels, rng).ok()?;
    let (node, schema) = (node.get(), schema.get());
    let raw = tables.into_raw();
    Some(match kind {
        Stream::Navigate => Case {
            request: Request::Navigate {
                node,
                path: path(&raw, node, key),
                key_wanted: rng.percent(50),
            },
            tables: raw,
        },
        Stream::Compile => {
            room::compile(raw, schema, rng, |used| Request::Compile { used, schema })
        }
        Stream::Both => room::compile(raw, schema, rng, |used| Request::CompileThenValidate {
            used,
            schema,
            node,
        }),
        _ => validate(raw, kind, [node, schema], rng),
    })
}

/// A reference to itself: validated, and compiled where it is eager.
pub fn endless(index: u64) -> Case {
    let mut tables = Tables::new();
    let eager = index % 2 == 1;
    let name = fits(tables.text("r0"));
    let schema = fits(tables.reference(None, name, eager));
    fits(tables.register(name, schema));
    let node = fits(tables.null()).get();
    let rng = &mut Rng::of_case(0, index);
    let schema = schema.get();
    if eager {
        return room::compile(tables.into_raw(), schema, rng, |used| Request::Compile {
            used,
            schema,
        });
    }
    validate(tables.into_raw(), Stream::Validate, [node, schema], rng)
}

/// A schema of this many levels over a boolean, and a value that it visits to the end.
fn chain(
    tables: &mut Tables,
    levels: usize,
    rng: &mut Rng,
) -> Result<(Node, Schema, Text), TableError> {
    let key = tables.text("k")?;
    let key_node = tables.string(key)?;
    let mut node = if rng.percent(60) {
        tables.boolean(true)?
    } else {
        tables.null()?
    };
    let mut schema = tables.boolean_schema(None)?;
    for level in 1..levels {
        schema = match rng.below(6) {
            0 | 1 => {
                node = tables.array(&[node])?;
                let rules = ArrayRules {
                    items: Some(schema),
                    ..ArrayRules::default()
                };
                tables.array_schema(None, &rules)?
            }
            2 | 3 => {
                node = tables.object(&[(key_node, node)])?;
                let rules = ObjectRules {
                    properties: vec![(key, schema)],
                    ..ObjectRules::default()
                };
                tables.object_schema(None, &rules)?
            }
            4 => tables.all_of(None, &[schema])?,
            _ if rng.percent(70) => tables.any_of(None, &[schema])?,
            _ => {
                let name = tables.text(&format!("n{level}"))?;
                tables.register(name, schema)?;
                tables.reference(None, name, rng.percent(50))?
            }
        };
    }
    Ok((node, schema, key))
}

/// The path down to the innermost value.
fn path(raw: &quarto_yaml_tables::RawTables, node: u32, key: Text) -> Vec<u32> {
    use quarto_yaml_tables::layout::node as kind;
    let mut path = Vec::new();
    let mut at = node;
    loop {
        let [found, first, ..] = raw.node(at);
        let links = raw.list(first, 2);
        match found {
            kind::ARRAY => {
                path.extend([1, 0]);
                at = links[0];
            }
            kind::OBJECT => {
                path.extend([0, key.get()]);
                at = links[1];
            }
            _ => return path,
        }
    }
}
