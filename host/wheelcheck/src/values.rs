//! Values to nodes of the tables.

use crate::source::{Place, Trouble};
use crate::yaml::{Kind, Value};
use quarto_yaml_tables::layout::{ALL, NONE, POOL_BYTES, node};
use quarto_yaml_tables::{Node, RawTables, TableError, Tables};

/// Adds a value and all below it; `places` gets the place of each node that is added, in order.
pub fn fill(
    tables: &mut Tables,
    places: &mut Vec<Place>,
    value: &Value,
) -> Result<Node, TableError> {
    let node = match &value.kind {
        Kind::Null => tables.null(),
        Kind::Boolean(value) => tables.boolean(*value),
        Kind::Integer(value) => tables.integer(*value),
        Kind::Real(text) => tables.real(text),
        Kind::String(text) => tables.text(text).and_then(|text| tables.string(text)),
        Kind::Array(items) => {
            let items = items
                .iter()
                .map(|item| fill(tables, places, item))
                .collect::<Result<Vec<_>, _>>()?;
            tables.array(&items)
        }
        Kind::Object(entries) => {
            let mut nodes = Vec::with_capacity(entries.len());
            for (key, value) in entries {
                nodes.push((fill(tables, places, key)?, fill(tables, places, value)?));
            }
            tables.object(&nodes)
        }
        Kind::Bad => tables.bad_value(),
    }?;
    places.push(value.place);
    Ok(node)
}

/// Whether a node is a number that is none: every number test lets it pass.
pub fn is_nan(tables: &RawTables, number: u32) -> bool {
    let [kind, read, ..] = tables.node(number);
    let bits = tables.numbers.get(read as usize);
    kind == node::REAL && (read == NONE || bits.is_some_and(|&bits| f64::from_bits(bits).is_nan()))
}

/// What a table's refusal means to whoever wrote the file.
pub fn too_large(error: TableError) -> Trouble {
    const HELD: [&str; 8] = [
        "texts",
        "values",
        "annotated schemas",
        "schemas",
        "named schemas",
        "pattern answers",
        "list members",
        "numbers",
    ];
    let message = match error {
        TableError::TooMany { table } => {
            let place = table as usize - 1;
            let (held, most) = (HELD[place], ALL[place].most);
            format!("is too large: with its schema it has more than {most} {held}")
        }
        TableError::PoolFull => {
            format!("is too large: with its schema it has more than {POOL_BYTES} bytes of text")
        }
        other => format!("cannot be represented: {other}"),
    };
    Trouble::of_file(message)
}
