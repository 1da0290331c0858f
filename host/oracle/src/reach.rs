//! Which tables stand for values of the original.

use quarto_yaml_tables::RawTables;
use quarto_yaml_tables::layout::{self, NONE, node, schema};

/// Why well-formed tables are left out of the comparison.
#[derive(Clone, Copy, Debug, PartialEq, Eq)]
pub enum Unfit {
    /// A real whose two readings no text gives.
    RealPair,
    /// A hidden word that is no boolean.
    Hidden,
    /// Children are shared so often that the tree would be enormous.
    TooLarge,
}

/// Most nodes and schemas of a tree that the original is asked about.
const LARGEST: u64 = 50_000;

/// Whether the original has values that these well-formed tables stand for.
pub fn fit(tables: &RawTables) -> Result<(), Unfit> {
    reals(tables)?;
    let hidden = tables.notes.chunks_exact(layout::NOTES.words);
    if hidden
        .into_iter()
        .any(|note| note[4] > 1 && note[4] != NONE)
    {
        return Err(Unfit::Hidden);
    }
    sizes(tables)
}

/// A text gives equal bits twice, or an infinity or NaN once, or nothing.
fn reals(tables: &RawTables) -> Result<(), Unfit> {
    let bits = |place: u32| match place {
        NONE => None,
        _ => tables.numbers.get(place as usize).copied(),
    };
    for words in tables.nodes.chunks_exact(layout::NODES.words) {
        if words[0] != node::REAL {
            continue;
        }
        let pair = (bits(words[1]), bits(words[2]));
        let fit = match pair {
            (None, None) => true,
            (Some(read), None) => [f64::INFINITY, f64::NEG_INFINITY, f64::NAN]
                .iter()
                .any(|special| special.to_bits() == read),
            (Some(read), Some(parsed)) => {
                let nan = f64::from_bits(read).is_nan();
                read == parsed && (!nan || read == f64::NAN.to_bits())
            }
            (None, Some(_)) => false,
        };
        if !fit {
            return Err(Unfit::RealPair);
        }
    }
    Ok(())
}

/// Sizes of the trees, children before parents.
fn sizes(tables: &RawTables) -> Result<(), Unfit> {
    let nodes = tables.count(layout::NODES) as u32;
    let mut of_node: Vec<u64> = Vec::new();
    for number in 0..nodes {
        let [kind, first, count, _] = tables.node(number);
        let links = match kind {
            node::ARRAY => tables.list(first, count),
            node::OBJECT => tables.list(first, count.saturating_mul(2)),
            _ => &[],
        };
        of_node.push(total(links.iter().map(|&child| of_node[child as usize])));
    }
    let schemas = tables.count(layout::SCHEMAS) as u32;
    let mut of_schema: Vec<u64> = Vec::new();
    for number in 0..schemas {
        let words = tables.schema(number);
        let parts = tables.parts(number);
        let listed = match words[0] {
            schema::ENUM => tables.list(words[2], words[3]),
            _ => &[],
        };
        let nodes = listed.iter().map(|&value| of_node[value as usize]);
        let schemas = parts.iter().map(|&part| of_schema[part as usize]);
        of_schema.push(total(nodes.chain(schemas)));
    }
    let registered = tables.registry.chunks_exact(layout::REGISTRY.words);
    let registered = total(registered.map(|entry| of_schema[entry[1] as usize]));
    let largest = of_node.iter().chain(&of_schema).max();
    if registered.max(largest.copied().unwrap_or(0)) > LARGEST {
        return Err(Unfit::TooLarge);
    }
    Ok(())
}

fn total(sizes: impl Iterator<Item = u64>) -> u64 {
    sizes.fold(1, u64::saturating_add)
}
