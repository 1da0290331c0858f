//! Stored pairs of nodes, and whether the original holds them equal as JSON.

use super::read::{Replayed, call_number, each};
use super::write::{header, write_tables};
use crate::generate;
use quarto_yaml_model::{Equality, check, equal};
use quarto_yaml_oracle::{Oracle, fit};
use quarto_yaml_tables::RawTables;

/// The number in a file's header.
const CALL: u32 = 3;

/// Tables that are looked at, at most.
const SEARCHED: u64 = 200_000;

/// Pairs of nodes with what the original says of them.
#[derive(Clone, Debug)]
pub struct Pairs {
    /// The seed.
    pub seed: u64,
    /// The tables with their pairs.
    pub groups: Vec<(RawTables, Vec<Pair>)>,
}

/// Two nodes, and whether they are equal for enum and for unique.
#[derive(Clone, Copy, Debug)]
pub struct Pair {
    /// The two nodes.
    pub nodes: [u32; 2],
    /// Equal for enum, equal for unique.
    pub equal: [bool; 2],
}

impl Pairs {
    fn all(&self) -> impl Iterator<Item = &Pair> {
        self.groups.iter().flat_map(|(_, pairs)| pairs)
    }

    /// How many pairs there are.
    pub fn count(&self) -> usize {
        self.all().count()
    }

    /// How many are equal for enum, and how many for unique.
    pub fn equal(&self) -> [usize; 2] {
        [0, 1].map(|way| self.all().filter(|pair| pair.equal[way]).count())
    }
}

/// At least this many pairs of which the second judge says what the original says.
pub fn pairs(seed: u64, calls: usize) -> Result<Pairs, String> {
    let mut stored = Pairs {
        seed,
        groups: Vec::new(),
    };
    let mut total = 0;
    for index in 0..SEARCHED {
        if total >= calls {
            break;
        }
        let (tables, nodes) = generate::pairs(seed, index);
        check(&tables).map_err(|bad| format!("tables {index} are not well-formed: {bad:?}"))?;
        if fit(&tables).is_err() {
            continue;
        }
        let pairs: Vec<Pair> = nodes
            .into_iter()
            .map(|nodes| judged(&tables, nodes))
            .collect::<Result<_, _>>()
            .map_err(|difference| format!("the judges differ: tables {index}, {difference}"))?;
        total += pairs.len();
        stored.groups.push((tables, pairs));
    }
    let [as_enum, as_unique] = stored.equal();
    if as_enum == as_unique {
        return Err("no pair is equal for enum alone".to_string());
    }
    Ok(stored)
}

fn judged(tables: &RawTables, nodes: [u32; 2]) -> Result<Pair, String> {
    let [left, right] = nodes;
    let said = Oracle.equal(tables, left, right);
    let expected = by_model(tables, nodes);
    if said != expected {
        return Err(format!(
            "nodes {left} and {right}: the original {said:?}, the second judge {expected:?}"
        ));
    }
    Ok(Pair { nodes, equal: said })
}

fn by_model(tables: &RawTables, [left, right]: [u32; 2]) -> [bool; 2] {
    [Equality::Enum, Equality::Unique].map(|way| equal(tables, way, left, right))
}

/// Pairs as the words of a file.
pub fn pair_words(stored: &Pairs) -> Vec<u32> {
    let mut out = header(CALL, stored.groups.len(), stored.count(), stored.seed);
    for (tables, pairs) in &stored.groups {
        write_tables(&mut out, tables);
        out.push(pairs.len() as u32);
        for pair in pairs {
            out.push(1);
            out.extend(pair.nodes);
            out.extend(pair.equal.map(u32::from));
        }
    }
    out
}

/// Whether a stored file is one of pairs.
pub fn holds_pairs(file: &[u8]) -> bool {
    call_number(file) == Some(CALL)
}

/// Asks the second judge again; nothing where the file is not one of pairs.
pub fn replay_pairs(file: &[u8]) -> Option<Replayed> {
    holds_pairs(file).then_some(())?;
    each(file, |reader, _, tables| {
        let words = reader.take(4)?;
        let equal = by_model(tables, [words[0], words[1]]);
        Some(equal.map(u32::from) == words[2..])
    })
}
