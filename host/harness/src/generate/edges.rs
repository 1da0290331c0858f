//! Compiles at the edges of the room, of the limits and of the used counts.

use super::room;
use super::{Stream, sound};
use crate::case::{Case, Request};
use crate::rng::Rng;
use quarto_yaml_tables::RawTables;
use quarto_yaml_tables::layout::{GROWING, NONE};
use std::fmt;

/// What is at its edge; a place is one of table 3, 4 and 7.
#[derive(Clone, Copy, Debug, PartialEq, Eq, PartialOrd, Ord)]
pub enum Edge {
    /// Every table has just the room that is taken.
    Full,
    /// One record less.
    Short(usize),
    /// Just the room that is taken, and a part of a record; links have no parts.
    Ragged(usize),
    /// One record less but for its last word.
    RaggedShort(usize),
    /// The table is lent beyond its limit, and the last record that may be used is.
    LimitReached(usize),
    /// The table is lent beyond its limit, which is one record too low.
    LimitShort(usize),
    /// The used count is the limit, and more is lent.
    UsedAtLimit(usize),
    /// The used count is one above the records lent.
    UsedAboveLent(usize),
    /// The same, where the last record lacks its last word.
    UsedAboveRagged(usize),
    /// The used count is one above the limit, and more is lent.
    UsedAboveLimit(usize),
    /// The schema's number is the used count.
    SchemaAtUsed,
    /// The schema's number is above the used count.
    SchemaAboveUsed,
}

/// All edges.
pub const EDGES: [Edge; 27] = [
    Edge::Full,
    Edge::Short(0),
    Edge::Short(1),
    Edge::Short(2),
    Edge::Ragged(0),
    Edge::Ragged(1),
    Edge::RaggedShort(0),
    Edge::RaggedShort(1),
    Edge::LimitReached(0),
    Edge::LimitReached(1),
    Edge::LimitReached(2),
    Edge::LimitShort(0),
    Edge::LimitShort(1),
    Edge::LimitShort(2),
    Edge::UsedAtLimit(0),
    Edge::UsedAtLimit(1),
    Edge::UsedAtLimit(2),
    Edge::UsedAboveLent(0),
    Edge::UsedAboveLent(1),
    Edge::UsedAboveLent(2),
    Edge::UsedAboveRagged(0),
    Edge::UsedAboveRagged(1),
    Edge::UsedAboveLimit(0),
    Edge::UsedAboveLimit(1),
    Edge::UsedAboveLimit(2),
    Edge::SchemaAtUsed,
    Edge::SchemaAboveUsed,
];

/// The edge of this index.
pub fn edge(index: u64) -> Edge {
    EDGES[(index % EDGES.len() as u64) as usize]
}

impl Edge {
    /// What compiling answers there.
    pub fn number(self) -> u32 {
        match self {
            Edge::Full | Edge::Ragged(_) | Edge::LimitReached(_) => 0,
            Edge::Short(_) | Edge::RaggedShort(_) | Edge::LimitShort(_) | Edge::UsedAtLimit(_) => {
                33
            }
            Edge::UsedAboveLent(_) | Edge::UsedAboveRagged(_) | Edge::UsedAboveLimit(_) => 20,
            Edge::SchemaAtUsed | Edge::SchemaAboveUsed => 21,
        }
    }

    /// Whether its tables need 4,096 schema records, which no stored form makes short.
    pub fn is_large(self) -> bool {
        matches!(
            self,
            Edge::LimitReached(1) | Edge::LimitShort(1) | Edge::UsedAtLimit(1)
        )
    }

    fn place(self) -> Option<usize> {
        match self {
            Edge::Full | Edge::SchemaAtUsed | Edge::SchemaAboveUsed => None,
            Edge::Short(place)
            | Edge::Ragged(place)
            | Edge::RaggedShort(place)
            | Edge::LimitReached(place)
            | Edge::LimitShort(place)
            | Edge::UsedAtLimit(place)
            | Edge::UsedAboveLent(place)
            | Edge::UsedAboveRagged(place)
            | Edge::UsedAboveLimit(place) => Some(place),
        }
    }
}

impl fmt::Display for Edge {
    fn fmt(&self, f: &mut fmt::Formatter<'_>) -> fmt::Result {
        let what = match self {
            Edge::Full => "room full",
            Edge::Short(_) => "one short",
            Edge::Ragged(_) => "room full and ragged",
            Edge::RaggedShort(_) => "one short and ragged",
            Edge::LimitReached(_) => "limit reached, lent above it",
            Edge::LimitShort(_) => "limit one short, lent above it",
            Edge::UsedAtLimit(_) => "used at the limit, lent above it",
            Edge::UsedAboveLent(_) => "used above what is lent",
            Edge::UsedAboveRagged(_) => "used above what is lent and ragged",
            Edge::UsedAboveLimit(_) => "used above the limit, lent above it",
            Edge::SchemaAtUsed => "schema at the used count",
            Edge::SchemaAboveUsed => "schema above the used count",
        };
        match self.place() {
            Some(place) => write!(f, "table {} {what}", GROWING[place].number),
            None => f.write_str(what),
        }
    }
}

/// A compile at this edge.
pub fn case(edge: Edge, rng: &mut Rng) -> Case {
    let (mut tables, mut schema, needed) = drawn(edge, rng);
    let mut used = tables.used();
    let mut spare = needed;
    if edge != Edge::Full && rng.percent(50) {
        spare = needed.map(|needed| needed + rng.below(3));
    }
    let mut ragged = [0; 3];
    let mut stains = [0; 3].map(|_| rng.garbage());
    if let Some(place) = edge.place() {
        let table = GROWING[place];
        spare[place] = needed[place];
        match edge {
            Edge::Short(_) => spare[place] -= 1,
            Edge::Ragged(_) => ragged[place] = rng.between(1, table.words - 1),
            Edge::RaggedShort(_) => {
                spare[place] -= 1;
                ragged[place] = table.words - 1;
            }
            Edge::LimitReached(_) | Edge::LimitShort(_) | Edge::UsedAtLimit(_) => {
                let left = match edge {
                    Edge::LimitReached(_) => needed[place],
                    Edge::LimitShort(_) => needed[place] - 1,
                    _ => 0,
                };
                let zeros = place != 1 && rng.percent(50);
                if zeros {
                    stains[place] = 0;
                }
                let record = match zeros {
                    true => vec![0; table.words],
                    false => room::empty(table),
                };
                room::fill(&mut tables, table, table.most - left, &record);
                used[place] = tables.count(table) as u32;
                spare[place] = left + rng.between(1, 3);
                ragged[place] = rng.below(table.words);
            }
            Edge::UsedAboveLent(_) | Edge::UsedAboveRagged(_) => {
                spare[place] = rng.below(3);
                used[place] += spare[place] as u32 + 1;
                if let Edge::UsedAboveRagged(_) = edge {
                    ragged[place] = table.words - 1;
                }
            }
            Edge::UsedAboveLimit(_) => {
                spare[place] = table.most + rng.between(1, 3) - tables.count(table);
                used[place] = table.most as u32 + 1;
            }
            _ => {}
        }
    }
    match edge {
        Edge::SchemaAtUsed => schema = used[1],
        Edge::SchemaAboveUsed => schema = rng.pick(&[used[1] + 1, NONE, NONE - 1]),
        _ => {}
    }
    for place in 0..GROWING.len() {
        let room = [spare[place], ragged[place]];
        room::lend(&mut tables, GROWING[place], room, stains[place]);
    }
    Case {
        tables,
        request: Request::Compile { used, schema },
    }
}

/// Tables without room and a schema that compiles and takes room where the edge is.
fn drawn(edge: Edge, rng: &mut Rng) -> (RawTables, u32, [usize; 3]) {
    loop {
        let Case { tables, request } = sound(Stream::Compile, rng);
        let Request::Compile { used, schema } = request else {
            continue;
        };
        let tables = tables.cut(used);
        let near = (0..3).any(|place| tables.count(GROWING[place]) > GROWING[place].most / 2);
        let needed = room::needed(&tables, used, schema);
        let takes = match edge.place() {
            Some(place) => needed[place] > 0,
            None => needed != [0; 3],
        };
        if takes && !near {
            return (tables, schema, needed);
        }
    }
}
