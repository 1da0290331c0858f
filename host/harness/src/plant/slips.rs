//! Whole checkers that go wrong in one rule, to stand in for the library.

use super::altered::{Altered, UNALTERED};
use quarto_yaml_model::{Merge, Room, merge};
use quarto_yaml_tables::layout::{NONE, SCHEMAS, schema};

/// One rule gone wrong.
#[derive(Clone, Copy)]
pub struct Slip {
    /// What is wrong.
    pub name: &'static str,
    /// Whether grouping a run shows it; the others can be grouped too, and only the second judge sees them.
    pub seen_by_grouping: bool,
    /// A checker that goes wrong so.
    pub checker: Altered,
}

/// Slips in merging, and one in a visit.
pub const SLIPS: [Slip; 9] = [
    unseen("a base's minimum kept", |room, bases, derived| {
        let mut minima = bases
            .iter()
            .map(|&base| room.tables.schema(base)[schema::MINIMUM]);
        let kept = minima.rfind(|&word| word != NONE);
        let record = merge(room, bases, derived)?;
        let own = derived[schema::MINIMUM];
        let minimum = if own == NONE { kept } else { Some(own) };
        Ok(set(room, record, schema::MINIMUM, minimum.unwrap_or(NONE)))
    }),
    unseen("an earlier pair wins", |room, bases, derived| {
        let all: Vec<[u32; 16]> = bases.iter().map(|&base| room.tables.schema(base)).collect();
        let record = merge(room, bases, derived)?;
        let words = room.tables.schema(record);
        let [first, count] = [0, 1].map(|place| words[schema::PROPERTIES + place]);
        for place in (first..first + 2 * count)
            .step_by(2)
            .map(|place| place as usize)
        {
            let key = room.tables.text(room.tables.links[place]).to_vec();
            let pairs = all.iter().chain([derived]).flat_map(|words| {
                let [first, count] = [0, 1].map(|place| words[schema::PROPERTIES + place]);
                room.tables.pairs(first, count)
            });
            let earliest = pairs
                .into_iter()
                .find(|pair| room.tables.text(pair.0) == key);
            if let Some((text, part)) = earliest {
                (room.tables.links[place], room.tables.links[place + 1]) = (text, part);
            }
        }
        Ok(record)
    }),
    unseen("the names of the derived", |room, bases, derived| {
        let record = merge(room, bases, derived)?;
        Ok(set(room, record, schema::NAMES, derived[schema::NAMES]))
    }),
    seen("only the first base merged", |room, bases, derived| {
        merge(room, &bases[..bases.len().min(1)], derived)
    }),
    seen("additional joined by anyOf", |room, bases, derived| {
        let record = merge(room, bases, derived)?;
        if let Some(join) = joined(room, record, schema::ADDITIONAL, schema::ALL_OF) {
            set(room, join, 0, schema::ANY_OF);
        }
        Ok(record)
    }),
    seen("a join with the object's note", |room, bases, derived| {
        let record = merge(room, bases, derived)?;
        let note = room.tables.schema(record)[1];
        if let Some(join) = joined(room, record, schema::ADDITIONAL, schema::ALL_OF) {
            set(room, join, 1, note);
        }
        Ok(record)
    }),
    seen("no names where several are", |room, bases, derived| {
        let record = merge(room, bases, derived)?;
        Ok(match joined(room, record, schema::NAMES, schema::ANY_OF) {
            Some(_) => set(room, record, schema::NAMES, NONE),
            None => record,
        })
    }),
    seen("closed where exactly one is", |room, bases, derived| {
        let all = bases.iter().map(|&base| room.tables.schema(base));
        let closed = all
            .chain([*derived])
            .filter(|words| words[schema::CLOSED] == 1);
        let one = closed.count() == 1;
        let record = merge(room, bases, derived)?;
        Ok(set(room, record, schema::CLOSED, one.into()))
    }),
    Slip {
        checker: Altered {
            visited: |tables| {
                let mut tables = tables.clone();
                for words in tables.schemas.chunks_exact_mut(SCHEMAS.words) {
                    if words[0] == schema::ALL_OF {
                        words[3] = words[3].min(2);
                    }
                }
                tables
            },
            ..UNALTERED
        },
        ..seen("a visit of the first two parts only", merge)
    },
];

const fn seen(name: &'static str, merge: Merge) -> Slip {
    Slip {
        name,
        seen_by_grouping: true,
        checker: Altered { merge, ..UNALTERED },
    }
}

const fn unseen(name: &'static str, merge: Merge) -> Slip {
    Slip {
        seen_by_grouping: false,
        ..seen(name, merge)
    }
}

/// Sets a word of a record and gives the record.
fn set(room: &mut Room<'_>, record: u32, place: usize, word: u32) -> u32 {
    room.tables.schemas[record as usize * SCHEMAS.words + place] = word;
    record
}

/// The join that merging has just appended for a word of the object: it stands right before it.
fn joined(room: &Room<'_>, record: u32, place: usize, kind: u32) -> Option<u32> {
    let join = room.tables.schema(record)[place];
    let words = room.tables.schema(join);
    let new = join != NONE && join < record && join + 2 >= record;
    (new && words[0] == kind && words[1] == NONE && words[3] > 1).then_some(join)
}
