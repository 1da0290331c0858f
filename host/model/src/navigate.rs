//! Following a path.

use crate::check::{Bad, check};
use quarto_yaml_tables::layout::{self, NONE, node};
use quarto_yaml_tables::{Answer, RawTables};

/// The node at the end of a path of step pairs, 0 with a text or 1 with an index.
pub fn navigate(tables: &RawTables, start: u32, path: &[u32], key_wanted: bool) -> Answer {
    let counts = match check(tables) {
        Ok(counts) => counts,
        Err(bad) => return bad.answer(),
    };
    if let Some(record) = bad_step(path, counts.texts) {
        return Bad {
            table: layout::PATH,
            record,
        }
        .answer();
    }
    if start >= counts.nodes {
        return Answer::of(21);
    }
    match follow(tables, start, path, key_wanted) {
        Some(found) => Answer {
            record: found,
            ..Answer::of(0)
        },
        None => Answer::of(40),
    }
}

/// The first bad step, or NONE for a ragged path.
fn bad_step(path: &[u32], texts: u32) -> Option<u32> {
    if path.len() % 2 != 0 {
        return Some(NONE);
    }
    path.chunks_exact(2)
        .position(|step| step[0] > 1 || step[0] == 0 && step[1] >= texts)
        .map(|place| place as u32)
}

fn follow(tables: &RawTables, start: u32, path: &[u32], key_wanted: bool) -> Option<u32> {
    let mut at = start;
    let steps = path.len() / 2;
    for (place, step) in path.chunks_exact(2).enumerate() {
        let [kind, first, count, _] = tables.node(at);
        at = match (step[0], kind) {
            (0, node::OBJECT) => {
                let wanted = tables.text(step[1]);
                let (key, value) = tables.pairs(first, count).rev().find(|&(key, _)| {
                    let [kind, text, ..] = tables.node(key);
                    kind == node::STRING && tables.text(text) == wanted
                })?;
                if key_wanted && place + 1 == steps {
                    key
                } else {
                    value
                }
            }
            (1, node::ARRAY) => *tables.list(first, count).get(step[1] as usize)?,
            _ => return None,
        };
    }
    Some(at)
}
