//! The room behind the used counts that compiling is lent.

use crate::case::{Case, Request};
use crate::rng::Rng;
use quarto_yaml_model::Model;
use quarto_yaml_tables::layout::{GROWING, NONE, NOTES, SCHEMAS, Table};
use quarto_yaml_tables::{Checker, RawTables};

/// Room that suffices for nearly all generated cases.
const AMPLE: [usize; 3] = [60, 400, 1_500];

/// A word that is right nowhere.
const STAIN: u32 = 0x5eed_5eed;

/// A compile over these tables, with room that is ample, exact, short or at the limits.
pub fn compile(
    mut tables: RawTables,
    schema: u32,
    rng: &mut Rng,
    request: impl FnOnce([u32; 3]) -> Request,
) -> Case {
    if rng.below(400) == 0 {
        near_limits(&mut tables, rng);
    }
    let used = tables.used();
    let mut spare = AMPLE;
    if rng.percent(15) {
        spare = needed(&tables, used, schema);
        let place = rng.below(3);
        if rng.percent(50) && spare[place] > 0 {
            spare[place] -= 1;
        } else {
            spare[place] += rng.below(2);
        }
    } else if rng.percent(4) {
        spare = [rng.below(4), rng.below(8), rng.below(20)];
    }
    for (table, spare) in GROWING.into_iter().zip(spare) {
        let ragged = if rng.percent(30) {
            rng.below(table.words)
        } else {
            0
        };
        lend(&mut tables, table, [spare, ragged], rng.garbage());
    }
    Case {
        tables,
        request: request(used),
    }
}

/// Lends room for so many records behind a table's words, and some words more, all of them this one.
pub fn lend(tables: &mut RawTables, table: Table, [records, more]: [usize; 2], word: u32) {
    let words = tables.words_mut(table);
    words.resize(words.len() + records * table.words + more, word);
}

/// A compile over tables without room: with this room, or where none is given with what the second
/// judge takes and a little more, ample where it refuses. The room holds garbage.
pub fn lent(mut tables: RawTables, schema: u32, spare: Option<[usize; 3]>) -> Case {
    let used = tables.used();
    let spare = spare.unwrap_or_else(|| match needed(&tables, used, schema) {
        [0, 0, 0] => AMPLE,
        [notes, schemas, links] => [notes + 1, schemas, links + 3],
    });
    for (table, spare) in GROWING.into_iter().zip(spare) {
        lend(&mut tables, table, [spare, 0], STAIN);
    }
    Case {
        tables,
        request: Request::Compile { used, schema },
    }
}

/// The room that this compile takes, by the second judge.
pub fn needed(tables: &RawTables, used: [u32; 3], schema: u32) -> [usize; 3] {
    let mut tables = tables.clone();
    for (table, spare) in GROWING.into_iter().zip(AMPLE) {
        lend(&mut tables, table, [spare, 0], 0);
    }
    let answer = Model.compile(&mut tables, used, schema);
    let after = answer.used();
    [0, 1, 2].map(|place| (after[place] - used[place]) as usize)
}

/// Fills one of the three tables up to a few records under its limit.
fn near_limits(tables: &mut RawTables, rng: &mut Rng) {
    let table = rng.pick(&GROWING);
    let left = rng.below(12);
    fill(tables, table, table.most - left, &empty(table));
}

/// A good record that says nothing: a note without words, True, a link.
pub fn empty(table: Table) -> Vec<u32> {
    let mut words = vec![0; table.words];
    match table {
        NOTES => words[..8].fill(NONE),
        SCHEMAS => words[1] = NONE,
        _ => {}
    }
    words
}

/// Fills a table with a record up to this count.
pub fn fill(tables: &mut RawTables, table: Table, count: usize, record: &[u32]) {
    while tables.count(table) < count {
        tables.words_mut(table).extend_from_slice(record);
    }
}
