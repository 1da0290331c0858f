//! Tables that are no longer well-formed, wrong numbers, short buffers.

use crate::case::{Case, Request, WORD_TABLES};
use crate::rng::Rng;
use quarto_yaml_tables::RawTables;
use quarto_yaml_tables::layout::{self, NONE, Table};

/// A case with one to three things wrong, or nearly so.
pub fn damaged(mut case: Case, rng: &mut Rng) -> Case {
    for _ in 0..rng.pick(&[1, 1, 1, 2, 3]) {
        match rng.below(20) {
            0..=9 => push_word(&mut case.tables, rng),
            10..=12 => resize(&mut case.tables, rng),
            13 => overfill(&mut case.tables, rng),
            14 => spoil_pool(&mut case.tables, rng),
            _ => spoil_request(&mut case, rng),
        }
    }
    case
}

/// Values that a swept word is pushed to.
const SWEPT: usize = 16;

/// The case with the word and the value of this step: every word is pushed to every boundary in turn.
pub fn swept(mut case: Case, step: usize) -> Case {
    let sizes = WORD_TABLES.map(|table| case.tables.words(table).len());
    let total: usize = sizes.iter().sum();
    if total == 0 {
        return case;
    }
    let mut place = step / SWEPT % total;
    for (table, size) in WORD_TABLES.into_iter().zip(sizes) {
        if place < size {
            let word = case.tables.words(table)[place];
            let value = boundaries(&case.tables, word)[step % SWEPT];
            case.tables.words_mut(table)[place] = value;
            break;
        }
        place -= size;
    }
    case
}

/// The values at which a rule about this word may turn.
fn boundaries(tables: &RawTables, word: u32) -> [u32; SWEPT] {
    let [texts, nodes, notes, schemas, _, _, links, numbers] =
        layout::ALL.map(|table| tables.count(table) as u32);
    let pool = tables.pool.len() as u32;
    [
        0,
        1,
        2,
        9,
        12,
        word.wrapping_add(1),
        word.wrapping_sub(1),
        NONE,
        NONE - 1,
        1 << 31,
        texts.max(numbers),
        nodes,
        notes,
        schemas,
        links,
        pool + 1,
    ]
}

/// A word pushed to a value at which a rule turns.
fn boundary(tables: &RawTables, word: u32, rng: &mut Rng) -> u32 {
    let count = tables.count(rng.pick(&layout::ALL)) as u32;
    match rng.below(8) {
        0 => rng.below(14) as u32,
        1 => word.wrapping_add(1),
        2 => word.wrapping_sub(1),
        3 => count,
        4 => count.wrapping_sub(1),
        5 => rng.pick(&[NONE, NONE - 1, 1 << 31, (1 << 31) - 1, 65_536, 65_537]),
        6 => tables.pool.len() as u32 + rng.below(2) as u32,
        _ => 0,
    }
}

fn push_word(tables: &mut RawTables, rng: &mut Rng) {
    let filled: Vec<Table> = WORD_TABLES
        .into_iter()
        .filter(|&table| !tables.words(table).is_empty())
        .collect();
    let Some(table) = rng.pick_some(&filled) else {
        return;
    };
    let place = rng.below(tables.words(table).len());
    let value = boundary(tables, tables.words(table)[place], rng);
    tables.words_mut(table)[place] = value;
}

/// Ragged, cut off, or with one record more.
fn resize(tables: &mut RawTables, rng: &mut Rng) {
    if rng.percent(8) {
        tables.numbers.truncate(rng.below(tables.numbers.len() + 1));
        return;
    }
    let table = rng.pick(&WORD_TABLES);
    let garbage = rng.garbage();
    let words = tables.words_mut(table);
    match rng.below(3) {
        0 => words.push(0),
        1 => words.truncate(words.len().saturating_sub(1 + rng.below(table.words))),
        _ => words.extend(vec![rng.pick(&[0, NONE, garbage]); table.words]),
    }
}

/// More records than a table may have, or just as many.
fn overfill(tables: &mut RawTables, rng: &mut Rng) {
    let over = rng.below(2);
    let table = rng.pick(&layout::ALL);
    if table == layout::NUMBERS {
        tables.numbers.resize(table.most + over, 0);
    } else if rng.percent(12) {
        tables.pool.resize(layout::POOL_BYTES + over, b'x');
    } else {
        let words = tables.words_mut(table);
        words.resize((table.most + over) * table.words, 0);
    }
}

fn spoil_pool(tables: &mut RawTables, rng: &mut Rng) {
    if tables.pool.is_empty() {
        return;
    }
    let place = rng.below(tables.pool.len());
    if rng.percent(30) {
        tables.pool.truncate(place);
    } else {
        let bytes = [
            0xff, 0xc0, 0x80, 0xbf, 0xe0, 0xed, 0xa0, 0xf4, 0x90, 0xf8, 0x41,
        ];
        tables.pool[place] = rng.pick(&bytes);
    }
}

fn spoil_request(case: &mut Case, rng: &mut Rng) {
    let nodes = case.tables.count(layout::NODES) as u32;
    let schemas = case.tables.count(layout::SCHEMAS) as u32;
    let texts = case.tables.count(layout::TEXTS) as u32;
    let past = |count: u32, rng: &mut Rng| {
        rng.pick(&[count, count.wrapping_add(1), count.wrapping_sub(1), NONE])
    };
    match &mut case.request {
        Request::Navigate { node, path, .. } => match rng.below(4) {
            0 => *node = past(nodes, rng),
            1 => path.push(rng.below(2) as u32),
            2 => path.extend([rng.pick(&[2, NONE]), 0]),
            _ => path.extend([0, past(texts, rng)]),
        },
        Request::Validate {
            node,
            schema,
            instance_words,
            schema_words,
            ..
        } => match rng.below(4) {
            0 => *node = past(nodes, rng),
            1 => *schema = past(schemas, rng),
            2 => *instance_words = rng.pick(&[0, 1, 126, 127, 128, 200]),
            _ => *schema_words = rng.pick(&[0, 1, 63, 64, 65]),
        },
        Request::Compile { used, schema } | Request::CompileThenValidate { used, schema, .. } => {
            if rng.percent(40) {
                *schema = rng.pick(&[used[1], used[1].wrapping_add(1), NONE]);
                return;
            }
            let place = rng.below(3);
            let table = layout::GROWING[place];
            let lent = case.tables.count(table) as u32;
            let value = used[place];
            let limit = table.most as u32;
            let about = [
                value.wrapping_sub(1),
                value + 1,
                lent,
                lent + 1,
                limit,
                limit + 1,
                NONE,
                0,
            ];
            used[place] = rng.pick(&about);
        }
    }
}
