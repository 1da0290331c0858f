//! Merging an object with its compiled bases.

use crate::room::Room;
use quarto_yaml_tables::RawTables;
use quarto_yaml_tables::layout::{NONE, note, schema};

type Record = [u32; 16];

/// The record of an object merged with its compiled bases, or the refusal's number.
pub fn merge(room: &mut Room<'_>, bases: &[u32], derived: &Record) -> Result<u32, u32> {
    let records: Vec<Record> = bases.iter().map(|&base| room.tables.schema(base)).collect();
    if records.iter().any(|record| record[0] != schema::OBJECT) {
        return Err(31);
    }
    if records.is_empty() {
        return Err(30);
    }
    let merged = merged_note(room.tables, &records, derived);
    let all: Vec<&Record> = records.iter().chain([derived]).collect();
    let properties = joined_pairs(room.tables, &all, schema::PROPERTIES);
    let patterns = joined_pairs(room.tables, &all, schema::PATTERN_PROPERTIES);
    let required: Vec<u32> = all
        .iter()
        .flat_map(|record| listed(room.tables, record, schema::REQUIRED).to_vec())
        .collect();
    let additional = present(all.iter().map(|record| record[schema::ADDITIONAL]));
    let names = present(records.iter().map(|record| record[schema::NAMES]))
        .into_iter()
        .filter(|&names| !case_detection(room.tables, names))
        .collect::<Vec<u32>>();

    let mut result = *derived;
    result[1] = room.note(&merged)?;
    for (place, links, each) in [
        (schema::PROPERTIES, &properties, 2),
        (schema::PATTERN_PROPERTIES, &patterns, 2),
        (schema::REQUIRED, &required, 1),
    ] {
        let list = room.list(links, links.len() / each)?;
        result[place..place + 2].copy_from_slice(&list);
    }
    let additional = links_of(room, additional)?;
    let names = links_of(room, names)?;
    result[schema::ADDITIONAL] = record_of(room, schema::ALL_OF, additional)?;
    result[schema::NAMES] = record_of(room, schema::ANY_OF, names)?;
    result[schema::CLOSED] = u32::from(all.iter().any(|record| record[schema::CLOSED] == 1));
    (result[schema::BASES], result[schema::BASES + 1]) = (NONE, 0);
    room.schema(&result)
}

/// The bases' notes field by field, without id, and the derived's description.
fn merged_note(tables: &RawTables, bases: &[Record], derived: &Record) -> [u32; 9] {
    let mut merged = [NONE; 9];
    merged[note::CASE_DETECTION] = 0;
    for base in bases.iter().filter(|base| base[1] != NONE) {
        let words = tables.note(base[1]);
        for place in note::DESCRIPTION..=note::TAGS {
            if words[place] != NONE {
                merged[place] = words[place];
            }
        }
        if words[note::TAGS] != NONE {
            merged[note::CASE_DETECTION] = words[note::CASE_DETECTION];
        }
    }
    if derived[1] != NONE {
        let description = tables.note(derived[1])[note::DESCRIPTION];
        if description != NONE {
            merged[note::DESCRIPTION] = description;
        }
    }
    merged
}

/// Pairs of all records: a later one takes an equal key's place, a new one goes to the end.
fn joined_pairs(tables: &RawTables, records: &[&Record], place: usize) -> Vec<u32> {
    let mut pairs: Vec<(u32, u32)> = Vec::new();
    for record in records {
        for pair in tables.pairs(record[place], record[place + 1]) {
            let key = tables.text(pair.0);
            match pairs.iter_mut().find(|held| tables.text(held.0) == key) {
                Some(held) => *held = pair,
                None => pairs.push(pair),
            }
        }
    }
    pairs
        .into_iter()
        .flat_map(|(text, part)| [text, part])
        .collect()
}

fn listed<'a>(tables: &'a RawTables, record: &Record, place: usize) -> &'a [u32] {
    tables.list(record[place], record[place + 1])
}

fn present(words: impl Iterator<Item = u32>) -> Vec<u32> {
    words.filter(|&word| word != NONE).collect()
}

/// Whether this is a string schema whose tags hold case-detection true.
fn case_detection(tables: &RawTables, number: u32) -> bool {
    let [kind, annotation, ..] = tables.schema(number);
    kind == schema::STRING
        && annotation != NONE
        && tables.note(annotation)[note::CASE_DETECTION] == 1
}

/// What several schemas are joined into: none, the one, or a list for a new record.
enum Joined {
    None,
    One(u32),
    List([u32; 2]),
}

fn links_of(room: &mut Room<'_>, parts: Vec<u32>) -> Result<Joined, u32> {
    Ok(match parts[..] {
        [] => Joined::None,
        [one] => Joined::One(one),
        _ => Joined::List(room.list(&parts, parts.len())?),
    })
}

fn record_of(room: &mut Room<'_>, kind: u32, joined: Joined) -> Result<u32, u32> {
    match joined {
        Joined::None => Ok(NONE),
        Joined::One(one) => Ok(one),
        Joined::List([first, count]) => {
            let mut record = [0; 16];
            record[..4].copy_from_slice(&[kind, NONE, first, count]);
            room.schema(&record)
        }
    }
}
