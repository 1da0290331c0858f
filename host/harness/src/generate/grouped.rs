//! Schemas with long lists of bases, and runs in them.

use super::build::{Build, fits};
use crate::case::{Case, Request};
use crate::grouped::{Grouping, Run, bases, regroup};
use crate::rng::Rng;
use quarto_yaml_tables::layout::{REGISTRY, SCHEMAS, node, schema};
use quarto_yaml_tables::{ArrayRules, Node, RawTables, Schema};

/// Schemas that are drawn, at most, for one that has a run.
const DRAWN: usize = 50;

/// The grouping with this seed and index.
pub fn grouping(seed: u64, index: u64) -> Grouping {
    let mut rng = Rng::of_case(seed, index);
    let mut made = drawn(&mut rng);
    for _ in 1..DRAWN {
        if !made.runs.is_empty() {
            break;
        }
        made = drawn(&mut rng);
    }
    made
}

fn drawn(rng: &mut Rng) -> Grouping {
    let mut build = Build::new(rng);
    (build.grouped, build.bases) = (true, 55);
    build.duplicates = 1;
    let depth = build.rng.between(1, 3);
    let node = match build.rng.percent(85) {
        true => build.object(depth),
        false => build.value(depth),
    };
    let depth = build.rng.pick(&[1, 2, 2, 2, 3]);
    let root = match build.rng.percent(70) {
        true => build.object_schema(Some(node), depth),
        false => build.schema_for(Some(node), depth),
    };
    build.register_some(root);
    let mut values = vec![node, another(&mut build, node), another(&mut build, node)];
    let root = match build.rng.percent(1) {
        true => deepened(&mut build, root, &mut values),
        false => root,
    };
    let tables = build.finish();
    let schema = root.get();
    let runs = runs(&tables, schema, rng);
    let spare = (rng.below(40) == 0).then(|| [rng.below(8), rng.below(12), rng.below(40)]);
    let used = tables.used();
    Grouping {
        case: Case {
            tables,
            request: Request::Compile { used, schema },
        },
        runs,
        values: values.into_iter().map(Node::get).collect(),
        spare,
    }
}

/// A value like this one: an object with some entries changed and perhaps one more.
fn another(build: &mut Build<'_>, of: Node) -> Node {
    let [kind, first, count, _] = build.tables.raw().node(of.get());
    if kind != node::OBJECT || build.rng.percent(10) {
        return build.variant(of);
    }
    let mut entries = build.entries_at(first, count);
    for entry in &mut entries {
        if build.rng.percent(25) {
            entry.1 = build.value(1);
        }
    }
    if build.rng.percent(40) {
        let text = build.string_text();
        let raw = build.tables.raw();
        let there = entries.iter().any(|entry| {
            let [kind, key, ..] = raw.node(entry.0.get());
            kind == node::STRING && raw.text(key) == build.tables.bytes(text)
        });
        if !there {
            let key = build.tables.string(text);
            let entry = (build.keep_node(key), build.value(1));
            entries.push(entry);
        }
    }
    let made = build.tables.object(&entries);
    build.keep_node(made)
}

/// Schema and values inside so many arrays that a level more or less decides.
fn deepened(build: &mut Build<'_>, root: Schema, values: &mut [Node]) -> Schema {
    let mut schema = root;
    for _ in 0..build.rng.between(56, 62) {
        let rules = ArrayRules {
            items: Some(schema),
            ..ArrayRules::default()
        };
        schema = fits(build.tables.array_schema(None, &rules));
        for value in values.iter_mut() {
            *value = fits(build.tables.array(&[*value]));
        }
    }
    schema
}

/// One to three runs; a later one may lie within an earlier one, or hold it.
fn runs(tables: &RawTables, root: u32, rng: &mut Rng) -> Vec<Run> {
    let (mut tables, mut root) = (tables.clone(), root);
    let mut runs: Vec<Run> = Vec::new();
    for _ in 0..rng.pick(&[1, 1, 1, 2, 2, 3]) {
        let mut objects = with_bases(&tables, root, rng.percent(95));
        if let Some(last) = runs.last()
            && rng.percent(50)
        {
            objects = vec![last.object, last.object + 1];
        }
        let Some(object) = rng.pick_some(&objects) else {
            break;
        };
        let length = bases(&tables, object).map_or(0, |bases| bases.len());
        let count = rng.between(1, length);
        let start = rng.below(length - count + 1);
        let run = Run {
            object,
            start,
            count,
        };
        let Some(grouped) = regroup(&tables, run) else {
            break;
        };
        tables = grouped;
        root += u32::from(root >= object);
        runs.push(run);
    }
    runs
}

/// The objects that have bases, of those that the root reaches or of all.
fn with_bases(tables: &RawTables, root: u32, reached: bool) -> Vec<u32> {
    let all = 0..tables.count(SCHEMAS) as u32;
    let mut seen = vec![!reached; tables.count(SCHEMAS)];
    let mut waiting = vec![root];
    while let Some(record) = waiting.pop() {
        if !std::mem::replace(&mut seen[record as usize], true) {
            waiting.extend(children(tables, record));
        }
    }
    all.filter(|&record| seen[record as usize])
        .filter(|&record| bases(tables, record).is_some_and(|bases| !bases.is_empty()))
        .collect()
}

/// The schemas that a record holds or refers to.
fn children(tables: &RawTables, record: u32) -> Vec<u32> {
    let words = tables.schema(record);
    if words[0] != schema::REF {
        return tables.parts(record);
    }
    let name = tables.text(words[2]);
    let entries = tables.registry.chunks_exact(REGISTRY.words);
    let named = entries.filter(|entry| tables.text(entry[0]) == name);
    named.map(|entry| entry[1]).collect()
}
