//! Opened trees, grouped runs, and what the comparison of both versions notices.

use quarto_yaml_harness::generate::grouping;
use quarto_yaml_harness::grouped::{Grouping, Joins, Run, Tree, Trees, bases, regroup};
use quarto_yaml_harness::plant::{SLIPS, altered};
use quarto_yaml_model::{Model, check};
use quarto_yaml_tables::layout::{NONE, SCHEMAS, schema};
use quarto_yaml_tables::{
    Answer, Checker, Note, NoteFields, ObjectRules, Paths, RawTables, Schema, StringRules, Tables,
};

struct Bench(Tables);

impl Bench {
    fn new() -> Self {
        Self(Tables::new())
    }

    fn note(&mut self, case_detection: bool) -> Note {
        let fields = NoteFields {
            tags: Some(1),
            case_detection,
            ..NoteFields::default()
        };
        self.0.note(&fields).expect("room")
    }

    fn string(&mut self, note: Option<Note>) -> Schema {
        let made = self.0.string_schema(note, &StringRules::default());
        made.expect("room")
    }

    fn boolean(&mut self) -> Schema {
        self.0.boolean_schema(None).expect("room")
    }

    fn null(&mut self) -> Schema {
        self.0.null_schema(None).expect("room")
    }

    fn all_of(&mut self, note: Option<Note>, parts: &[Schema]) -> Schema {
        self.0.all_of(note, parts).expect("room")
    }

    fn any_of(&mut self, note: Option<Note>, parts: &[Schema]) -> Schema {
        self.0.any_of(note, parts).expect("room")
    }

    fn object(&mut self, rules: ObjectRules) -> Schema {
        self.0.object_schema(None, &rules).expect("room")
    }

    fn additional(&mut self, schema: Schema) -> Schema {
        self.object(ObjectRules {
            additional: Some(schema),
            ..ObjectRules::default()
        })
    }

    fn names(&mut self, schema: Schema) -> Schema {
        self.object(ObjectRules {
            names: Some(schema),
            ..ObjectRules::default()
        })
    }

    fn same(&self, one: Schema, other: Schema) -> bool {
        let trees = opened(self.0.raw());
        trees[one.get() as usize] == trees[other.get() as usize]
    }
}

fn opened(tables: &RawTables) -> Vec<Tree> {
    assert!(check(tables).is_ok());
    let trees = Trees::default().of(tables, Joins::Opened);
    trees.expect("small trees")
}

#[test]
fn in_additional_an_all_of_is_replaced_by_its_parts_again_and_again() {
    let mut bench = Bench::new();
    let (boolean, null) = (bench.boolean(), bench.null());
    let flat = bench.all_of(None, &[boolean, null, boolean]);
    let inner = bench.all_of(None, &[null, boolean]);
    let inner = bench.all_of(None, &[inner]);
    let nested = bench.all_of(None, &[boolean, inner]);
    let [one, other] = [flat, nested].map(|schema| bench.additional(schema));
    assert!(bench.same(one, other));
    assert!(!bench.same(flat, nested), "by itself a join stays shut");
    let shut = Trees::default().of(bench.0.raw(), Joins::Shut);
    let shut = shut.expect("small trees");
    assert_ne!(shut[one.get() as usize], shut[other.get() as usize]);
    let single = bench.all_of(None, &[null]);
    let [one, other] = [single, null].map(|schema| bench.additional(schema));
    assert!(bench.same(one, other));
    let swapped = bench.all_of(None, &[null, boolean, boolean]);
    let [one, other] = [flat, swapped].map(|schema| bench.additional(schema));
    assert!(!bench.same(one, other), "the order counts");
}

#[test]
fn a_note_keeps_a_join_shut() {
    let mut bench = Bench::new();
    let (boolean, null, note) = (bench.boolean(), bench.null(), bench.note(false));
    let noted = bench.all_of(Some(note), &[boolean, null]);
    let open = bench.all_of(None, &[boolean, null]);
    let [one, other] = [noted, open].map(|schema| bench.additional(schema));
    assert!(!bench.same(one, other));
    let around = bench.all_of(None, &[noted]);
    let [one, other] = [noted, around].map(|schema| bench.additional(schema));
    assert!(bench.same(one, other));
}

#[test]
fn each_place_opens_its_own_kind() {
    let mut bench = Bench::new();
    let (boolean, null) = (bench.boolean(), bench.null());
    let any = bench.any_of(None, &[boolean]);
    let all = bench.all_of(None, &[boolean]);
    let in_additional = [boolean, any, all].map(|schema| bench.additional(schema));
    assert!(!bench.same(in_additional[0], in_additional[1]));
    assert!(bench.same(in_additional[0], in_additional[2]));
    let in_names = [boolean, any, all].map(|schema| bench.names(schema));
    assert!(bench.same(in_names[0], in_names[1]));
    assert!(!bench.same(in_names[0], in_names[2]));
    let key = bench.0.text("k").expect("room");
    let as_property = [boolean, all].map(|schema| {
        bench.object(ObjectRules {
            properties: vec![(key, schema)],
            ..ObjectRules::default()
        })
    });
    assert!(!bench.same(as_property[0], as_property[1]));
    let nested = bench.any_of(None, &[any, null]);
    let flat = bench.any_of(None, &[boolean, null]);
    let [one, other] = [nested, flat].map(|schema| bench.names(schema));
    assert!(bench.same(one, other));
}

#[test]
fn absent_differs_from_opened_to_nothing() {
    let mut bench = Bench::new();
    let empty = bench.object(ObjectRules::default());
    let nothing = bench.all_of(None, &[]);
    let no_names = bench.any_of(None, &[]);
    let [additional, names] = [bench.additional(nothing), bench.names(no_names)];
    assert!(!bench.same(empty, additional));
    assert!(!bench.same(empty, names));
}

#[test]
fn a_detecting_string_is_kept_apart_from_an_any_of_that_holds_it() {
    let mut bench = Bench::new();
    let note = bench.note(true);
    let bare = bench.string(Some(note));
    let held = bench.any_of(None, &[bare]);
    let [one, other] = [bare, held].map(|schema| bench.names(schema));
    assert!(!bench.same(one, other));
    let twice = bench.any_of(None, &[held]);
    let [one, other] = [held, twice].map(|schema| bench.names(schema));
    assert!(bench.same(one, other));
    let other_note = bench.note(false);
    let plain = bench.string(Some(other_note));
    let held = bench.any_of(None, &[plain]);
    let [one, other] = [plain, held].map(|schema| bench.names(schema));
    assert!(bench.same(one, other));
}

#[test]
fn bases_of_uncompiled_objects_are_left_out_and_equal_notes_are_equal() {
    let mut bench = Bench::new();
    let base = bench.object(ObjectRules::default());
    let derived = bench.object(ObjectRules {
        bases: Some(vec![base]),
        ..ObjectRules::default()
    });
    assert!(bench.same(base, derived));
    let notes = [bench.note(false), bench.note(false), bench.note(true)];
    let strings = notes.map(|note| bench.string(Some(note)));
    assert!(bench.same(strings[0], strings[1]));
    assert!(!bench.same(strings[0], strings[2]));
}

#[test]
fn a_run_is_replaced_by_an_empty_object_that_names_it() {
    let mut bench = Bench::new();
    let name = bench.0.text("r").expect("room");
    let all: Vec<Schema> = (0..3)
        .map(|_| bench.object(ObjectRules::default()))
        .collect();
    let derived = bench.object(ObjectRules {
        bases: Some(all.clone()),
        closed: true,
        ..ObjectRules::default()
    });
    let outer = bench.any_of(None, &[derived, all[0]]);
    bench.0.register(name, outer).expect("room");
    let run = Run {
        object: derived.get(),
        start: 1,
        count: 2,
    };
    let grouped = regroup(bench.0.raw(), run).expect("a run");
    assert!(check(&grouped).is_ok());
    assert_eq!(bases(&grouped, 3), Some(vec![1, 2]));
    assert_eq!(bases(&grouped, 4), Some(vec![0, 3]));
    let wrapper = grouped.schema(3);
    assert_eq!(wrapper[..2], [schema::OBJECT, NONE]);
    let options = [
        schema::ADDITIONAL,
        schema::MINIMUM,
        schema::MAXIMUM,
        schema::NAMES,
        schema::NAMING,
    ];
    assert_eq!(options.map(|place| wrapper[place]), [NONE; 5]);
    let counts = [
        schema::PROPERTIES + 1,
        schema::PATTERN_PROPERTIES + 1,
        schema::REQUIRED + 1,
        schema::CLOSED,
    ];
    assert_eq!(counts.map(|place| wrapper[place]), [0; 4]);
    assert_eq!(grouped.schema(4)[schema::CLOSED], 1);
    let outer = grouped.schema(5);
    assert_eq!(grouped.list(outer[2], outer[3]), [4, 0]);
    assert_eq!(grouped.registry[1], 5);
    for wrong in [(0, 0), (1, 3), (3, 1)] {
        let (start, count) = wrong;
        let run = Run {
            object: derived.get(),
            start,
            count,
        };
        assert_eq!(regroup(bench.0.raw(), run), None);
    }
}

/// Groupings that are looked at for a slip.
const CASES: u64 = 4_000;

#[test]
fn both_versions_are_alike_and_are_groupings() {
    let mut compiled = 0;
    for index in 0..CASES {
        let grouping = grouping(5, index);
        assert!(!grouping.runs.is_empty(), "{grouping}");
        let [flat, grouped] = [grouping.flat(), grouping.grouped()].map(|case| case.expect("both"));
        let count = |tables: &RawTables| tables.count(SCHEMAS);
        assert_ne!(count(&flat.tables), count(&grouped.tables));
        let ran = grouping.run(&Model).expect("both versions");
        assert_eq!(ran.alike(), Ok(()), "{grouping}");
        compiled += usize::from(ran.compiled());
    }
    assert!(compiled > CASES as usize / 2);
}

#[test]
fn each_slip_is_noticed() {
    let mut noticed = [(0, 0); SLIPS.len()];
    for index in 0..CASES {
        let grouping = grouping(6, index);
        let judge = grouping.run(&Model).expect("both versions");
        for (slip, (by_grouping, by_judge)) in SLIPS.iter().zip(&mut noticed) {
            let ran = grouping.run(&slip.checker).expect("both versions");
            *by_grouping += usize::from(ran.alike().is_err());
            *by_judge += usize::from(ran.as_judged(&judge).is_err());
        }
    }
    for (slip, (by_grouping, by_judge)) in SLIPS.iter().zip(noticed) {
        println!(
            "{}: of {CASES} groupings {by_grouping} differ, {by_judge} by the second judge",
            slip.name
        );
        assert!(by_judge > 0, "{} escaped", slip.name);
        assert_eq!(by_grouping > 0, slip.seen_by_grouping, "{}", slip.name);
    }
}

#[test]
fn a_failing_grouping_is_made_small() {
    let slip = SLIPS
        .iter()
        .find(|slip| slip.name == "additional joined by anyOf");
    let slip = slip.expect("that slip");
    let fails = |grouping: &Grouping| {
        let ran = grouping.run(&slip.checker);
        ran.is_some_and(|ran| ran.alike().is_err())
    };
    let failing = (0..).map(|index| grouping(8, index)).find(fails);
    let failing = failing.expect("a join somewhere");
    let size = |grouping: &Grouping| grouping.grouped().map(|case| case.tables.links.len());
    let before = size(&failing);
    let small = failing.smallest(fails);
    assert!(fails(&small));
    assert!(small.values.is_empty(), "trees need no value: {small}");
    assert!(size(&small) < before, "{small}");
    assert!(small.case.tables.nodes.is_empty(), "{small}");
}

/// A change of a refusal's answer and paths.
type Change = fn(&mut Answer, &mut Paths);

/// Right compiles; a refusal is changed for every other table.
fn fickle(change: Change) -> impl Checker {
    altered(
        move |tables: &RawTables, answer: &mut Answer, paths: &mut Paths| {
            if tables.count(SCHEMAS) % 2 == 1 && (1..=13).contains(&answer.number) {
                change(answer, paths);
            }
        },
    )
}

#[test]
fn each_part_of_an_answer_is_compared() {
    let changes: [(&str, Change); 9] = [
        ("number", |answer, _| answer.number ^= 1),
        ("node", |answer, _| answer.node += 1),
        ("schema", |answer, _| answer.schema = NONE),
        ("hint", |answer, _| answer.hint ^= 1),
        ("detail", |answer, _| answer.detail += 1),
        ("detail's word", |answer, _| answer.a ^= 1),
        ("bound", |answer, _| answer.bound += 1.0),
        ("instance path", |_, paths| paths.instance[127] = 1),
        ("schema path", |answer, _| answer.schema_steps = 0),
    ];
    for (name, change) in changes {
        let fickle = fickle(change);
        let noticed = (0..200).find(|&index| {
            let ran = grouping(7, index).run(&fickle).expect("both versions");
            ran.alike().is_err()
        });
        assert!(noticed.is_some(), "another {name} escaped");
    }
    let all_of_steps = fickle(|answer, paths| {
        let at = answer.schema_steps as usize;
        if at < paths.steps.len() {
            paths.steps[at] = schema::ALL_OF;
            answer.schema_steps += 1;
        }
    });
    for index in 0..200 {
        let ran = grouping(7, index)
            .run(&all_of_steps)
            .expect("both versions");
        assert_eq!(ran.alike(), Ok(()));
    }
}
