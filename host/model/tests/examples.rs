//! The worked examples of the scope document, P1 to P8, and compiling's basics.

use quarto_yaml_model::Model;
use quarto_yaml_tables::layout::{INSTANCE_WORDS, NONE, SCHEMA_WORDS, schema};
use quarto_yaml_tables::{
    Answer, ArrayRules, Checker, Detail, Mode, Node, NumberRules, ObjectRules, Paths,
    PatternAnswer, Schema, StringRules, TableError, Tables, Visit,
};

/// The answer and the schema path.
fn validate(tables: &Tables, mode: Mode, node: Node, schema: Schema) -> (Answer, Vec<u32>) {
    let mut paths = Paths::of(7, [INSTANCE_WORDS, SCHEMA_WORDS]);
    let visit = Visit {
        mode,
        node: node.get(),
        schema: schema.get(),
    };
    let answer = Model.validate(tables.raw(), visit, &mut paths);
    let [instance, steps] = paths.held(&answer);
    let behind = [
        &paths.instance[instance.len()..],
        &paths.steps[steps.len()..],
    ];
    assert!(behind.concat().iter().all(|&word| word == 0));
    (answer, steps.to_vec())
}

fn number(tables: &Tables, node: Node, schema: Schema) -> u32 {
    validate(tables, Mode::Unnamed, node, schema).0.number
}

#[test]
fn p1_maximum() -> Result<(), TableError> {
    let mut tables = Tables::new();
    let rules = NumberRules {
        maximum: Some(127.0),
        ..NumberRules::default()
    };
    let schema = tables.number_schema(None, &rules)?;
    let [at, above] = [tables.integer(127)?, tables.integer(128)?];
    assert_eq!(number(&tables, at, schema), 0);
    let (answer, steps) = validate(&tables, Mode::Source, above, schema);
    assert_eq!((answer.number, answer.node, answer.schema), (5, 1, 0));
    assert_eq!(answer.detail(), Some(Detail::AboveMaximum(128.0, 127.0)));
    assert_eq!(steps, [schema::NUMBER]);
    Ok(())
}

#[test]
fn p2_levels() -> Result<(), TableError> {
    let mut tables = Tables::new();
    let node = tables.boolean(true)?;
    let name = tables.text("self")?;
    let reference = tables.reference(None, name, false)?;
    tables.register(name, reference)?;
    assert_eq!(number(&tables, node, reference), 23);
    let mut nested = tables.boolean_schema(None)?;
    for _ in 0..63 {
        nested = tables.all_of(None, &[nested])?;
    }
    assert_eq!(number(&tables, node, nested), 0);
    let deeper = tables.all_of(None, &[nested])?;
    assert_eq!(number(&tables, node, deeper), 23);
    Ok(())
}

#[test]
fn p3_multiples() -> Result<(), TableError> {
    let mut tables = Tables::new();
    let multiple = |tables: &mut Tables, of| {
        let rules = NumberRules {
            multiple_of: Some(of),
            ..NumberRules::default()
        };
        tables.number_schema(None, &rules)
    };
    let four = multiple(&mut tables, 4.0)?;
    let zero = multiple(&mut tables, 0.0)?;
    let [ten, twelve] = [tables.integer(10)?, tables.integer(12)?];
    assert_eq!(number(&tables, twelve, four), 0);
    assert_eq!(number(&tables, ten, four), 6);
    assert_eq!(number(&tables, ten, zero), 0);
    Ok(())
}

#[test]
fn p4_length() -> Result<(), TableError> {
    let mut tables = Tables::new();
    let text = tables.text("\u{e9}")?;
    let node = tables.string(text)?;
    let rules = StringRules {
        maximum: Some(1),
        ..StringRules::default()
    };
    let schema = tables.string_schema(None, &rules)?;
    let (answer, _) = validate(&tables, Mode::Source, node, schema);
    assert_eq!(answer.detail(), Some(Detail::Count(2, 1)));
    assert_eq!(answer.number, 7);
    assert_eq!(validate(&tables, Mode::Standard, node, schema).0.number, 0);
    Ok(())
}

#[test]
fn p5_unique() -> Result<(), TableError> {
    let mut tables = Tables::new();
    let items = [tables.real("0.0")?, tables.real("-0.0")?];
    let node = tables.array(&items)?;
    let rules = ArrayRules {
        unique: Some(true),
        ..ArrayRules::default()
    };
    let schema = tables.array_schema(None, &rules)?;
    assert_eq!(validate(&tables, Mode::Source, node, schema).0.number, 0);
    assert_eq!(validate(&tables, Mode::Standard, node, schema).0.number, 10);
    Ok(())
}

#[test]
fn p6_to_p8_any_of() -> Result<(), TableError> {
    let mut tables = Tables::new();
    let text = tables.text("x")?;
    let node = tables.string(text)?;
    let [boolean, null] = [tables.boolean_schema(None)?, tables.null_schema(None)?];
    let both = tables.any_of(None, &[boolean, null])?;
    let (answer, steps) = validate(&tables, Mode::Source, node, both);
    assert_eq!(answer.detail(), Some(Detail::Type(schema::BOOLEAN, 4)));
    assert_eq!(
        (answer.number, steps),
        (1, vec![schema::ANY_OF, schema::BOOLEAN])
    );

    let empty = tables.any_of(None, &[])?;
    assert_eq!(number(&tables, node, empty), 25);

    let pattern = tables.text("(")?;
    tables.answer_pattern(pattern, text, PatternAnswer::Invalid)?;
    let rules = StringRules {
        pattern: Some(pattern),
        ..StringRules::default()
    };
    let invalid = tables.string_schema(None, &rules)?;
    let mixed = tables.any_of(None, &[invalid, null])?;
    let (answer, _) = validate(&tables, Mode::Source, node, mixed);
    assert_eq!(answer.detail(), Some(Detail::Type(schema::NULL, 4)));
    assert_eq!(number(&tables, node, invalid), 14);
    Ok(())
}

#[test]
fn navigation_takes_the_last_entry() -> Result<(), TableError> {
    let mut tables = Tables::new();
    let text = tables.text("k")?;
    let key = tables.string(text)?;
    let later = tables.string(text)?;
    let [first, second] = [tables.null()?, tables.boolean(true)?];
    let object = tables.object(&[(key, first), (later, second)])?;
    let ask = |path: &[u32], wanted| Model.navigate(tables.raw(), object.get(), path, wanted);
    assert_eq!(ask(&[0, 0], false).record, second.get());
    assert_eq!(ask(&[0, 0], true).record, later.get());
    assert_eq!(ask(&[], true).record, object.get());
    assert_eq!(ask(&[1, 0], false).number, 40);
    let bad = ask(&[0, 0, 2, 0], false);
    assert_eq!((bad.number, bad.table, bad.record), (20, 9, 1));
    let ragged = ask(&[0], false);
    assert_eq!((ragged.number, ragged.table, ragged.record), (20, 9, NONE));
    Ok(())
}

#[test]
fn a_merge_appends_note_links_and_record() -> Result<(), TableError> {
    let mut tables = Tables::new();
    let text = tables.text("a")?;
    let [first, second] = [tables.null_schema(None)?, tables.boolean_schema(None)?];
    let base = ObjectRules {
        properties: vec![(text, first)],
        minimum: Some(3),
        ..ObjectRules::default()
    };
    let base = tables.object_schema(None, &base)?;
    let derived = ObjectRules {
        properties: vec![(text, second)],
        required: vec![text],
        bases: Some(vec![base]),
        ..ObjectRules::default()
    };
    let derived = tables.object_schema(None, &derived)?;
    let mut raw = tables.into_raw();
    let used = [0, 4, raw.links.len() as u32];
    raw.notes.resize(9 + 4, 77);
    raw.schemas.resize((4 + 3) * 16, 77);
    raw.links.resize(used[2] as usize + 8, 77);
    let answer = Model.compile(&mut raw, used, derived.get());
    assert_eq!((answer.number, answer.record), (0, 5));
    assert_eq!([answer.used_notes, answer.used_schemas], [1, 6]);
    assert_eq!(
        raw.note(0),
        [NONE, NONE, NONE, NONE, NONE, NONE, NONE, NONE, 0]
    );
    let words = raw.schema(5);
    assert_eq!(words[1], 0);
    assert_eq!(words[schema::MINIMUM], NONE);
    let merged = raw.list(words[schema::PROPERTIES], 2);
    assert_eq!(merged, [text.get(), second.get()]);
    assert!(raw.schemas[6 * 16..].iter().all(|&word| word == 0));
    assert!(raw.notes[9..].iter().all(|&word| word == 0));
    Ok(())
}
