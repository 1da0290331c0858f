//! Tables built by a host: what they hold, and what they refuse.

use quarto_yaml_tables::layout::{self, NONE, node, schema};
use quarto_yaml_tables::{
    Answer, ArrayRules, Detail, NoteFields, NumberRules, ObjectRules, PatternAnswer, StringRules,
    TableError, Tables,
};

#[test]
fn texts_are_parts_of_the_pool() -> Result<(), TableError> {
    let mut tables = Tables::new();
    let first = tables.text("é")?;
    let empty = tables.text("")?;
    let again = tables.text_again("é")?;
    assert_eq!(tables.bytes(first), "é".as_bytes());
    assert_eq!(tables.bytes(empty), b"");
    assert_eq!(tables.bytes(again), "é".as_bytes());
    assert_eq!(tables.raw().texts, [0, 2, 2, 0, 2, 2]);
    assert_ne!(first, again);
    assert_eq!(tables.raw().text(NONE), b"");
    Ok(())
}

#[test]
fn a_text_that_stands_already_keeps_its_number() -> Result<(), TableError> {
    let mut tables = Tables::new();
    let first = tables.text_again("a")?;
    let second = tables.text_again("a")?;
    let other = tables.text("b")?;
    assert_eq!([tables.text("a")?, tables.text("b")?], [first, other]);
    assert_ne!(first, second);
    assert_eq!(tables.raw().pool, b"aab");
    assert_eq!(tables.raw().texts, [0, 1, 1, 1, 2, 1]);
    Ok(())
}

#[test]
fn nodes_stand_after_their_children() -> Result<(), TableError> {
    let mut tables = Tables::new();
    let text = tables.text("k")?;
    let key = tables.string(text)?;
    let value = tables.integer(-1)?;
    let array = tables.array(&[key, value, value])?;
    let object = tables.object(&[(key, array), (value, value)])?;
    assert_eq!(tables.raw().node(value.get()), [node::INTEGER, 0, 0, 0]);
    assert_eq!(tables.raw().numbers, [u64::MAX]);
    assert_eq!(tables.raw().node(array.get()), [node::ARRAY, 0, 3, 0]);
    assert_eq!(tables.raw().node(object.get()), [node::OBJECT, 3, 2, 0]);
    assert_eq!(tables.raw().links, [0, 1, 1, 0, 2, 1, 1]);
    Ok(())
}

#[test]
fn reals_are_read_twice() -> Result<(), TableError> {
    let mut tables = Tables::new();
    for text in ["1.5", ".inf", "inf", "abc"] {
        tables.real(text)?;
    }
    let raw = tables.raw();
    let read: Vec<[u32; 2]> = (0..4).map(|n| [raw.node(n)[1], raw.node(n)[2]]).collect();
    assert_eq!(read, [[0, 1], [2, NONE], [3, 4], [NONE, NONE]]);
    assert_eq!(f64::from_bits(raw.numbers[2]), f64::INFINITY);
    Ok(())
}

#[test]
fn schemas_have_zeros_where_their_kind_says_nothing() -> Result<(), TableError> {
    let mut tables = Tables::new();
    let fields = NoteFields {
        error_message: Some(7),
        ..NoteFields::default()
    };
    let note = tables.note(&fields)?;
    let text = tables.text("a")?;
    let number = tables.number_schema(
        Some(note),
        &NumberRules {
            maximum: Some(127.0),
            ..NumberRules::default()
        },
    )?;
    let array = tables.array_schema(
        None,
        &ArrayRules {
            items: Some(number),
            unique: Some(true),
            ..ArrayRules::default()
        },
    )?;
    let object = tables.object_schema(
        None,
        &ObjectRules {
            properties: vec![(text, array)],
            required: vec![text, text],
            bases: Some(vec![]),
            ..ObjectRules::default()
        },
    )?;
    let raw = tables.raw();
    assert_eq!(
        raw.note(0),
        [NONE, NONE, NONE, 7, NONE, NONE, NONE, NONE, 0]
    );
    assert_eq!(
        raw.schema(number.get())[..8],
        [2, 0, NONE, 0, NONE, NONE, NONE, 0]
    );
    assert_eq!(raw.schema(array.get())[..7], [9, NONE, 0, NONE, NONE, 1, 0]);
    let words = raw.schema(object.get());
    assert_eq!(words[schema::PROPERTIES..schema::ADDITIONAL], [0, 1, 2, 0]);
    assert_eq!(words[schema::REQUIRED..schema::MINIMUM], [2, 2]);
    assert_eq!(words[schema::BASES..], [4, 0]);
    Ok(())
}

#[test]
fn what_is_not_there_is_refused() -> Result<(), TableError> {
    let mut small = Tables::new();
    let mut large = Tables::new();
    let text = large.text("a")?;
    let node = large.null()?;
    let schema = large.true_schema()?;
    let unknown = |table| TableError::Unknown { table, record: 0 };
    assert_eq!(small.string(text), Err(unknown(1)));
    assert_eq!(small.array(&[node]), Err(unknown(2)));
    assert_eq!(small.any_of(None, &[schema]), Err(unknown(4)));
    assert_eq!(small.register(text, schema), Err(unknown(1)));
    let answer = small.answer_pattern(text, text, PatternAnswer::Match);
    assert_eq!(answer, Err(unknown(1)));
    assert_eq!(small.raw(), Tables::new().raw());
    Ok(())
}

#[test]
fn keys_of_a_list_differ_in_bytes() -> Result<(), TableError> {
    let mut tables = Tables::new();
    let first = tables.text("a")?;
    let second = tables.text_again("a")?;
    let schema = tables.true_schema()?;
    let rules = ObjectRules {
        properties: vec![(first, schema), (second, schema)],
        ..ObjectRules::default()
    };
    let before = tables.raw().clone();
    assert_eq!(
        tables.object_schema(None, &rules),
        Err(TableError::SameKey { text: 1 })
    );
    assert_eq!(*tables.raw(), before);
    Ok(())
}

#[test]
fn the_word_for_absent_is_no_value() -> Result<(), TableError> {
    let mut tables = Tables::new();
    let rules = StringRules {
        minimum: Some(NONE),
        ..StringRules::default()
    };
    assert_eq!(
        tables.string_schema(None, &rules),
        Err(TableError::Reserved)
    );
    let fields = NoteFields {
        case_detection: true,
        ..NoteFields::default()
    };
    assert_eq!(
        tables.note(&fields),
        Err(TableError::CaseDetectionWithoutTags)
    );
    Ok(())
}

#[test]
fn limits_are_kept() -> Result<(), TableError> {
    let mut tables = Tables::new();
    let long = "x".repeat(layout::POOL_BYTES);
    let whole = tables.text(&long)?;
    assert_eq!(tables.text("y"), Err(TableError::PoolFull));
    for _ in 1..layout::TEXTS.most {
        tables.text_again("")?;
    }
    assert_eq!(tables.text_again(""), Err(TableError::TooMany { table: 1 }));
    assert_eq!(tables.text(&long), Ok(whole));
    let node = tables.null()?;
    tables.array(&vec![node; layout::LINKS.most])?;
    assert_eq!(tables.array(&[node]), Err(TableError::TooMany { table: 7 }));
    for _ in 0..layout::NUMBERS.most - 1 {
        tables.real("x").map(drop).or_else(|_| Ok(()))?;
        tables.integer(1).map(drop).or_else(|_| Ok(()))?;
    }
    let before = tables.raw().clone();
    assert_eq!(tables.real("1.5"), Err(TableError::TooMany { table: 2 }));
    assert_eq!(*tables.raw(), before);
    Ok(())
}

#[test]
fn a_record_without_room_takes_its_links_back() -> Result<(), TableError> {
    let mut tables = Tables::new();
    let schema = tables.true_schema()?;
    for _ in 1..layout::SCHEMAS.most {
        tables.true_schema()?;
    }
    assert_eq!(
        tables.all_of(None, &[schema]),
        Err(TableError::TooMany { table: 4 })
    );
    assert!(tables.raw().links.is_empty());
    Ok(())
}

#[test]
fn an_answer_is_laid_out_as_c_has_it() {
    assert_eq!(std::mem::size_of::<Answer>(), 72);
    assert_eq!(std::mem::offset_of!(Answer, detail), 24);
    assert_eq!(std::mem::offset_of!(Answer, used_links), 52);
    assert_eq!(std::mem::offset_of!(Answer, value), 56);
    assert_eq!(std::mem::offset_of!(Answer, bound), 64);
}

#[test]
fn details_come_back() {
    for detail in [
        Detail::Empty,
        Detail::Type(1, 4),
        Detail::Property(3, NONE),
        Detail::Key(2),
        Detail::Count(3, 2),
        Detail::Multiple(10.0, 4.0),
        Detail::Pattern(1, 2),
        Detail::Reference(5),
        Detail::BelowMinimum(1.0, 2.0),
        Detail::AboveMaximum(128.0, 127.0),
        Detail::AtOrBelowExclusiveMinimum(0.0, 0.0),
        Detail::AtOrAboveExclusiveMaximum(1.0, 1.0),
    ] {
        let answer = Answer::of(1).with_detail(detail);
        assert_eq!(answer.detail(), Some(detail));
        assert_eq!(Answer::from_words(&answer.words()), answer);
    }
}
