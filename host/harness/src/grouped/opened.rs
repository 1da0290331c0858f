//! What a schema record stands for, nested joins opened.
//!
//! In additional an allOf, in names an anyOf, without note is replaced by its
//! parts, again and again; the bases of uncompiled objects are left out. Equal
//! trees get equal numbers, so that shared children cost nothing.

use quarto_yaml_tables::RawTables;
use quarto_yaml_tables::layout::{NONE, SCHEMAS, note, schema};
use std::collections::HashMap;

/// A tree's number: equal in one [`Trees`] where the trees are equal.
pub type Tree = u32;

/// A note's words, or none.
type Note = Option<[u32; 9]>;

/// One record with trees for its children.
#[derive(Clone, Debug, PartialEq, Eq, Hash)]
enum Shape {
    /// Kinds 0 to 6: the words after the note; an enum's are its listed nodes.
    Plain(u32, Note, Vec<u32>),
    /// An anyOf or an allOf.
    Parts(u32, Note, Vec<Tree>),
    /// An array's words, and its items.
    Array(Note, [u32; 3], Option<Tree>),
    /// An object.
    Object(Object),
    /// A ref's text, and whether it is eager.
    Ref(Note, u32, bool),
}

#[derive(Clone, Debug, PartialEq, Eq, Hash)]
struct Object {
    note: Note,
    properties: Vec<(u32, Tree)>,
    patterns: Vec<(u32, Tree)>,
    additional: Option<Vec<Tree>>,
    required: Vec<u32>,
    minimum: u32,
    maximum: u32,
    closed: bool,
    names: Names,
    naming: u32,
}

/// A case-detecting string is kept apart from an anyOf that holds only it.
#[derive(Clone, Debug, PartialEq, Eq, Hash)]
enum Names {
    None,
    Detects(Tree),
    Named(Vec<Tree>),
}

/// Whether joins are opened; left shut, a comparison shows what opening does.
#[derive(Clone, Copy, Debug, PartialEq, Eq)]
pub enum Joins {
    /// As the scope document has it.
    Opened,
    /// Left as they stand.
    Shut,
}

/// Trees of several tables, numbered together.
#[derive(Debug, Default)]
pub struct Trees {
    numbers: HashMap<Shape, Tree>,
}

/// A record by itself, as a part of additional, and as a part of names.
#[derive(Clone, Debug)]
struct View {
    whole: Tree,
    alls: Vec<Tree>,
    anys: Vec<Tree>,
}

/// Parts of a join after which its tree is too large to be looked at.
const MOST_PARTS: usize = 50_000;

impl Trees {
    /// The trees of all records of well-formed tables; none where a join opens to too many parts.
    pub fn of(&mut self, tables: &RawTables, joins: Joins) -> Option<Vec<Tree>> {
        let mut views: Vec<View> = Vec::new();
        for record in 0..tables.count(SCHEMAS) as u32 {
            let view = self.view(tables, &views, record, joins);
            if view.alls.len().max(view.anys.len()) > MOST_PARTS {
                return None;
            }
            views.push(view);
        }
        Some(views.into_iter().map(|view| view.whole).collect())
    }

    fn view(&mut self, tables: &RawTables, views: &[View], record: u32, joins: Joins) -> View {
        let shape = shape(tables, views, &tables.schema(record));
        let next = self.numbers.len() as Tree;
        let whole = *self.numbers.entry(shape).or_insert(next);
        let words = tables.schema(record);
        let mut view = View {
            whole,
            alls: vec![whole],
            anys: vec![whole],
        };
        if words[1] == NONE && joins == Joins::Opened {
            let parts = || tables.list(words[2], words[3]).iter();
            let views = parts().map(|&part| &views[part as usize]);
            match words[0] {
                schema::ALL_OF => view.alls = views.flat_map(|part| part.alls.clone()).collect(),
                schema::ANY_OF => view.anys = views.flat_map(|part| part.anys.clone()).collect(),
                _ => {}
            }
        }
        view
    }
}

fn shape(tables: &RawTables, views: &[View], words: &[u32; 16]) -> Shape {
    let note = note_of(tables, words[1]);
    let whole = |part: u32| views[part as usize].whole;
    let listed = tables.list(words[2], words[3]);
    match words[0] {
        schema::ENUM => Shape::Plain(schema::ENUM, note, listed.to_vec()),
        kind @ (schema::ANY_OF | schema::ALL_OF) => {
            Shape::Parts(kind, note, listed.iter().map(|&part| whole(part)).collect())
        }
        schema::ARRAY => {
            let items = (words[2] != NONE).then(|| whole(words[2]));
            Shape::Array(note, [words[3], words[4], words[5]], items)
        }
        schema::OBJECT => Shape::Object(object(tables, views, words)),
        schema::REF => Shape::Ref(note, words[2], words[3] == 1),
        kind => Shape::Plain(kind, note, words[2..].to_vec()),
    }
}

fn object(tables: &RawTables, views: &[View], words: &[u32; 16]) -> Object {
    let pairs = |place: usize| {
        tables
            .pairs(words[place], words[place + 1])
            .map(|(key, part)| (key, views[part as usize].whole))
            .collect()
    };
    let additional = words[schema::ADDITIONAL];
    let names = words[schema::NAMES];
    Object {
        note: note_of(tables, words[1]),
        properties: pairs(schema::PROPERTIES),
        patterns: pairs(schema::PATTERN_PROPERTIES),
        additional: (additional != NONE).then(|| views[additional as usize].alls.clone()),
        required: tables
            .list(words[schema::REQUIRED], words[schema::REQUIRED + 1])
            .to_vec(),
        minimum: words[schema::MINIMUM],
        maximum: words[schema::MAXIMUM],
        closed: words[schema::CLOSED] == 1,
        names: match names {
            NONE => Names::None,
            names if detects(tables, names) => Names::Detects(views[names as usize].whole),
            names => Names::Named(views[names as usize].anys.clone()),
        },
        naming: words[schema::NAMING],
    }
}

fn note_of(tables: &RawTables, number: u32) -> Note {
    (number != NONE).then(|| tables.note(number))
}

/// Whether this record is a string schema with case-detection.
fn detects(tables: &RawTables, number: u32) -> bool {
    let [kind, annotation, ..] = tables.schema(number);
    kind == schema::STRING
        && annotation != NONE
        && tables.note(annotation)[note::CASE_DETECTION] == 1
}
