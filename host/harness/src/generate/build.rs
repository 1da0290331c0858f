//! The tables of one case while they are built.

use crate::pattern;
use crate::rng::Rng;
use quarto_yaml_tables::layout::node;
use quarto_yaml_tables::{
    Node, Note, NoteFields, PatternAnswer, RawTables, Schema, TableError, Tables, Text,
};

/// Strings that serve as keys and as values; few, so that they meet.
const STRINGS: [&str; 14] = [
    "a", "b", "c", "é", "[0]", "[1]", "", "aa", "ab", "日本", "x", "ß", "🙂", "a.b",
];

/// Patterns, three of them invalid.
const PATTERNS: [&str; 10] = [
    "^a", "[a-z]+$", "(", "[", ".", "é", "^$", "a{2}", "\\", "^.$",
];

/// Names in the registry; the last is never registered.
pub const NAMES: [&str; 4] = ["r0", "r1", "r2", "ghost"];

/// Tables under construction, with what can be used again.
pub struct Build<'r> {
    /// The tables.
    pub tables: Tables,
    /// The case's random numbers.
    pub rng: &'r mut Rng,
    /// How many of 100 object schemas have bases.
    pub bases: usize,
    /// Whether lists of bases are long and joins frequent.
    pub grouped: bool,
    /// How many of 100 keys repeat an earlier one.
    pub duplicates: usize,
    strings: Vec<Text>,
    patterns: Vec<Text>,
    names: Vec<Text>,
    nodes: Vec<Node>,
    schemas: Vec<Schema>,
    notes: Vec<Note>,
}

/// Small cases never meet a limit.
pub fn fits<T>(result: Result<T, TableError>) -> T {
    result.expect("a generated case stays within the limits")
}

impl<'r> Build<'r> {
    /// Some strings, patterns and names, a few of them under two numbers.
    pub fn new(rng: &'r mut Rng) -> Self {
        let mut build = Self {
            tables: Tables::new(),
            rng,
            bases: 0,
            grouped: false,
            duplicates: 3,
            strings: Vec::new(),
            patterns: Vec::new(),
            names: Vec::new(),
            nodes: Vec::new(),
            schemas: Vec::new(),
            notes: Vec::new(),
        };
        build.strings = build.texts(&STRINGS, 6);
        build.patterns = build.texts(&PATTERNS, 3);
        build.names = build.texts(&NAMES, 4);
        build
    }

    fn texts(&mut self, from: &[&str], count: usize) -> Vec<Text> {
        let mut order: Vec<&str> = from.to_vec();
        self.rng.shuffle(&mut order);
        let mut texts = Vec::new();
        for text in order.iter().take(count) {
            let times = if self.rng.percent(30) { 2 } else { 1 };
            for _ in 0..times {
                texts.push(fits(self.tables.text_again(text)));
            }
        }
        texts
    }

    /// A string's text.
    pub fn string_text(&mut self) -> Text {
        self.rng.pick(&self.strings)
    }

    /// A pattern's text.
    pub fn pattern_text(&mut self) -> Text {
        self.rng.pick(&self.patterns)
    }

    /// A registry name's text.
    pub fn name_text(&mut self) -> Text {
        self.rng.pick(&self.names)
    }

    /// A text with the same bytes, perhaps under another number.
    pub fn same_text(&mut self, text: Text) -> Text {
        let bytes = self.tables.bytes(text).to_vec();
        let all = self.strings.iter().chain(&self.patterns).chain(&self.names);
        let same: Vec<Text> = all
            .copied()
            .filter(|&other| self.tables.bytes(other) == bytes)
            .collect();
        self.rng.pick_some(&same).unwrap_or(text)
    }

    /// The text that stands under this number.
    pub fn text_of(&self, number: u32) -> Text {
        self.tables.text_at(number).expect("a text that stands")
    }

    /// The node that stands under this number.
    pub fn node_of(&self, number: u32) -> Node {
        self.tables.node_at(number).expect("a node that stands")
    }

    /// Notes a node for use again.
    pub fn keep_node(&mut self, node: Result<Node, TableError>) -> Node {
        let node = fits(node);
        self.nodes.push(node);
        node
    }

    /// A node that stands, or the given.
    pub fn some_node(&mut self, other: Node) -> Node {
        self.rng.pick_some(&self.nodes).unwrap_or(other)
    }

    /// Notes a schema for use again.
    pub fn keep_schema(&mut self, schema: Result<Schema, TableError>) -> Schema {
        let schema = fits(schema);
        self.schemas.push(schema);
        schema
    }

    /// A schema that stands, or the given.
    pub fn some_schema(&mut self, other: Schema) -> Schema {
        self.rng.pick_some(&self.schemas).unwrap_or(other)
    }

    /// A schema that stands.
    pub fn any_standing_schema(&mut self) -> Option<Schema> {
        self.rng.pick_some(&self.schemas)
    }

    /// The part of 100 that is usual, or the one where lists of bases are long.
    pub fn part(&self, usual: usize, grouped: usize) -> usize {
        if self.grouped { grouped } else { usual }
    }

    /// Registers the root, and others, under names: that makes circles.
    pub fn register_some(&mut self, root: Schema) {
        let most = self.part(4, 2);
        for _ in 0..self.rng.below(most) {
            let schema = if self.rng.percent(30) {
                root
            } else {
                self.some_schema(root)
            };
            self.register(schema);
        }
    }

    /// Registers a schema under one of the names and gives a text of that name.
    pub fn register(&mut self, schema: Schema) -> Text {
        // a name of its own: under few names most references would be circles
        if self.grouped && self.rng.percent(90) {
            let name = format!("g{}", self.tables.raw().texts.len());
            let name = fits(self.tables.text(&name));
            fits(self.tables.register(name, schema));
            return name;
        }
        let name = self.name_text();
        if self.tables.bytes(name) == NAMES[3].as_bytes() {
            return name;
        }
        fits(self.tables.register(name, schema));
        self.same_text(name)
    }

    /// Whether a reference whose target may be unknown is eager; rarely, where much is to compile.
    pub fn eager(&mut self, part: usize) -> bool {
        let part = self.part(part, part / 10);
        self.rng.percent(part)
    }

    /// A note, often none.
    pub fn some_note(&mut self) -> Option<Note> {
        match self.rng.below(10) {
            0..=4 => None,
            5 | 6 => self.rng.pick_some(&self.notes),
            _ => Some(self.new_note()),
        }
    }

    fn new_note(&mut self) -> Note {
        let mut word = |part: usize| {
            let rng = &mut *self.rng;
            rng.percent(part).then(|| match rng.below(12) {
                0 => u32::MAX - 1,
                _ => rng.below(40) as u32,
            })
        };
        let mut fields = NoteFields {
            id: word(25),
            description: word(35),
            documentation: word(25),
            error_message: word(60),
            hidden: word(25).map(|word| word % 2),
            completions: word(20),
            additional_completions: word(20),
            tags: word(40),
            case_detection: false,
        };
        fields.case_detection = fields.tags.is_some() && self.rng.percent(50);
        let note = fits(self.tables.note(&fields));
        self.notes.push(note);
        note
    }

    /// A note that says case-detection true.
    pub fn case_note(&mut self) -> Note {
        let fields = NoteFields {
            tags: Some(self.rng.below(9) as u32),
            case_detection: true,
            ..NoteFields::default()
        };
        fits(self.tables.note(&fields))
    }

    /// The finished tables, with table 6 answered by the regex engine.
    pub fn finish(mut self) -> RawTables {
        self.answer_patterns();
        self.tables.into_raw()
    }

    fn answer_patterns(&mut self) {
        let raw = self.tables.raw();
        let mut subjects: Vec<String> = raw
            .nodes
            .chunks_exact(4)
            .filter(|words| words[0] == node::STRING)
            .map(|words| raw.string(words[1]))
            .collect();
        subjects.sort();
        subjects.dedup();
        let mut pairs = Vec::new();
        for pattern in self.patterns.clone() {
            let pattern_bytes = self.tables.raw().string(pattern.get());
            for subject in &subjects {
                pairs.push((pattern, pattern_bytes.clone(), subject.clone()));
            }
        }
        self.rng.shuffle(&mut pairs);
        if self.rng.percent(5) {
            pairs.truncate(pairs.len() / 2);
        }
        for (pattern, pattern_bytes, subject) in pairs {
            let Some(text) = self.string_of(&subject) else {
                continue;
            };
            let answer = pattern::answer(&pattern_bytes, &subject);
            fits(self.tables.answer_pattern(pattern, text, answer));
        }
        self.mislead();
    }

    fn string_of(&mut self, subject: &str) -> Option<Text> {
        let same: Vec<Text> = self
            .strings
            .iter()
            .copied()
            .filter(|&text| self.tables.bytes(text) == subject.as_bytes())
            .collect();
        self.rng.pick_some(&same)
    }

    /// Adds later, wrong answers to pairs that have one: only the first counts.
    fn mislead(&mut self) {
        let entries = self.tables.raw().patterns.chunks_exact(3);
        let answered: Vec<(Text, Text)> = entries
            .map(|words| (self.text_of(words[0]), self.text_of(words[1])))
            .collect();
        for _ in 0..self.rng.below(3) {
            let Some((pattern, subject)) = self.rng.pick_some(&answered) else {
                return;
            };
            let wrong = self.rng.pick(&[
                PatternAnswer::NoMatch,
                PatternAnswer::Match,
                PatternAnswer::Invalid,
            ]);
            fits(self.tables.answer_pattern(pattern, subject, wrong));
        }
    }
}
