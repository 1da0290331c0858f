//! Tables that are well-formed by the way they are built.

use crate::layout::{self, NONE, Table};
use crate::{Answer, Checker, Node, RawTables, Schema, TableError, Text};
use std::collections::{HashMap, HashSet};

/// The eight tables, filled record by record.
///
/// Each method adds one record and gives its number, or says why it cannot and
/// leaves the tables as they are. What stands here passes the checker's own
/// check: children stand before their parents, texts are UTF-8, keys of a list
/// differ, and no limit is passed.
#[derive(Clone, Debug, Default)]
pub struct Tables {
    pub(crate) raw: RawTables,
    /// The first number of each text.
    by_text: HashMap<String, Text>,
}

/// What the host's regex engine says of a pattern and a subject.
#[derive(Clone, Copy, Debug, PartialEq, Eq)]
pub enum PatternAnswer {
    /// The subject does not match.
    NoMatch,
    /// The subject matches.
    Match,
    /// The pattern is invalid.
    Invalid,
}

impl PatternAnswer {
    /// The answer's number in table 6.
    pub fn number(self) -> u32 {
        match self {
            Self::NoMatch => 0,
            Self::Match => 1,
            Self::Invalid => 2,
        }
    }
}

impl Tables {
    /// Empty tables.
    pub fn new() -> Self {
        Self::default()
    }

    /// The words, to be lent.
    pub fn raw(&self) -> &RawTables {
        &self.raw
    }

    /// The words, taken over.
    pub fn into_raw(self) -> RawTables {
        self.raw
    }

    /// A text's number; the text is added where it does not stand yet.
    ///
    /// So the limits count different texts, and equal texts are equal by number.
    pub fn text(&mut self, text: &str) -> Result<Text, TableError> {
        match self.by_text.get(text) {
            Some(&number) => Ok(number),
            None => self.text_again(text),
        }
    }

    /// Adds a text under a number of its own, even where it stands already.
    pub fn text_again(&mut self, text: &str) -> Result<Text, TableError> {
        let start = self.raw.pool.len();
        if start + text.len() > layout::POOL_BYTES {
            return Err(TableError::PoolFull);
        }
        let record = self.append(layout::TEXTS, &[start as u32, text.len() as u32])?;
        self.raw.pool.extend_from_slice(text.as_bytes());
        let number = Text(record);
        self.by_text.entry(text.to_owned()).or_insert(number);
        Ok(number)
    }

    /// A text's bytes.
    pub fn bytes(&self, text: Text) -> &[u8] {
        self.raw.text(text.0)
    }

    /// The text with this number, where there is one.
    pub fn text_at(&self, number: u32) -> Option<Text> {
        self.known(layout::TEXTS, number).ok().map(Text)
    }

    /// The node with this number, where there is one.
    pub fn node_at(&self, number: u32) -> Option<Node> {
        self.known(layout::NODES, number).ok().map(Node)
    }

    /// The schema with this number, where there is one.
    pub fn schema_at(&self, number: u32) -> Option<Schema> {
        self.known(layout::SCHEMAS, number).ok().map(Schema)
    }

    /// Names a schema; the last entry of a name is the one that counts.
    pub fn register(&mut self, name: Text, schema: Schema) -> Result<(), TableError> {
        let words = [self.known_text(name)?, self.known_schema(schema)?];
        self.append(layout::REGISTRY, &words).map(drop)
    }

    /// Says whether a subject matches a pattern; the first answer of a pair is the one that counts.
    pub fn answer_pattern(
        &mut self,
        pattern: Text,
        subject: Text,
        answer: PatternAnswer,
    ) -> Result<(), TableError> {
        let [pattern, subject] = [self.known_text(pattern)?, self.known_text(subject)?];
        let words = [pattern, subject, answer.number()];
        self.append(layout::PATTERNS, &words).map(drop)
    }

    /// Compiles a schema with all the room that the limits leave, and keeps what was appended.
    ///
    /// A refusal is handed back and keeps nothing; the tables are then as before.
    pub fn compile(&mut self, checker: &dyn Checker, schema: Schema) -> Result<Schema, Answer> {
        let used = self.raw.used();
        for table in layout::GROWING {
            let room = table.words * table.most;
            self.raw.words_mut(table).resize(room, 0);
        }
        let answer = checker.compile(&mut self.raw, used, schema.0);
        self.raw = self.raw.cut(match answer.number {
            0 => answer.used(),
            _ => used,
        });
        match answer.number {
            0 => Ok(Schema(answer.record)),
            _ => Err(answer),
        }
    }

    /// Adds one record.
    pub(crate) fn append(&mut self, table: Table, words: &[u32]) -> Result<u32, TableError> {
        let record = self.raw.count(table);
        if record >= table.most {
            return Err(TableError::TooMany {
                table: table.number,
            });
        }
        self.raw.words_mut(table).extend_from_slice(words);
        Ok(record as u32)
    }

    /// Adds a list's links, where a record of this table can follow, and gives its first place and count.
    pub(crate) fn list(&mut self, links: &[u32], entries: usize) -> Result<[u32; 2], TableError> {
        let first = self.raw.links.len();
        if first + links.len() > layout::LINKS.most {
            return Err(TableError::TooMany {
                table: layout::LINKS.number,
            });
        }
        self.raw.links.extend_from_slice(links);
        Ok([first as u32, entries as u32])
    }

    /// Adds a record that has lists; takes its links back where there is no room for it.
    pub(crate) fn append_with_lists(
        &mut self,
        table: Table,
        build: impl FnOnce(&mut Self) -> Result<Vec<u32>, TableError>,
    ) -> Result<u32, TableError> {
        let links = self.raw.links.len();
        let result = build(self).and_then(|words| self.append(table, &words));
        if result.is_err() {
            self.raw.links.truncate(links);
        }
        result
    }

    /// Adds a number and gives its place.
    pub(crate) fn number(&mut self, bits: u64) -> Result<u32, TableError> {
        let place = self.raw.numbers.len();
        if place >= layout::NUMBERS.most {
            return Err(TableError::TooMany {
                table: layout::NUMBERS.number,
            });
        }
        self.raw.numbers.push(bits);
        Ok(place as u32)
    }

    fn known(&self, table: Table, record: u32) -> Result<u32, TableError> {
        if (record as usize) < self.raw.count(table) {
            return Ok(record);
        }
        Err(TableError::Unknown {
            table: table.number,
            record,
        })
    }

    pub(crate) fn known_text(&self, text: Text) -> Result<u32, TableError> {
        self.known(layout::TEXTS, text.0)
    }

    pub(crate) fn known_node(&self, node: Node) -> Result<u32, TableError> {
        self.known(layout::NODES, node.0)
    }

    pub(crate) fn known_schema(&self, schema: Schema) -> Result<u32, TableError> {
        self.known(layout::SCHEMAS, schema.0)
    }

    pub(crate) fn known_note(&self, note: Option<crate::Note>) -> Result<u32, TableError> {
        note.map_or(Ok(NONE), |note| self.known(layout::NOTES, note.0))
    }

    /// The links of a list of keys and schemas whose keys differ in bytes.
    pub(crate) fn keyed(&self, pairs: &[(Text, Schema)]) -> Result<Vec<u32>, TableError> {
        let mut seen = HashSet::new();
        let mut links = Vec::with_capacity(2 * pairs.len());
        for &(key, schema) in pairs {
            links.extend([self.known_text(key)?, self.known_schema(schema)?]);
            if !seen.insert(self.raw.text(key.0)) {
                return Err(TableError::SameKey { text: key.0 });
            }
        }
        Ok(links)
    }
}

/// A word that may be absent.
pub(crate) fn optional(value: Option<u32>) -> Result<u32, TableError> {
    match value {
        Some(NONE) => Err(TableError::Reserved),
        Some(word) => Ok(word),
        None => Ok(NONE),
    }
}
