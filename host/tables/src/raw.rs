//! The lent words themselves, in any state.

use crate::layout::{self, GROWING, NODES, NONE, NOTES, SCHEMAS, TEXTS, Table, schema};

/// The pool and the eight tables as they are lent: any words at all.
#[derive(Clone, Debug, Default, PartialEq, Eq)]
pub struct RawTables {
    /// The bytes of the texts.
    pub pool: Vec<u8>,
    /// Table 1.
    pub texts: Vec<u32>,
    /// Table 2.
    pub nodes: Vec<u32>,
    /// Table 3.
    pub notes: Vec<u32>,
    /// Table 4.
    pub schemas: Vec<u32>,
    /// Table 5.
    pub registry: Vec<u32>,
    /// Table 6.
    pub patterns: Vec<u32>,
    /// Table 7.
    pub links: Vec<u32>,
    /// Table 8.
    pub numbers: Vec<u64>,
}

impl RawTables {
    /// The words of a table from 1 to 7.
    pub fn words(&self, table: Table) -> &Vec<u32> {
        match table.number {
            1 => &self.texts,
            2 => &self.nodes,
            3 => &self.notes,
            4 => &self.schemas,
            5 => &self.registry,
            6 => &self.patterns,
            _ => &self.links,
        }
    }

    /// The words of a table from 1 to 7, to change them.
    pub fn words_mut(&mut self, table: Table) -> &mut Vec<u32> {
        match table.number {
            1 => &mut self.texts,
            2 => &mut self.nodes,
            3 => &mut self.notes,
            4 => &mut self.schemas,
            5 => &mut self.registry,
            6 => &mut self.patterns,
            _ => &mut self.links,
        }
    }

    /// Whole records in a table.
    pub fn count(&self, table: Table) -> usize {
        if table == layout::NUMBERS {
            return self.numbers.len();
        }
        self.words(table).len() / table.words
    }

    /// Whole records in the tables that compiling appends to.
    pub fn used(&self) -> [u32; 3] {
        GROWING.map(|table| self.count(table) as u32)
    }

    /// The tables with so many records of those that compiling appends to, at most.
    pub fn cut(&self, used: [u32; 3]) -> Self {
        let mut tables = self.clone();
        for (table, used) in GROWING.into_iter().zip(used) {
            let end = (used as usize).saturating_mul(table.words);
            tables.words_mut(table).truncate(end);
        }
        tables
    }

    fn record<const WIDTH: usize>(&self, table: Table, record: u32) -> [u32; WIDTH] {
        let start = (record as usize).saturating_mul(WIDTH);
        let words = self.words(table);
        words
            .get(start..start.saturating_add(WIDTH))
            .map_or([0; WIDTH], |found| found.try_into().expect("one record"))
    }

    /// A text's bytes, empty for a wrong number or a record off the pool.
    pub fn text(&self, text: u32) -> &[u8] {
        let [start, length] = self.record::<2>(TEXTS, text).map(|word| word as usize);
        self.pool.get(start..start + length).unwrap_or(&[])
    }

    /// A node's words, zeros for a wrong number.
    pub fn node(&self, node: u32) -> [u32; 4] {
        self.record(NODES, node)
    }

    /// A note's words, zeros for a wrong number.
    pub fn note(&self, note: u32) -> [u32; 9] {
        self.record(NOTES, note)
    }

    /// A schema's words, zeros for a wrong number.
    pub fn schema(&self, schema: u32) -> [u32; 16] {
        self.record(SCHEMAS, schema)
    }

    /// The links of a list, cut off at the table's end.
    pub fn list(&self, first: u32, count: u32) -> &[u32] {
        let end = self.links.len();
        let first = (first as usize).min(end);
        &self.links[first..first.saturating_add(count as usize).min(end)]
    }

    /// The schemas that a schema record holds, bases too.
    pub fn parts(&self, schema: u32) -> Vec<u32> {
        let words = self.schema(schema);
        let mut parts = match words[0] {
            schema::ANY_OF | schema::ALL_OF => self.list(words[2], words[3]).to_vec(),
            schema::ARRAY => vec![words[2]],
            schema::OBJECT => {
                let [first, count] = [words[schema::BASES], words[schema::BASES + 1]];
                let mut parts = self.list(first, count).to_vec();
                for place in [schema::PROPERTIES, schema::PATTERN_PROPERTIES] {
                    let pairs = self.pairs(words[place], words[place + 1]);
                    parts.extend(pairs.map(|(_, part)| part));
                }
                parts.extend([words[schema::ADDITIONAL], words[schema::NAMES]]);
                parts
            }
            _ => Vec::new(),
        };
        parts.retain(|&part| part != NONE);
        parts
    }

    /// A text as a string.
    pub fn string(&self, text: u32) -> String {
        String::from_utf8_lossy(self.text(text)).into_owned()
    }

    /// The pairs of links of a list, cut off at the table's end.
    pub fn pairs(
        &self,
        first: u32,
        count: u32,
    ) -> impl DoubleEndedIterator<Item = (u32, u32)> + '_ {
        self.list(first, count.saturating_mul(2))
            .chunks_exact(2)
            .map(|pair| (pair[0], pair[1]))
    }
}
