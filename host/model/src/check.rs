//! The tables' own rules: answer 20.

use quarto_yaml_tables::layout::{self, NONE, Table, node, note, schema};
use quarto_yaml_tables::{Answer, RawTables};
use std::collections::HashSet;

/// What answer 20 names: a table, and its first bad record or NONE for a size.
#[derive(Clone, Copy, Debug, PartialEq, Eq)]
pub struct Bad {
    /// The table's number.
    pub table: u32,
    /// The record, or NONE.
    pub record: u32,
}

impl Bad {
    /// Answer 20 with this table and record.
    pub fn answer(self) -> Answer {
        Answer {
            table: self.table,
            record: self.record,
            ..Answer::of(20)
        }
    }
}

/// How many records each table holds.
#[derive(Clone, Copy, Debug, PartialEq, Eq)]
pub struct Counts {
    /// Records of table 1.
    pub texts: u32,
    /// Records of table 2.
    pub nodes: u32,
    /// Records of table 3.
    pub notes: u32,
    /// Records of table 4.
    pub schemas: u32,
    /// Records of table 5.
    pub registry: u32,
    /// Records of table 6.
    pub patterns: u32,
    /// Records of table 7.
    pub links: u32,
    /// Records of table 8.
    pub numbers: u32,
}

/// Sizes of tables 1 to 8, then records of tables 1 to 6.
pub fn check(tables: &RawTables) -> Result<Counts, Bad> {
    check_sized(tables, |table| whole(tables, table))
}

/// The same, where the sizes of tables 3, 4 and 7 are the used counts.
pub fn check_used(tables: &RawTables, used: [u32; 3]) -> Result<Counts, Bad> {
    check_sized(tables, |table| match table {
        layout::NOTES => within(tables, table, used[0]),
        layout::SCHEMAS => within(tables, table, used[1]),
        layout::LINKS => within(tables, table, used[2]),
        _ => whole(tables, table),
    })
}

fn check_sized(tables: &RawTables, size: impl Fn(Table) -> Option<u32>) -> Result<Counts, Bad> {
    let sized = |table: Table| {
        size(table).ok_or(Bad {
            table: table.number,
            record: NONE,
        })
    };
    let texts = sized(layout::TEXTS)?;
    if tables.pool.len() > layout::POOL_BYTES {
        return Err(Bad {
            table: layout::TEXTS.number,
            record: NONE,
        });
    }
    let counts = Counts {
        texts,
        nodes: sized(layout::NODES)?,
        notes: sized(layout::NOTES)?,
        schemas: sized(layout::SCHEMAS)?,
        registry: sized(layout::REGISTRY)?,
        patterns: sized(layout::PATTERNS)?,
        links: sized(layout::LINKS)?,
        numbers: sized(layout::NUMBERS)?,
    };
    Records { tables, counts }.check()?;
    Ok(counts)
}

/// The records of a whole table: not ragged, not too long.
fn whole(tables: &RawTables, table: Table) -> Option<u32> {
    if table == layout::NUMBERS {
        let count = tables.numbers.len();
        return (count <= table.most).then_some(count as u32);
    }
    let words = tables.words(table).len();
    let fits = words % table.words == 0 && words / table.words <= table.most;
    fits.then_some((words / table.words) as u32)
}

/// A used count: at most the limit and the whole records lent.
fn within(tables: &RawTables, table: Table, used: u32) -> Option<u32> {
    let lent = tables.words(table).len() / table.words;
    ((used as usize) <= table.most.min(lent)).then_some(used)
}

struct Records<'a> {
    tables: &'a RawTables,
    counts: Counts,
}

impl Records<'_> {
    fn check(&self) -> Result<(), Bad> {
        let counts = self.counts;
        self.each(layout::TEXTS, counts.texts, |n| self.text_good(n))?;
        self.each(layout::NODES, counts.nodes, |n| self.node_good(n))?;
        self.each(layout::NOTES, counts.notes, |n| self.note_good(n))?;
        self.each(layout::SCHEMAS, counts.schemas, |n| self.schema_good(n))?;
        self.each(layout::REGISTRY, counts.registry, |n| self.entry_good(n))?;
        self.each(layout::PATTERNS, counts.patterns, |n| self.answer_good(n))
    }

    fn each(&self, table: Table, count: u32, good: impl Fn(u32) -> bool) -> Result<(), Bad> {
        match (0..count).find(|&record| !good(record)) {
            Some(record) => Err(Bad {
                table: table.number,
                record,
            }),
            None => Ok(()),
        }
    }

    fn words(&self, table: Table, record: u32) -> &[u32] {
        let start = record as usize * table.words;
        &self.tables.words(table)[start..start + table.words]
    }

    fn text_good(&self, text: u32) -> bool {
        let words = self.words(layout::TEXTS, text);
        let end = u64::from(words[0]) + u64::from(words[1]);
        end <= self.tables.pool.len() as u64 && std::str::from_utf8(self.tables.text(text)).is_ok()
    }

    fn node_good(&self, number: u32) -> bool {
        let [kind, a, b, c] = self.tables.node(number);
        let before = |links: &[u32]| links.iter().all(|&child| child < number);
        match kind {
            node::NULL | node::ALIAS | node::BAD_VALUE => [a, b, c] == [0, 0, 0],
            node::BOOLEAN => a <= 1 && [b, c] == [0, 0],
            node::INTEGER => self.number_there(a) && [b, c] == [0, 0],
            node::REAL => self.number_or_none(a) && self.number_or_none(b) && c == 0,
            node::STRING => self.text_there(a) && [b, c] == [0, 0],
            node::ARRAY => c == 0 && self.list(a, b, 1).is_some_and(before),
            node::OBJECT => c == 0 && self.list(a, b, 2).is_some_and(before),
            _ => false,
        }
    }

    fn note_good(&self, number: u32) -> bool {
        let words = self.tables.note(number);
        let flag = words[note::CASE_DETECTION];
        flag == 0 || flag == 1 && words[note::TAGS] != NONE
    }

    fn schema_good(&self, number: u32) -> bool {
        let words = self.tables.schema(number);
        let note_good = words[1] == NONE || words[1] < self.counts.notes;
        note_good && self.kind_good(number, &words)
    }

    fn kind_good(&self, number: u32, words: &[u32; 16]) -> bool {
        let zero_from = |place: usize| words[place..].iter().all(|&word| word == 0);
        let child = |word: u32| word == NONE || word < number;
        let children = |links: &[u32]| links.iter().all(|&part| part < number);
        match words[0] {
            schema::TRUE => words[1] == NONE && zero_from(2),
            schema::BOOLEAN | schema::NULL | schema::ANY => zero_from(2),
            schema::NUMBER => {
                words[2..7].iter().all(|&word| self.number_or_none(word)) && zero_from(7)
            }
            schema::STRING => (words[4] == NONE || self.text_there(words[4])) && zero_from(5),
            schema::ENUM => {
                let nodes = |links: &[u32]| links.iter().all(|&n| n < self.counts.nodes);
                self.list(words[2], words[3], 1).is_some_and(nodes) && zero_from(4)
            }
            schema::ANY_OF | schema::ALL_OF => {
                self.list(words[2], words[3], 1).is_some_and(children) && zero_from(4)
            }
            schema::ARRAY => {
                let unique = words[5] <= 1 || words[5] == NONE;
                child(words[2]) && unique && zero_from(6)
            }
            schema::OBJECT => self.object_good(number, words),
            schema::REF => self.text_there(words[2]) && words[3] <= 1 && zero_from(4),
            _ => false,
        }
    }

    fn object_good(&self, number: u32, words: &[u32; 16]) -> bool {
        let child = |word: u32| word == NONE || word < number;
        let texts = |links: &[u32]| links.iter().all(|&text| self.text_there(text));
        let parts = |links: &[u32]| links.iter().all(|&part| part < number);
        let bases = match [words[schema::BASES], words[schema::BASES + 1]] {
            [NONE, 0] => true,
            [first, count] => self.list(first, count, 1).is_some_and(parts),
        };
        self.keyed_good(number, words, schema::PROPERTIES)
            && self.keyed_good(number, words, schema::PATTERN_PROPERTIES)
            && child(words[schema::ADDITIONAL])
            && self
                .list(words[schema::REQUIRED], words[schema::REQUIRED + 1], 1)
                .is_some_and(texts)
            && words[schema::CLOSED] <= 1
            && child(words[schema::NAMES])
            && bases
    }

    /// A list of text and schema whose keys differ in bytes.
    fn keyed_good(&self, number: u32, words: &[u32; 16], place: usize) -> bool {
        let Some(links) = self.list(words[place], words[place + 1], 2) else {
            return false;
        };
        let mut seen = HashSet::new();
        links.chunks_exact(2).all(|pair| {
            self.text_there(pair[0]) && pair[1] < number && seen.insert(self.tables.text(pair[0]))
        })
    }

    fn entry_good(&self, number: u32) -> bool {
        let words = self.words(layout::REGISTRY, number);
        self.text_there(words[0]) && words[1] < self.counts.schemas
    }

    fn answer_good(&self, number: u32) -> bool {
        let words = self.words(layout::PATTERNS, number);
        self.text_there(words[0]) && self.text_there(words[1]) && words[2] <= 2
    }

    fn text_there(&self, text: u32) -> bool {
        text < self.counts.texts
    }

    fn number_there(&self, number: u32) -> bool {
        number < self.counts.numbers
    }

    fn number_or_none(&self, number: u32) -> bool {
        number == NONE || self.number_there(number)
    }

    /// The links of a list with this many links for each entry, where it ends within the links.
    fn list(&self, first: u32, count: u32, each: u64) -> Option<&[u32]> {
        let end = u64::from(first) + each * u64::from(count);
        (end <= u64::from(self.counts.links))
            .then(|| &self.tables.links[first as usize..end as usize])
    }
}
