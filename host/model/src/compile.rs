//! Compiling a schema.

use crate::check::check_used;
use crate::merge::merge;
use crate::room::Room;
use crate::visit::resolve;
use quarto_yaml_tables::layout::{LEVELS, NONE, schema};
use quarto_yaml_tables::{Answer, RawTables};

/// How an object is merged with its compiled bases: the record, or the refusal's number.
pub type Merge = fn(&mut Room<'_>, &[u32], &[u32; 16]) -> Result<u32, u32>;

/// Compiles a schema into the room behind the used counts.
pub fn compile(tables: &mut RawTables, used: [u32; 3], schema: u32) -> Answer {
    compile_with(merge, tables, used, schema)
}

/// The same with another way of merging, so that a wrong one can be tried.
pub fn compile_with(merge: Merge, tables: &mut RawTables, used: [u32; 3], schema: u32) -> Answer {
    let counts = match check_used(tables, used) {
        Ok(counts) => counts,
        Err(bad) => return with_used(bad.answer(), used),
    };
    if schema >= counts.schemas {
        return with_used(Answer::of(21), used);
    }
    let mut compiler = Compiler {
        room: Room { tables, used },
        merge,
    };
    let result = compiler.visit(1, schema);
    let kept = match result {
        Ok(_) => compiler.room.used,
        Err(_) => used,
    };
    compiler.room.clear(kept);
    let answer = match result {
        Ok(record) => Answer {
            record,
            ..Answer::of(0)
        },
        Err(number) => Answer::of(number),
    };
    with_used(answer, kept)
}

fn with_used(answer: Answer, used: [u32; 3]) -> Answer {
    let [used_notes, used_schemas, used_links] = used;
    Answer {
        used_notes,
        used_schemas,
        used_links,
        ..answer
    }
}

pub(crate) struct Compiler<'a> {
    pub(crate) room: Room<'a>,
    merge: Merge,
}

impl Compiler<'_> {
    /// The compiled schema's record, or the refusal's number.
    fn visit(&mut self, level: u32, number: u32) -> Result<u32, u32> {
        if level > LEVELS {
            return Err(23);
        }
        let words = self.room.tables.schema(number);
        match words[0] {
            schema::REF if words[3] == 1 => {
                let target = resolve(self.room.tables, words[2]).ok_or(32_u32)?;
                self.visit(level + 1, target)
            }
            schema::ANY_OF | schema::ALL_OF => {
                let parts = self.parts(level, [words[2], words[3]])?;
                let [first, count] = self.room.list(&parts, parts.len())?;
                let mut record = words;
                (record[2], record[3]) = (first, count);
                self.room.schema(&record)
            }
            schema::ARRAY => {
                let mut record = words;
                record[2] = self.optional(level, words[2])?;
                self.room.schema(&record)
            }
            schema::OBJECT if words[schema::BASES] == NONE => self.plain_object(level, words),
            schema::OBJECT => {
                let list = [words[schema::BASES], words[schema::BASES + 1]];
                let bases = self.parts(level, list)?;
                (self.merge)(&mut self.room, &bases, &words)
            }
            _ => Ok(number),
        }
    }

    fn parts(&mut self, level: u32, [first, count]: [u32; 2]) -> Result<Vec<u32>, u32> {
        let parts = self.room.tables.list(first, count).to_vec();
        parts
            .into_iter()
            .map(|part| self.visit(level + 1, part))
            .collect()
    }

    fn optional(&mut self, level: u32, part: u32) -> Result<u32, u32> {
        if part == NONE {
            return Ok(NONE);
        }
        self.visit(level + 1, part)
    }

    /// The links of a list of text and schema with its schemas compiled.
    fn keyed(&mut self, level: u32, [first, count]: [u32; 2]) -> Result<Vec<u32>, u32> {
        let pairs: Vec<_> = self.room.tables.pairs(first, count).collect();
        let mut links = Vec::new();
        for (text, part) in pairs {
            links.extend([text, self.visit(level + 1, part)?]);
        }
        Ok(links)
    }

    fn plain_object(&mut self, level: u32, words: [u32; 16]) -> Result<u32, u32> {
        let list = |place: usize| [words[place], words[place + 1]];
        let properties = self.keyed(level, list(schema::PROPERTIES))?;
        let patterns = self.keyed(level, list(schema::PATTERN_PROPERTIES))?;
        let mut record = words;
        record[schema::ADDITIONAL] = self.optional(level, words[schema::ADDITIONAL])?;
        record[schema::NAMES] = self.optional(level, words[schema::NAMES])?;
        for (place, links) in [
            (schema::PROPERTIES, properties),
            (schema::PATTERN_PROPERTIES, patterns),
        ] {
            let [first, count] = self.room.list(&links, links.len() / 2)?;
            (record[place], record[place + 1]) = (first, count);
        }
        self.room.schema(&record)
    }
}
