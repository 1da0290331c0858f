//! A visit of a schema at a value, and the call around it.

use crate::check::check;
use crate::json::{Equality, equal};
use quarto_yaml_tables::layout::{INSTANCE_WORDS, LEVELS, NONE, SCHEMA_WORDS, node, note, schema};
use quarto_yaml_tables::{Answer, Detail, Mode, Paths, RawTables, Visit};

/// Checks a node against a schema; both buffers are written to their ends.
pub fn validate(tables: &RawTables, visit: Visit, paths: &mut Paths) -> Answer {
    let Visit { mode, node, schema } = visit;
    let Paths { instance, steps } = paths;
    let short = instance.len() < INSTANCE_WORDS || steps.len() < SCHEMA_WORDS;
    instance.fill(0);
    steps.fill(0);
    let counts = match check(tables) {
        Ok(counts) => counts,
        Err(bad) => return bad.answer(),
    };
    if node >= counts.nodes || schema >= counts.schemas {
        return Answer::of(21);
    }
    if short {
        return Answer::of(22);
    }
    let mut visitor = Visitor {
        tables,
        standard: mode == Mode::Standard,
        instance: Vec::new(),
        steps: Vec::new(),
    };
    match visitor.visit(1, node, schema) {
        Ok(()) => Answer::of(0),
        Err(Stop::End(number)) => Answer::of(number),
        Err(Stop::Refusal(refusal)) => refusal.answer(instance, steps),
    }
}

/// Why a visit does not accept.
enum Stop {
    /// Answers 1 to 14.
    Refusal(Box<Refusal>),
    /// Answers 23, 24 and 25, which end everything.
    End(u32),
}

struct Refusal {
    answer: Answer,
    instance: Vec<[u32; 2]>,
    steps: Vec<u32>,
}

impl Refusal {
    fn answer(self, instance: &mut [u32], steps: &mut [u32]) -> Answer {
        let path = self.instance.as_flattened();
        instance[..path.len()].copy_from_slice(path);
        steps[..self.steps.len()].copy_from_slice(&self.steps);
        Answer {
            instance_steps: self.instance.len() as u32,
            schema_steps: self.steps.len() as u32,
            ..self.answer
        }
    }
}

type Outcome = Result<(), Stop>;

const INVALID_PATTERN: u32 = 14;

struct Visitor<'a> {
    tables: &'a RawTables,
    standard: bool,
    instance: Vec<[u32; 2]>,
    steps: Vec<u32>,
}

/// The value and the schema of one visit, and its level.
#[derive(Clone, Copy)]
struct At {
    level: u32,
    node: u32,
    schema: u32,
    words: [u32; 16],
}

impl<'a> Visitor<'a> {
    fn visit(&mut self, level: u32, node: u32, schema: u32) -> Outcome {
        if level > LEVELS {
            return Err(Stop::End(23));
        }
        let words = self.tables.schema(schema);
        let at = At {
            level,
            node,
            schema,
            words,
        };
        let kind = words[0];
        match kind {
            schema::TRUE | schema::ANY => Ok(()),
            schema::REF => self.reference(at),
            _ => {
                self.steps.push(kind);
                let outcome = match kind {
                    schema::BOOLEAN => self.expect(at, node::BOOLEAN),
                    schema::NUMBER => self.number(at),
                    schema::STRING => self.string(at),
                    schema::NULL => self.expect(at, node::NULL),
                    schema::ENUM => self.listed(at),
                    schema::ANY_OF => self.any_of(at),
                    schema::ALL_OF => self.all_of(at),
                    schema::ARRAY => self.array(at),
                    _ => self.object(at),
                };
                self.steps.pop();
                outcome
            }
        }
    }

    /// Visits a part one level down, under one more instance step.
    fn under(&mut self, step: [u32; 2], level: u32, node: u32, schema: u32) -> Outcome {
        self.instance.push(step);
        let outcome = self.visit(level + 1, node, schema);
        self.instance.pop();
        outcome
    }

    fn refuse(&self, at: At, number: u32, detail: Detail) -> Outcome {
        let hint = match at.words[1] {
            NONE => NONE,
            number => self.tables.note(number)[note::ERROR_MESSAGE],
        };
        let answer = Answer {
            node: at.node,
            schema: at.schema,
            hint,
            ..Answer::of(number)
        };
        Err(Stop::Refusal(Box::new(Refusal {
            answer: answer.with_detail(detail),
            instance: self.instance.clone(),
            steps: self.steps.clone(),
        })))
    }

    fn kind(&self, node: u32) -> u32 {
        self.tables.node(node)[0]
    }

    fn mismatch(&self, at: At) -> Outcome {
        self.refuse(at, 1, Detail::Type(at.words[0], self.kind(at.node)))
    }

    fn expect(&self, at: At, kind: u32) -> Outcome {
        if self.kind(at.node) == kind {
            return Ok(());
        }
        self.mismatch(at)
    }

    fn number(&self, at: At) -> Outcome {
        let [kind, place, ..] = self.tables.node(at.node);
        let value = match kind {
            node::INTEGER => self.tables.numbers[place as usize] as i64 as f64,
            node::REAL if place == NONE => f64::NAN,
            node::REAL => f64::from_bits(self.tables.numbers[place as usize]),
            _ => return self.mismatch(at),
        };
        let bound = |word: usize| match at.words[word] {
            NONE => None,
            place => Some(f64::from_bits(self.tables.numbers[place as usize])),
        };
        if let Some(minimum) = bound(2).filter(|&minimum| value < minimum) {
            return self.refuse(at, 5, Detail::BelowMinimum(value, minimum));
        }
        if let Some(maximum) = bound(3).filter(|&maximum| value > maximum) {
            return self.refuse(at, 5, Detail::AboveMaximum(value, maximum));
        }
        if let Some(minimum) = bound(4).filter(|&minimum| value <= minimum) {
            return self.refuse(at, 5, Detail::AtOrBelowExclusiveMinimum(value, minimum));
        }
        if let Some(maximum) = bound(5).filter(|&maximum| value >= maximum) {
            return self.refuse(at, 5, Detail::AtOrAboveExclusiveMaximum(value, maximum));
        }
        let smallest = 2.0_f64.powi(-52);
        match bound(6).filter(|&multiple| (value % multiple).abs() > smallest) {
            Some(multiple) => self.refuse(at, 6, Detail::Multiple(value, multiple)),
            None => Ok(()),
        }
    }

    /// The first limit that a count breaks: the minimum, then the maximum.
    fn count(&self, at: At, number: u32, count: u32, limits: [u32; 2]) -> Outcome {
        let [minimum, maximum] = limits;
        if minimum != NONE && count < minimum {
            return self.refuse(at, number, Detail::Count(count, minimum));
        }
        if maximum != NONE && count > maximum {
            return self.refuse(at, number, Detail::Count(count, maximum));
        }
        Ok(())
    }

    fn string(&self, at: At) -> Outcome {
        let [kind, text, ..] = self.tables.node(at.node);
        if kind != node::STRING {
            return self.mismatch(at);
        }
        let bytes = self.tables.text(text);
        let length = if self.standard {
            String::from_utf8_lossy(bytes).chars().count()
        } else {
            bytes.len()
        };
        self.count(at, 7, length as u32, [at.words[2], at.words[3]])?;
        let pattern = at.words[4];
        if pattern == NONE {
            return Ok(());
        }
        let asked = self.tables.text(pattern);
        let entry = self.tables.patterns.chunks_exact(3).find(|entry| {
            self.tables.text(entry[0]) == asked && self.tables.text(entry[1]) == bytes
        });
        match entry {
            None => Err(Stop::End(24)),
            Some([.., 0]) => self.refuse(at, 8, Detail::Pattern(text, pattern)),
            Some([.., 1]) => Ok(()),
            Some(_) => Err(Stop::Refusal(Box::new(Refusal {
                answer: Answer::of(INVALID_PATTERN),
                instance: self.instance.clone(),
                steps: Vec::new(),
            }))),
        }
    }

    fn listed(&self, at: At) -> Outcome {
        let equality = if self.standard {
            Equality::Standard
        } else {
            Equality::Enum
        };
        let listed = self.tables.list(at.words[2], at.words[3]);
        if listed
            .iter()
            .any(|&value| equal(self.tables, equality, value, at.node))
        {
            return Ok(());
        }
        self.refuse(at, 4, Detail::Empty)
    }

    fn any_of(&mut self, at: At) -> Outcome {
        let mut first = None;
        for &part in self.tables.list(at.words[2], at.words[3]) {
            match self.visit(at.level + 1, at.node, part) {
                Ok(()) => return Ok(()),
                Err(Stop::End(number)) => return Err(Stop::End(number)),
                Err(Stop::Refusal(refusal)) => {
                    if refusal.answer.number != INVALID_PATTERN && first.is_none() {
                        first = Some(refusal);
                    }
                }
            }
        }
        Err(first.map_or(Stop::End(25), Stop::Refusal))
    }

    fn all_of(&mut self, at: At) -> Outcome {
        for &part in self.tables.list(at.words[2], at.words[3]) {
            self.visit(at.level + 1, at.node, part)?;
        }
        Ok(())
    }

    fn array(&mut self, at: At) -> Outcome {
        let [kind, first, count, _] = self.tables.node(at.node);
        if kind != node::ARRAY {
            return self.mismatch(at);
        }
        self.count(at, 9, count, [at.words[3], at.words[4]])?;
        let items = self.tables.list(first, count);
        if at.words[5] == 1 && self.repeats(items) {
            return self.refuse(at, 10, Detail::Empty);
        }
        if at.words[2] == NONE {
            return Ok(());
        }
        for (place, &item) in items.iter().enumerate() {
            self.under([1, place as u32], at.level, item, at.words[2])?;
        }
        Ok(())
    }

    fn repeats(&self, items: &[u32]) -> bool {
        let equality = if self.standard {
            Equality::Standard
        } else {
            Equality::Unique
        };
        items.iter().enumerate().any(|(place, &item)| {
            items[..place]
                .iter()
                .any(|&earlier| equal(self.tables, equality, earlier, item))
        })
    }

    /// The string keys of an object: key node, its text, value.
    fn entries(&self, first: u32, count: u32) -> Vec<(u32, u32, u32)> {
        self.tables
            .pairs(first, count)
            .filter_map(|(key, value)| {
                let [kind, text, ..] = self.tables.node(key);
                (kind == node::STRING).then_some((key, text, value))
            })
            .collect()
    }

    /// The schema of a property, by its key's bytes.
    fn property(&self, at: At, key: &[u8]) -> Option<u32> {
        let place = schema::PROPERTIES;
        self.tables
            .pairs(at.words[place], at.words[place + 1])
            .find(|&(text, _)| self.tables.text(text) == key)
            .map(|(_, schema)| schema)
    }

    fn object(&mut self, at: At) -> Outcome {
        let [kind, first, count, _] = self.tables.node(at.node);
        if kind != node::OBJECT {
            return self.mismatch(at);
        }
        let tables = self.tables;
        let entries = self.entries(first, count);
        let held = |text: u32, among: &[(u32, u32, u32)]| {
            among
                .iter()
                .any(|entry| tables.text(entry.1) == tables.text(text))
        };
        for (place, &(key, text, _)) in entries.iter().enumerate() {
            if held(text, &entries[..place]) {
                let at = At { node: key, ..at };
                return self.refuse(at, 13, Detail::Key(text));
            }
        }
        let place = schema::REQUIRED;
        for &text in tables.list(at.words[place], at.words[place + 1]) {
            if !held(text, &entries) {
                let schema = self.property(at, tables.text(text)).unwrap_or(NONE);
                return self.refuse(at, 2, Detail::Property(text, schema));
            }
        }
        let limits = [at.words[schema::MINIMUM], at.words[schema::MAXIMUM]];
        self.count(at, 11, count, limits)?;
        for (_, text, value) in entries {
            self.entry(at, text, value)?;
        }
        Ok(())
    }

    fn entry(&mut self, at: At, text: u32, value: u32) -> Outcome {
        let additional = at.words[schema::ADDITIONAL];
        match self.property(at, self.tables.text(text)) {
            Some(property) => self.under([0, text], at.level, value, property),
            None if at.words[schema::CLOSED] == 1 => self.refuse(at, 3, Detail::Key(text)),
            None if additional != NONE => self.under([0, text], at.level, value, additional),
            None => Ok(()),
        }
    }

    fn reference(&mut self, at: At) -> Outcome {
        match resolve(self.tables, at.words[2]) {
            Some(target) => self.visit(at.level + 1, at.node, target),
            None => self.refuse(at, 12, Detail::Reference(at.words[2])),
        }
    }
}

/// The last registry entry of that name.
pub(crate) fn resolve(tables: &RawTables, name: u32) -> Option<u32> {
    let name = tables.text(name);
    tables
        .registry
        .chunks_exact(2)
        .rfind(|entry| tables.text(entry[0]) == name)
        .map(|entry| entry[1])
}
