//! A schema that is ready, and files checked against it one after another.

use crate::message;
use crate::patterns::{Patterns, resolve};
use crate::schema::{Located, Schemas};
use crate::source::{Failure, Place, Source, Trouble};
use crate::values::{fill, is_nan, too_large};
use crate::yaml;
use quarto_yaml_tables::layout::{LEVELS, NONE, schema};
use quarto_yaml_tables::{Answer, Call, Checker, Mode, Paths, RawTables, Schema, Visit};
use regex::Regex;

/// A step into a value.
#[derive(Clone, Debug, PartialEq, Eq)]
pub enum Step {
    /// Into an object, by a key.
    Key(String),
    /// Into an array, by an index from 0.
    Index(u32),
}

/// A refusal, put into words.
#[derive(Clone, Debug, PartialEq, Eq)]
pub struct Refusal {
    /// Where the value stands, or the key that is too many.
    pub place: Option<Place>,
    /// What is wrong.
    pub message: String,
    /// The error message that the schema has for it.
    pub hint: Option<String>,
    /// The way into the file.
    pub instance: Vec<Step>,
    /// The kinds on the way into the schema.
    pub kinds: Vec<&'static str>,
    /// The schema's file and where the rule stands in it, unless compiling made the rule.
    pub rule: Option<(String, Place)>,
}

/// What came of a file.
#[derive(Clone, Debug, PartialEq, Eq)]
pub enum Verdict {
    /// The schema accepts it.
    Accepted,
    /// The schema refuses it.
    Refused(Refusal),
    /// It could not be checked.
    Unchecked(Trouble),
}

/// A file and what came of it.
#[derive(Clone, Debug)]
pub struct Report {
    /// The file's name as it was given.
    pub name: String,
    /// Its text, where it could be read.
    pub source: Option<Source>,
    /// What came of it.
    pub verdict: Verdict,
    /// The library's answer, where it was asked.
    pub answer: Option<Answer>,
    /// What the check lets pass and a person should know.
    pub warnings: Vec<Trouble>,
}

/// A compiled schema with all that it refers to.
pub struct Station {
    checker: Box<dyn Checker>,
    mode: Mode,
    schemas: Schemas,
    root: Schema,
    patterns: Patterns,
}

impl Station {
    /// Reads the bases and the schema, then compiles them; the last document is what files are checked against.
    pub fn open(
        checker: Box<dyn Checker>,
        mode: Mode,
        schema: &str,
        bases: &[String],
    ) -> Result<Self, Box<Failure>> {
        let mut schemas = Schemas::default();
        let mut last = None;
        for name in bases.iter().map(String::as_str).chain([schema]) {
            let source = Source::read(name).map_err(|trouble| {
                Box::new(Failure {
                    name: name.to_string(),
                    source: None,
                    trouble,
                })
            })?;
            last = schemas.read(source)?.pop();
        }
        let root = last.expect("a file that was read holds a schema");
        let root = compile(&mut schemas, checker.as_ref(), root)?;
        Ok(Self {
            checker,
            mode,
            schemas,
            root,
            patterns: Patterns::default(),
        })
    }

    /// What the schemas say that is never checked.
    pub fn warnings(&self) -> &[Failure] {
        &self.schemas.warnings
    }

    /// Checks a file.
    pub fn check(&mut self, name: &str) -> Report {
        match Source::read(name) {
            Ok(source) => self.check_source(source),
            Err(trouble) => Report {
                name: name.to_string(),
                source: None,
                verdict: Verdict::Unchecked(trouble),
                answer: None,
                warnings: Vec::new(),
            },
        }
    }

    /// Checks a text.
    pub fn check_source(&mut self, source: Source) -> Report {
        let mut report = Report {
            name: source.name.clone(),
            source: None,
            verdict: Verdict::Accepted,
            answer: None,
            warnings: Vec::new(),
        };
        if let Err(trouble) = self.judge(&source, &mut report) {
            report.verdict = Verdict::Unchecked(trouble);
        }
        report.source = Some(source);
        report
    }

    fn judge(&mut self, source: &Source, report: &mut Report) -> Result<(), Trouble> {
        let value = yaml::read_one(source)?;
        let mut tables = self.schemas.tables.clone();
        let mut places = Vec::new();
        let node = fill(&mut tables, &mut places, &value).map_err(too_large)?;
        let first = node.get() + 1 - places.len() as u32;
        let [node, schema] = [node.get(), self.root.get()];
        self.patterns
            .fill(&mut tables, node, schema)
            .map_err(too_large)?;
        let tables = tables.raw();
        report.warnings = (0..)
            .zip(&places)
            .filter(|(number, _)| is_nan(tables, first + number))
            .map(|(_, &place)| Trouble::at(place, "every number test lets NaN pass"))
            .collect();
        let mut paths = Paths::default();
        let visit = Visit {
            mode: self.mode,
            node,
            schema,
        };
        let answer = self.checker.validate(tables, visit, &mut paths);
        report.answer = Some(answer);
        report.verdict = match answer.number {
            0 => Verdict::Accepted,
            1..=14 => {
                let [path, kinds] = paths.held(&answer);
                let found = self.found(tables, node, &answer, path);
                let place = |number: u32| places.get(number.checked_sub(first)? as usize).copied();
                let message = match answer.number {
                    14 => invalid_patterns(tables, found),
                    _ => message::refusal(tables, &answer),
                };
                Verdict::Refused(Refusal {
                    place: place(found),
                    message,
                    hint: self.schemas.words.get(answer.hint as usize).cloned(),
                    instance: path
                        .chunks_exact(2)
                        .map(|pair| step(tables, pair))
                        .collect(),
                    kinds: kinds
                        .iter()
                        .map(|&kind| message::schema_name(kind))
                        .collect(),
                    rule: self
                        .schemas
                        .place(answer.schema)
                        .map(|located| self.located(located)),
                })
            }
            number => Verdict::Unchecked(Trouble::of_file(message::no_verdict(number))),
        };
        Ok(())
    }

    /// The node to show: the key that is too many, what an invalid pattern was asked of, else the answer's own.
    fn found(&self, tables: &RawTables, start: u32, answer: &Answer, path: &[u32]) -> u32 {
        let mut path = path.to_vec();
        match answer.number {
            3 => path.extend([0, answer.a]),
            14 => {}
            _ => return answer.node,
        }
        let key_wanted = answer.number == 3;
        let found = self.checker.navigate(tables, start, &path, key_wanted);
        match found.number {
            0 => found.record,
            _ => answer.node,
        }
    }

    fn located(&self, located: Located) -> (String, Place) {
        let name = self.schemas.sources[located.source].name.clone();
        (name, located.place)
    }
}

/// Says which call a library lacks, where it lacks one.
pub fn lacking(checker: &dyn Checker) -> Option<&'static str> {
    let calls = [
        (Call::Navigate, "qy_navigate"),
        (Call::Validate, "qy_validate"),
        (Call::Compile, "qy_compile"),
    ];
    let lacks = |call: &(Call, &str)| !checker.has(call.0);
    calls.into_iter().find(lacks).map(|(_, name)| name)
}

fn step(tables: &RawTables, pair: &[u32]) -> Step {
    match pair[0] {
        0 => Step::Key(tables.string(pair[1])),
        _ => Step::Index(pair[1]),
    }
}

/// The invalid patterns that were asked of a string.
fn invalid_patterns(tables: &RawTables, node: u32) -> String {
    let subject = tables.text(tables.node(node)[1]);
    let entries = tables.patterns.chunks_exact(3);
    let mut messages: Vec<String> = entries
        .filter(|entry| entry[2] == 2 && tables.text(entry[1]) == subject)
        .filter_map(|entry| {
            let pattern = tables.string(entry[0]);
            let error = Regex::new(&pattern).err()?;
            Some(message::invalid_pattern(&pattern, &error))
        })
        .collect();
    messages.dedup();
    messages.join("; ")
}

/// Compiles every named schema and the root; names then mean the compiled ones.
fn compile(
    schemas: &mut Schemas,
    checker: &dyn Checker,
    root: Schema,
) -> Result<Schema, Box<Failure>> {
    let names = schemas.names.clone();
    let mut compiled = Vec::with_capacity(names.len() + 1);
    for schema in names.iter().map(|name| name.schema).chain([root]) {
        match schemas.tables.compile(checker, schema) {
            Ok(schema) => compiled.push(schema),
            Err(answer) => {
                let tables = schemas.tables.raw();
                let culprit = culprit(tables, answer.number);
                let message = message::compile_refusal(tables, answer.number, culprit);
                return Err(failure_at(
                    schemas,
                    culprit.unwrap_or(schema.get()),
                    message,
                ));
            }
        }
    }
    for (name, &schema) in names.iter().zip(&compiled) {
        let registered = schemas.tables.register(name.text, schema);
        registered.map_err(|error| {
            let trouble = too_large(error).hint("each name takes two of the 256 entries");
            schemas.sources[schemas.sources.len() - 1].failure(trouble)
        })?;
    }
    if let Some(left) = unmerged(schemas.tables.raw(), &compiled) {
        let message = "Invalid schema structure: this 'super' is never merged, \
            for it stands inside the own properties of a schema that has one itself";
        let mut failure = failure_at(schemas, left, message.to_string());
        let hint = "give this schema an $id of its own and a 'ref' in this place";
        failure.trouble.hint = Some(hint.to_string());
        return Err(failure);
    }
    Ok(compiled[compiled.len() - 1])
}

fn failure_at(schemas: &Schemas, schema: u32, message: String) -> Box<Failure> {
    match schemas.place(schema) {
        Some(located) => {
            schemas.sources[located.source].failure(Trouble::at(located.place, message))
        }
        None => schemas.sources[schemas.sources.len() - 1].failure(Trouble::of_file(message)),
    }
}

/// The first schema that a compile's refusal may mean.
fn culprit(tables: &RawTables, number: u32) -> Option<u32> {
    let count = tables.schemas.len() as u32 / 16;
    (0..count).find_map(|at| {
        let words = tables.schema(at);
        let [first, bases] = [words[schema::BASES], words[schema::BASES + 1]];
        let has_bases = words[0] == schema::OBJECT && first != NONE;
        match number {
            30 if has_bases && bases == 0 => Some(at),
            31 if has_bases => {
                let mut bases = tables.list(first, bases).iter().copied();
                bases.find(|&base| merged_kind(tables, base) != Some(schema::OBJECT))
            }
            32 if words[0] == schema::REF && words[3] == 1 => {
                resolve(tables, words[2]).is_none().then_some(at)
            }
            _ => None,
        }
    })
}

/// The kind of what a base is after it compiled.
fn merged_kind(tables: &RawTables, mut base: u32) -> Option<u32> {
    for _ in 0..LEVELS {
        let words = tables.schema(base);
        if words[0] != schema::REF || words[3] == 0 {
            return Some(words[0]);
        }
        base = resolve(tables, words[2])?;
    }
    None
}

/// A schema that can be visited and still has bases, which a visit ignores.
fn unmerged(tables: &RawTables, starts: &[Schema]) -> Option<u32> {
    let mut seen = std::collections::HashSet::new();
    let mut waiting: Vec<u32> = starts.iter().map(|start| start.get()).collect();
    while let Some(number) = waiting.pop() {
        if !seen.insert(number) {
            continue;
        }
        let words = tables.schema(number);
        match words[0] {
            schema::OBJECT if words[schema::BASES] != NONE => return Some(number),
            schema::OBJECT => {
                let [first, count] = [words[schema::PROPERTIES], words[schema::PROPERTIES + 1]];
                waiting.extend(tables.pairs(first, count).map(|(_, part)| part));
                waiting.push(words[schema::ADDITIONAL]);
            }
            schema::ANY_OF | schema::ALL_OF => waiting.extend(tables.list(words[2], words[3])),
            schema::ARRAY => waiting.push(words[2]),
            schema::REF => waiting.extend(resolve(tables, words[2])),
            _ => {}
        }
    }
    None
}
