//! What a checker left behind, held against the original and the second judge.

use crate::case::{Case, Request};
use crate::pattern;
use crate::run::{Outcome, run};
use quarto_yaml_model::{Model, check, check_used};
use quarto_yaml_oracle::{Compiled, Oracle, PRESENT, Unfit, Validated, fit};
use quarto_yaml_tables::layout::{GROWING, SCHEMAS, schema};
use quarto_yaml_tables::{Checker, Mode, RawTables};

/// What the original had to say about a case.
#[derive(Clone, Debug, PartialEq, Eq)]
pub enum Heard {
    /// The node that navigation finds.
    Found(Option<u32>),
    /// A validation's outcome.
    Validated(Validated),
    /// A compile's outcome.
    Compiled(Compiled),
    /// A compile's refusal or the validation after it.
    Both(Result<Validated, u32>),
    /// Nothing: the case lies outside the domain, for this reason.
    Outside(&'static str),
}

/// When the original is asked.
#[derive(Clone, Copy, Debug, PartialEq, Eq)]
pub enum Ask {
    /// Not at all.
    Never,
    /// Inside the domain.
    Domain,
    /// Outside it too, which may never end.
    Always,
}

/// A case with the answers that others are held against.
pub struct Judged<'a> {
    case: &'a Case,
    /// The second judge's outcome.
    pub expected: Outcome,
    /// The original's.
    pub heard: Heard,
}

/// How often the original is asked again where the order of a map may decide.
const ORDERS: usize = 200;

impl<'a> Judged<'a> {
    /// Asks the second judge and, as told, the original.
    pub fn of(case: &'a Case, when: Ask) -> Self {
        let expected = run(&Model, case).expect("the second judge has every call");
        let heard = match outside(case, &expected) {
            Some(reason) if when != Ask::Always => Heard::Outside(reason),
            _ if !PRESENT || when == Ask::Never => Heard::Outside("original not asked"),
            _ => ask(case),
        };
        Self {
            case,
            expected,
            heard,
        }
    }

    /// Whether a checker agrees with both, or where it does not.
    pub fn checker(&self, checker: &dyn Checker) -> Result<(), String> {
        match run(checker, self.case) {
            Some(outcome) => self.outcome(&outcome),
            None => Ok(()),
        }
    }

    /// Whether an outcome agrees with the original and, word for word, with the second judge.
    pub fn outcome(&self, outcome: &Outcome) -> Result<(), String> {
        self.against_original(outcome)?;
        self.against_model(outcome)
    }

    /// Whether an outcome is the second judge's, word for word.
    pub fn against_model(&self, outcome: &Outcome) -> Result<(), String> {
        let expected = &self.expected;
        if outcome.answer != expected.answer {
            return Err(format!(
                "answer {:?}\n  not {:?}",
                outcome.answer, expected.answer
            ));
        }
        if outcome.then != expected.then {
            return Err(format!(
                "then {:?}\n  not {:?}",
                outcome.then, expected.then
            ));
        }
        same_words("instance path", &outcome.instance, &expected.instance)?;
        same_words("schema path", &outcome.steps, &expected.steps)?;
        match (&outcome.tables, &expected.tables) {
            (Some(tables), Some(expected)) => {
                for table in GROWING {
                    let name = format!("table {}", table.number);
                    same_words(&name, tables.words(table), expected.words(table))?;
                }
                if tables != expected {
                    return Err("a table that is only read was changed".to_string());
                }
                Ok(())
            }
            (tables, expected) if tables == expected => Ok(()),
            _ => Err("no tables".to_string()),
        }
    }

    /// Whether an outcome says what the original says, where it was asked.
    pub fn against_original(&self, outcome: &Outcome) -> Result<(), String> {
        let tables = &self.case.tables;
        let said = match &self.heard {
            Heard::Outside(_) => return Ok(()),
            Heard::Found(_) => {
                Heard::Found((outcome.answer.number == 0).then_some(outcome.answer.record))
            }
            Heard::Validated(_) => Heard::Validated(Oracle.said(
                tables,
                &outcome.answer,
                &outcome.instance,
                &outcome.steps,
            )),
            Heard::Compiled(_) => Heard::Compiled(compiled(outcome)),
            Heard::Both(_) => Heard::Both(match (&outcome.then, outcome.in_use()) {
                (Some(then), Some(tables)) => {
                    Ok(Oracle.said(&tables, then, &outcome.instance, &outcome.steps))
                }
                _ => Err(outcome.answer.number),
            }),
        };
        if said == self.heard || self.some_order_gives(&said) {
            return Ok(());
        }
        Err(format!("said {said:?}\n  the original {:?}", self.heard))
    }

    /// Whether another order of the maps makes the original refuse as said.
    fn some_order_gives(&self, said: &Heard) -> bool {
        let refusals = matches!(
            (said, &self.heard),
            (
                Heard::Compiled(Compiled::Refused(30..=32)),
                Heard::Compiled(Compiled::Refused(_))
            ) | (Heard::Both(Err(30..=32)), Heard::Both(Err(_)))
        );
        refusals && (0..ORDERS).any(|_| ask(self.case) == *said)
    }
}

/// The compiled schema as a tree, or the refusal's number.
fn compiled(outcome: &Outcome) -> Compiled {
    match (outcome.answer.number, outcome.in_use()) {
        (0, Some(tables)) if check(&tables).is_err() => {
            Compiled::Tree("tables that are not well-formed".to_string())
        }
        (0, Some(tables)) if (outcome.answer.record as usize) < tables.count(SCHEMAS) => {
            Compiled::Tree(Oracle.tree(&tables, outcome.answer.record))
        }
        (0, _) => Compiled::Tree("no such record".to_string()),
        (number, _) => Compiled::Refused(number),
    }
}

fn same_words(name: &str, words: &[u32], expected: &[u32]) -> Result<(), String> {
    if words.len() != expected.len() {
        return Err(format!(
            "{name} has {} words, not {}",
            words.len(),
            expected.len()
        ));
    }
    match words
        .iter()
        .zip(expected)
        .position(|(word, wanted)| word != wanted)
    {
        Some(place) => Err(format!(
            "{name}: word {place} is {}, not {}",
            words[place], expected[place]
        )),
        None => Ok(()),
    }
}

fn ask(case: &Case) -> Heard {
    let tables = &case.tables;
    match &case.request {
        Request::Navigate {
            node,
            path,
            key_wanted,
        } => Heard::Found(Oracle.navigate(tables, *node, path, *key_wanted)),
        &Request::Validate { node, schema, .. } => {
            Heard::Validated(Oracle.validate(tables, node, schema))
        }
        &Request::Compile { used, schema } => {
            Heard::Compiled(Oracle.compile(&tables.cut(used), schema))
        }
        &Request::CompileThenValidate { used, schema, node } => {
            Heard::Both(Oracle.compile_then_validate(&tables.cut(used), node, schema))
        }
    }
}

/// Why the original is not asked: well-formed tables, source mode, and no answer
/// 23, 24 or 33 are its domain. Answer 25 is its panic, and is compared too.
fn outside(case: &Case, expected: &Outcome) -> Option<&'static str> {
    let number = expected.then.unwrap_or(expected.answer).number;
    match number {
        20 => return Some("bad table"),
        21 => return Some("number out of range"),
        22 => return Some("path buffer short"),
        23 => return Some("too deep"),
        24 => return Some("pattern answer missing"),
        33 => return Some("no room"),
        _ => {}
    }
    if let Request::Validate {
        mode: Mode::Standard,
        ..
    } = case.request
    {
        return Some("standard mode");
    }
    let sound = match &case.request {
        &Request::Compile { used, .. } | &Request::CompileThenValidate { used, .. } => {
            check_used(&case.tables, used).map(|_| case.tables.cut(used))
        }
        _ => check(&case.tables).map(|_| case.tables.clone()),
    };
    let Ok(tables) = sound else {
        return Some("bad table");
    };
    if !pattern::faithful(&tables) {
        return Some("table 6 not by the engine");
    }
    match fit(&tables) {
        Err(Unfit::RealPair) => return Some("no text gives this real"),
        Err(Unfit::Hidden) => return Some("hidden is no boolean"),
        Err(Unfit::TooLarge) => return Some("tree too large"),
        Ok(()) => {}
    }
    let start = match case.request {
        Request::Compile { schema, .. } | Request::CompileThenValidate { schema, .. } => schema,
        _ => return None,
    };
    eager_circle(&tables, start).then_some("eager circle")
}

/// Whether compiling may go round: the order of a map decides whether it does.
fn eager_circle(tables: &RawTables, start: u32) -> bool {
    let mut marks = vec![Mark::New; tables.count(SCHEMAS)];
    circle_from(tables, start, &mut marks)
}

#[derive(Clone, Copy, PartialEq)]
enum Mark {
    New,
    Open,
    Done,
}

fn circle_from(tables: &RawTables, number: u32, marks: &mut [Mark]) -> bool {
    match marks[number as usize] {
        Mark::Open => return true,
        Mark::Done => return false,
        Mark::New => marks[number as usize] = Mark::Open,
    }
    let round = compiled_parts(tables, number)
        .into_iter()
        .any(|part| circle_from(tables, part, marks));
    marks[number as usize] = Mark::Done;
    round
}

/// The records that compiling a record compiles.
fn compiled_parts(tables: &RawTables, number: u32) -> Vec<u32> {
    let words = tables.schema(number);
    let list = |place: usize| tables.list(words[place], words[place + 1]).to_vec();
    let present = |word: u32| (word != u32::MAX).then_some(word);
    match words[0] {
        schema::REF if words[3] == 1 => {
            let name = tables.text(words[2]);
            let entry = tables
                .registry
                .chunks_exact(2)
                .rfind(|entry| tables.text(entry[0]) == name);
            entry.map(|entry| entry[1]).into_iter().collect()
        }
        schema::ANY_OF | schema::ALL_OF => list(2),
        schema::ARRAY => present(words[2]).into_iter().collect(),
        schema::OBJECT if words[schema::BASES] != u32::MAX => list(schema::BASES),
        schema::OBJECT => {
            let mut parts = Vec::new();
            for place in [schema::PROPERTIES, schema::PATTERN_PROPERTIES] {
                parts.extend(
                    tables
                        .pairs(words[place], words[place + 1])
                        .map(|pair| pair.1),
                );
            }
            parts.extend(present(words[schema::ADDITIONAL]));
            parts.extend(present(words[schema::NAMES]));
            parts
        }
        _ => Vec::new(),
    }
}
