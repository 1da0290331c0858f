//! Runs a case through a checker, with buffers full of garbage.

use crate::case::{Case, Request};
use quarto_yaml_tables::layout::{INSTANCE_WORDS, SCHEMA_WORDS};
use quarto_yaml_tables::{Answer, Call, Checker, Mode, Paths, RawTables, Visit};

/// Everything that a call leaves behind.
#[derive(Clone, Debug, PartialEq, Eq)]
pub struct Outcome {
    /// The answer; of a compile followed by a validation, the compile's.
    pub answer: Answer,
    /// The validation's answer after a compile.
    pub then: Option<Answer>,
    /// The instance path buffer.
    pub instance: Vec<u32>,
    /// The schema path buffer.
    pub steps: Vec<u32>,
    /// The tables after a compile.
    pub tables: Option<RawTables>,
}

/// The word that buffers are filled with beforehand.
const STALE: u32 = 0xdead_beef;

/// The outcome of a case, where the checker has the call.
pub fn run(checker: &dyn Checker, case: &Case) -> Option<Outcome> {
    match &case.request {
        Request::Navigate {
            node,
            path,
            key_wanted,
        } => checker
            .has(Call::Navigate)
            .then(|| plain(checker.navigate(&case.tables, *node, path, *key_wanted))),
        &Request::Validate {
            mode,
            node,
            schema,
            instance_words,
            schema_words,
        } => checker.has(Call::Validate).then(|| {
            let visit = Visit { mode, node, schema };
            let sizes = [instance_words, schema_words];
            validated(checker, &case.tables, visit, sizes)
        }),
        &Request::Compile { used, schema } => checker
            .has(Call::Compile)
            .then(|| compiled(checker, &case.tables, used, schema)),
        &Request::CompileThenValidate { used, schema, node } => {
            let both = checker.has(Call::Compile) && checker.has(Call::Validate);
            both.then(|| compiled_then_validated(checker, &case.tables, used, schema, node))
        }
    }
}

fn plain(answer: Answer) -> Outcome {
    Outcome {
        answer,
        then: None,
        instance: Vec::new(),
        steps: Vec::new(),
        tables: None,
    }
}

fn validated(
    checker: &dyn Checker,
    tables: &RawTables,
    visit: Visit,
    sizes: [usize; 2],
) -> Outcome {
    let mut paths = Paths::of(STALE, sizes);
    let answer = checker.validate(tables, visit, &mut paths);
    Outcome {
        instance: paths.instance,
        steps: paths.steps,
        ..plain(answer)
    }
}

fn compiled(checker: &dyn Checker, tables: &RawTables, used: [u32; 3], schema: u32) -> Outcome {
    let mut tables = tables.clone();
    let answer = checker.compile(&mut tables, used, schema);
    Outcome {
        tables: Some(tables),
        ..plain(answer)
    }
}

fn compiled_then_validated(
    checker: &dyn Checker,
    tables: &RawTables,
    used: [u32; 3],
    schema: u32,
    node: u32,
) -> Outcome {
    let first = compiled(checker, tables, used, schema);
    if first.answer.number != 0 {
        return first;
    }
    let Some(cut) = first.in_use() else {
        return first;
    };
    let visit = Visit {
        mode: Mode::Unnamed,
        node,
        schema: first.answer.record,
    };
    let second = validated(checker, &cut, visit, [INSTANCE_WORDS, SCHEMA_WORDS]);
    Outcome {
        answer: first.answer,
        then: Some(second.answer),
        tables: first.tables,
        ..second
    }
}

impl Outcome {
    /// The tables after a compile, cut at the used counts, where these are within.
    pub fn in_use(&self) -> Option<RawTables> {
        let (tables, used) = (self.tables.as_ref()?, self.answer.used());
        let mut both = tables.used().into_iter().zip(used);
        both.all(|(lent, used)| used <= lent)
            .then(|| tables.cut(used))
    }
}
