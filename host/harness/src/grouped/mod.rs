//! Demand 3: in a list of bases, a run of neighbours may be replaced by one
//! empty object that names the run as its bases.
//!
//! Both versions are compiled and asked about the same values. Where both
//! compile, their opened trees and their answers have to be the same; and each
//! call has to leave behind what the second judge leaves.

mod opened;
mod regroup;

pub use opened::{Joins, Tree, Trees};
pub use regroup::{Run, bases, regroup};

use crate::case::{Case, Request};
use crate::generate::room;
use crate::run::{Outcome, run};
use crate::shrink::shrink;
use crate::tally::Tally;
use quarto_yaml_model::{Model, check};
use quarto_yaml_tables::layout::{INSTANCE_WORDS, NONE, SCHEMA_WORDS, schema};
use quarto_yaml_tables::{Checker, Mode, RawTables, detail};
use std::fmt;

/// A schema, runs of bases in it, and values for it.
#[derive(Clone, Debug, PartialEq, Eq)]
pub struct Grouping {
    /// The tables without room, and the compile of the schema.
    pub case: Case,
    /// The runs, grouped one after another.
    pub runs: Vec<Run>,
    /// The values that both results are asked about.
    pub values: Vec<u32>,
    /// The room that both are lent; what each takes and a little more where it is not given.
    pub spare: Option<[usize; 3]>,
}

/// What both versions came to.
#[derive(Clone, Debug, PartialEq, Eq)]
pub struct Ran {
    flat: Side,
    grouped: Side,
}

#[derive(Clone, Debug, PartialEq, Eq)]
struct Side {
    compiled: Outcome,
    /// The compiled tables, where it compiles.
    after: Option<RawTables>,
    /// The values' answers, in both modes each.
    answers: Vec<Outcome>,
}

const MODES: [(Mode, &str); 2] = [(Mode::Source, "source"), (Mode::Standard, "standard")];

impl Grouping {
    /// The compile of the schema as it stands.
    pub fn flat(&self) -> Option<Case> {
        let Request::Compile { used, schema } = self.case.request else {
            return None;
        };
        let tables = self.case.tables.cut(used);
        check(&tables).ok()?;
        Some(room::lent(tables, schema, self.spare))
    }

    /// The compile of the schema with its runs grouped; none where a run is none.
    pub fn grouped(&self) -> Option<Case> {
        let Request::Compile { used, mut schema } = self.case.request else {
            return None;
        };
        let mut tables = self.case.tables.cut(used);
        for &run in &self.runs {
            tables = regroup(&tables, run)?;
            schema += u32::from(schema >= run.object);
        }
        check(&tables).ok()?;
        Some(room::lent(tables, schema, self.spare))
    }

    /// Whether a checker says the same of both versions, and what the second judge says.
    pub fn held(&self, checker: &dyn Checker, judge: Option<&Ran>) -> Result<(), String> {
        let Some(ran) = self.run(checker) else {
            return Ok(());
        };
        ran.alike()?;
        match judge {
            Some(judge) => ran.as_judged(judge),
            None => self
                .run(&Model)
                .map_or(Ok(()), |judge| ran.as_judged(&judge)),
        }
    }

    /// The smallest form that still fails: fewer runs and values, then smaller tables.
    pub fn smallest(self, fails: impl Fn(&Grouping) -> bool) -> Grouping {
        let mut small = self;
        for runs in 1..small.runs.len() {
            let mut fewer = small.clone();
            fewer.runs.truncate(runs);
            if fails(&fewer) {
                small = fewer;
                break;
            }
        }
        let each = small.values.iter().map(|&value| vec![value]);
        for values in [vec![]].into_iter().chain(each.collect::<Vec<_>>()) {
            let fewer = Grouping {
                values,
                ..small.clone()
            };
            if fails(&fewer) {
                small = fewer;
                break;
            }
        }
        let of = |case: &Case| Grouping {
            case: case.clone(),
            ..small.clone()
        };
        of(&shrink(small.case.clone(), |case| fails(&of(case))))
    }

    /// Both versions through a checker; none where this is no grouping.
    pub fn run(&self, checker: &dyn Checker) -> Option<Ran> {
        Some(
            Ran {
                flat: self.side(checker, &self.flat()?)?,
                grouped: self.side(checker, &self.grouped()?)?,
            }
            .answered(self, checker),
        )
    }

    fn side(&self, checker: &dyn Checker, case: &Case) -> Option<Side> {
        let compiled = run(checker, case)?;
        let after = match compiled.answer.number {
            0 => compiled.in_use(),
            _ => None,
        };
        Some(Side {
            compiled,
            after,
            answers: Vec::new(),
        })
    }
}

impl Ran {
    /// Asks about the values where both compile.
    fn answered(mut self, grouping: &Grouping, checker: &dyn Checker) -> Self {
        if self.flat.after.is_some() && self.grouped.after.is_some() {
            self.flat.ask(grouping, checker);
            self.grouped.ask(grouping, checker);
        }
        self
    }

    /// Whether both versions compile.
    pub fn compiled(&self) -> bool {
        self.numbers() == [0, 0]
    }

    fn numbers(&self) -> [u32; 2] {
        [&self.flat, &self.grouped].map(|side| side.compiled.answer.number)
    }

    /// Whether both versions say the same, or where they do not.
    pub fn alike(&self) -> Result<(), String> {
        match self.numbers() {
            [0, 0] => self.compiled_alike(),
            [flat, grouped] if flat == grouped => Ok(()),
            // levels and room may differ
            [_, 23 | 33] | [23 | 33, _] => Ok(()),
            // the kinds of a run are judged before what follows it compiles
            [30 | 32, 31] => Ok(()),
            [flat, grouped] => Err(format!(
                "compiling answers {flat}, with its runs grouped {grouped}"
            )),
        }
    }

    fn compiled_alike(&self) -> Result<(), String> {
        let Some([flat, grouped]) = self.trees(Joins::Opened)? else {
            return Ok(());
        };
        let roots = [self.flat.root(&flat)?, self.grouped.root(&grouped)?];
        if roots[0] != roots[1] {
            return Err("the opened trees differ".to_string());
        }
        let pairs = self.flat.answers.iter().zip(&self.grouped.answers);
        for (place, (one, other)) in pairs.enumerate() {
            if [one, other].iter().any(|side| side.answer.number == 23) {
                continue;
            }
            let said = [Said::of(one, &flat), Said::of(other, &grouped)];
            if said[0] != said[1] {
                let (value, mode) = (place / MODES.len(), MODES[place % MODES.len()].1);
                return Err(format!(
                    "value {value}, {mode}: {:?}\n  with its runs grouped {:?}",
                    said[0], said[1]
                ));
            }
        }
        Ok(())
    }

    /// The trees of all records of both results; none where one is too large.
    fn trees(&self, joins: Joins) -> Result<Option<[Vec<Tree>; 2]>, String> {
        let mut trees = Trees::default();
        let mut of = |side: &Side| match &side.after {
            Some(tables) if check(tables).is_ok() => Ok(trees.of(tables, joins)),
            _ => Err("compiled tables that are not well-formed".to_string()),
        };
        let (flat, grouped) = (of(&self.flat)?, of(&self.grouped)?);
        Ok(flat.zip(grouped).map(|(flat, grouped)| [flat, grouped]))
    }

    /// Whether every call left behind what the second judge left.
    pub fn as_judged(&self, judge: &Ran) -> Result<(), String> {
        let sides = [
            ("flat", &self.flat, &judge.flat),
            ("grouped", &self.grouped, &judge.grouped),
        ];
        for (name, side, judge) in sides {
            if side.compiled != judge.compiled {
                return Err(format!(
                    "{name}: compile: {:?}\n  not {:?}, or other words",
                    side.compiled.answer, judge.compiled.answer
                ));
            }
            let wrong = side.answers.iter().zip(&judge.answers);
            if let Some((one, other)) = wrong.into_iter().find(|(one, other)| one != other) {
                return Err(format!(
                    "{name}: {:?}\n  not {:?}, or other paths",
                    one.answer, other.answer
                ));
            }
        }
        Ok(())
    }

    /// Counts what was compared.
    pub fn count(&self, grouping: &Grouping, tally: &mut Tally) {
        let [flat, grouped] = self.numbers();
        let heading = if flat == grouped {
            "compiling, both answer"
        } else {
            "compiling, flat and grouped answer"
        };
        let entry = match flat == grouped {
            true => flat.to_string(),
            false => format!("{flat} and {grouped}"),
        };
        tally.add(heading, &entry);
        tally.add("runs", &grouping.runs.len().to_string());
        for run in &grouping.runs {
            tally.add("bases in a run", &run.count.to_string());
        }
        if [flat, grouped] != [0, 0] {
            return;
        }
        let shut = self.same_root(Joins::Shut);
        tally.add(
            "trees alike",
            match (shut, self.same_root(Joins::Opened)) {
                (Some(true), _) => "joins left shut too",
                (_, Some(true)) => "once joins are opened",
                (_, Some(false)) => "not",
                (_, None) => "too large, not compared",
            },
        );
        let pairs = self.flat.answers.iter().zip(&self.grouped.answers);
        for (place, (one, other)) in pairs.enumerate() {
            let mode = MODES[place % MODES.len()].1;
            let numbers = [one.answer.number, other.answer.number];
            match numbers.contains(&23) {
                true => tally.add("values not compared, too deep", mode),
                false => tally.add(&format!("values, {mode}"), &numbers[0].to_string()),
            }
            if one.steps != other.steps {
                tally.add("schema paths alike", "once allOf steps are out");
            }
        }
    }

    fn same_root(&self, joins: Joins) -> Option<bool> {
        let [flat, grouped] = self.trees(joins).ok()??;
        Some(self.flat.root(&flat).ok()? == self.grouped.root(&grouped).ok()?)
    }
}

impl Side {
    fn ask(&mut self, grouping: &Grouping, checker: &dyn Checker) {
        let Some(tables) = &self.after else {
            return;
        };
        let mut case = Case {
            tables: tables.clone(),
            request: Request::Navigate {
                node: 0,
                path: Vec::new(),
                key_wanted: false,
            },
        };
        for &node in &grouping.values {
            for (mode, _) in MODES {
                case.request = Request::Validate {
                    mode,
                    node,
                    schema: self.compiled.answer.record,
                    instance_words: INSTANCE_WORDS,
                    schema_words: SCHEMA_WORDS,
                };
                self.answers.extend(run(checker, &case));
            }
        }
    }

    fn root(&self, trees: &[Tree]) -> Result<Tree, String> {
        let record = self.compiled.answer.record;
        let tree = trees.get(record as usize).copied();
        tree.ok_or_else(|| format!("compiled to {record}, which is no record"))
    }
}

/// What has to be the same of two answers.
#[derive(Debug, PartialEq, Eq)]
struct Said {
    number: u32,
    node: u32,
    schema: Option<Tree>,
    hint: u32,
    detail: (u32, u32, u32, Option<Tree>),
    reals: [u64; 2],
    instance: Vec<u32>,
    steps: Vec<u32>,
}

impl Said {
    fn of(outcome: &Outcome, trees: &[Tree]) -> Self {
        let answer = &outcome.answer;
        let tree = |record: u32| trees.get(record as usize).copied();
        let named = answer.detail == detail::PROPERTY && answer.b != NONE;
        let steps = outcome.steps.get(..answer.schema_steps as usize);
        let kept = |kind: &u32| *kind != schema::ALL_OF;
        Self {
            number: answer.number,
            node: answer.node,
            schema: tree(answer.schema),
            hint: answer.hint,
            detail: match named {
                true => (answer.detail, answer.a, 0, tree(answer.b)),
                false => (answer.detail, answer.a, answer.b, None),
            },
            reals: [answer.value.to_bits(), answer.bound.to_bits()],
            instance: outcome.instance.clone(),
            steps: steps.unwrap_or(&[]).iter().copied().filter(kept).collect(),
        }
    }
}

/// The flat compile, the runs and the values.
impl fmt::Display for Grouping {
    fn fmt(&self, f: &mut fmt::Formatter<'_>) -> fmt::Result {
        write!(f, "{}", self.case)?;
        writeln!(f, "  runs {:?}", self.runs)?;
        writeln!(f, "  values {:?}, spare {:?}", self.values, self.spare)
    }
}
