//! Which cases are stored.

use crate::case::{Case, Request};
use crate::generate::{self, EDGES, Edge, Stream};
use crate::judge::{Ask, Heard, Judged};
use crate::rng::Rng;
use crate::run::Outcome;
use quarto_yaml_tables::layout::{INSTANCE_WORDS, NODES, SCHEMA_WORDS, SCHEMAS};
use quarto_yaml_tables::{Mode, RawTables};
use std::collections::BTreeSet;

/// The calls that answers are stored of.
#[derive(Clone, Copy, Debug, PartialEq, Eq)]
pub enum Kind {
    /// Following a path.
    Navigate,
    /// Following a path where something is wrong.
    DamagedNavigate,
    /// Checking a value.
    Validate,
    /// Compiling a schema.
    Compile,
}

/// Stored answers of one call.
#[derive(Clone, Debug)]
pub struct Sample {
    /// The call.
    pub kind: Kind,
    /// The seed.
    pub seed: u64,
    /// The tables with their calls.
    pub groups: Vec<Group>,
}

/// Tables, and calls over them.
#[derive(Clone, Debug)]
pub struct Group {
    /// The tables.
    pub tables: RawTables,
    /// The calls.
    pub stored: Vec<Stored>,
}

/// One call with what it has to leave behind.
#[derive(Clone, Debug)]
pub struct Stored {
    /// The call.
    pub request: Request,
    /// What it leaves behind.
    pub outcome: Outcome,
    /// Whether the original was asked, and agrees.
    pub by_original: bool,
}

impl Kind {
    /// All kinds by name.
    pub const NAMES: [(&'static str, Kind); 4] = [
        ("navigate", Kind::Navigate),
        ("damaged-navigate", Kind::DamagedNavigate),
        ("validate", Kind::Validate),
        ("compile", Kind::Compile),
    ];

    /// The streams that are stored in turn.
    fn streams(self) -> &'static [Stream] {
        match self {
            Kind::Navigate => &[Stream::Navigate, Stream::Navigate, Stream::DamagedNavigate],
            Kind::DamagedNavigate => &[Stream::DamagedNavigate],
            Kind::Validate => &[
                Stream::Validate,
                Stream::Validate,
                Stream::Standard,
                Stream::Damaged,
            ],
            Kind::Compile => &[Stream::Compile, Stream::Damaged, Stream::Edges],
        }
    }

    /// The answers that have to be among those stored.
    pub fn numbers(self) -> Vec<u32> {
        match self {
            Kind::Navigate | Kind::DamagedNavigate => vec![0, 20, 21, 40],
            Kind::Validate => (0..=14).chain(20..=25).collect(),
            Kind::Compile => vec![0, 20, 21, 23, 30, 31, 32, 33],
        }
    }

    /// The edges that have to be among the calls stored: all that fit.
    pub fn edges(self) -> BTreeSet<Edge> {
        let kept = EDGES.into_iter().filter(|edge| !edge.is_large());
        kept.filter(|_| self == Kind::Compile).collect()
    }

    fn holds(self, request: &Request) -> bool {
        match request {
            Request::Navigate { .. } => self.number() == Kind::Navigate.number(),
            Request::Validate { .. } => self == Kind::Validate,
            Request::Compile { .. } | Request::CompileThenValidate { .. } => self == Kind::Compile,
        }
    }
}

/// Calls over the same tables.
const CALLS: usize = 6;

/// Words of stored tables and calls above which compiles are left out: a file is to stay small.
const LARGEST: usize = 1_500;

/// Cases that are looked at, at most, for an answer number that is missing.
const SEARCHED: u64 = 200_000;

/// A sample with at least this many calls, every answer number among them.
pub fn sample(kind: Kind, seed: u64, calls: usize) -> Result<Sample, String> {
    let mut groups = Vec::new();
    let mut missing: BTreeSet<u32> = kind.numbers().into_iter().collect();
    let mut edges: BTreeSet<Edge> = kind.edges();
    let mut total = 0;
    for index in 0..SEARCHED {
        if total >= calls && missing.is_empty() && edges.is_empty() {
            break;
        }
        let streams = kind.streams();
        let stream = streams[index as usize % streams.len()];
        let place = match stream {
            Stream::Edges => index / streams.len() as u64,
            _ => index,
        };
        let case = generate::case(stream, seed, place);
        if !kind.holds(&case.request) {
            continue;
        }
        let group = group(case, &mut Rng::of_case(seed ^ 1, index))?;
        if kind == Kind::Compile && group.size() > LARGEST {
            continue;
        }
        let edge = (stream == Stream::Edges).then(|| generate::edge(place));
        let numbers = group
            .stored
            .iter()
            .map(|stored| stored.outcome.answer.number);
        let numbers: BTreeSet<u32> = numbers.collect();
        let wanted = edge.is_some_and(|edge| edges.remove(&edge));
        if total < calls || wanted || !numbers.is_disjoint(&missing) {
            missing.retain(|number| !numbers.contains(number));
            total += group.stored.len();
            groups.push(group);
        }
    }
    match (missing.first(), edges.first()) {
        (Some(number), _) => Err(format!("no case answers {number}")),
        (_, Some(edge)) => Err(format!("no case: {edge}")),
        _ => Ok(Sample { kind, seed, groups }),
    }
}

fn group(case: Case, rng: &mut Rng) -> Result<Group, String> {
    let mut requests = vec![case.request.clone()];
    for _ in 1..CALLS {
        requests.push(another(&case, rng));
    }
    requests.dedup();
    let mut stored = Vec::new();
    for request in requests {
        let case = Case {
            tables: case.tables.clone(),
            request,
        };
        let judged = Judged::of(&case, Ask::Domain);
        judged
            .against_original(&judged.expected)
            .map_err(|difference| format!("the judges differ: {difference}\n{case}"))?;
        let by_original = !matches!(judged.heard, Heard::Outside(_));
        let outcome = judged.expected;
        stored.push(Stored {
            request: case.request,
            outcome,
            by_original,
        });
    }
    Ok(Group {
        tables: case.tables,
        stored,
    })
}

/// The same call with other arguments.
fn another(case: &Case, rng: &mut Rng) -> Request {
    let nodes = case.tables.count(NODES) + 1;
    let schemas = case.tables.count(SCHEMAS) + 1;
    match &case.request {
        Request::Navigate { node, path, .. } => {
            let cut = 2 * rng.below(path.len() / 2 + 1);
            let (node, path) = match rng.below(4) {
                0 => (rng.below(nodes) as u32, path[cut..].to_vec()),
                1 => (*node, path[..cut].to_vec()),
                2 => (rng.below(nodes) as u32, vec![1, rng.below(3) as u32]),
                _ => (*node, path.clone()),
            };
            Request::Navigate {
                node,
                path,
                key_wanted: rng.percent(50),
            }
        }
        Request::Validate { node, schema, .. } => Request::Validate {
            mode: rng.pick(&[Mode::Unnamed, Mode::Source, Mode::Standard]),
            node: if rng.percent(40) {
                *node
            } else {
                rng.below(nodes) as u32
            },
            schema: if rng.percent(20) {
                *schema
            } else {
                rng.below(schemas) as u32
            },
            instance_words: if rng.percent(4) {
                127
            } else {
                INSTANCE_WORDS + rng.below(3)
            },
            schema_words: if rng.percent(4) {
                63
            } else {
                SCHEMA_WORDS + rng.below(3)
            },
        },
        Request::Compile { used, .. } | Request::CompileThenValidate { used, .. } => {
            Request::Compile {
                used: *used,
                schema: rng.below((used[1] as usize + 1).min(schemas)) as u32,
            }
        }
    }
}
