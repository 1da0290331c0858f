//! Cases by seed and index.

mod build;
mod damage;
mod deep;
mod edges;
mod grouped;
mod objects;
mod pairs;
mod paths;
pub(crate) mod room;
mod schemas;
mod values;

use crate::case::{Case, Request};
use crate::judge::Ask;
use crate::rng::Rng;
use build::Build;
pub use edges::{EDGES, Edge, edge};
pub use grouped::grouping;
pub use pairs::pairs;
use quarto_yaml_tables::layout::{INSTANCE_WORDS, SCHEMA_WORDS};
use quarto_yaml_tables::{Mode, RawTables};

/// Which cases are wanted.
#[derive(Clone, Copy, Debug, PartialEq, Eq)]
pub enum Stream {
    /// Some of each.
    All,
    /// Navigation over well-formed tables.
    Navigate,
    /// Validation in source mode over well-formed tables.
    Validate,
    /// Compiling over well-formed tables.
    Compile,
    /// Compiling, then validating against the result.
    Both,
    /// Validation in standard mode.
    Standard,
    /// Damaged tables, wrong numbers, short buffers.
    Damaged,
    /// Navigation over damaged tables and paths.
    DamagedNavigate,
    /// Each word of each table in turn, pushed to each boundary value.
    Sweep,
    /// Compiling at the edges of the room, of the limits and of the used counts.
    Edges,
    /// Compiling with runs of bases grouped and not, then validating against both results.
    Grouped,
    /// What never ends in the original: this tries the guard.
    Endless,
}

impl Stream {
    /// All streams by their names.
    pub const NAMES: [(&'static str, Stream); 12] = [
        ("all", Stream::All),
        ("navigate", Stream::Navigate),
        ("validate", Stream::Validate),
        ("compile", Stream::Compile),
        ("both", Stream::Both),
        ("standard", Stream::Standard),
        ("damaged", Stream::Damaged),
        ("damaged-navigate", Stream::DamagedNavigate),
        ("sweep", Stream::Sweep),
        ("edges", Stream::Edges),
        ("grouped", Stream::Grouped),
        ("endless", Stream::Endless),
    ];

    /// The stream of a name.
    pub fn named(name: &str) -> Option<Self> {
        Self::NAMES
            .into_iter()
            .find(|(known, _)| *known == name)
            .map(|(_, stream)| stream)
    }

    /// When the original is asked.
    pub fn ask(self) -> Ask {
        match self {
            Stream::Endless => Ask::Always,
            _ => Ask::Domain,
        }
    }

    /// The stream's name.
    pub fn name(self) -> &'static str {
        let known = Self::NAMES.into_iter().find(|(_, stream)| *stream == self);
        known.map_or("", |(name, _)| name)
    }
}

/// The case of a stream with this seed and index.
pub fn case(stream: Stream, seed: u64, index: u64) -> Case {
    if stream == Stream::Sweep {
        let kinds = [Stream::Compile, Stream::Validate, Stream::Navigate];
        let base = index / SWEEP;
        let mut rng = Rng::of_case(seed, base);
        let case = sound(kinds[(base % 3) as usize], &mut rng);
        return damage::swept(case, (index % SWEEP) as usize);
    }
    if stream == Stream::Grouped {
        return grouping(seed, index).case;
    }
    let mut rng = Rng::of_case(seed, index);
    let stream = match stream {
        Stream::All => rng.pick(&MIXED),
        other => other,
    };
    let kind = match stream {
        Stream::Endless => return deep::endless(index),
        Stream::Edges => return edges::case(edge(index), &mut rng),
        Stream::Damaged => rng.pick(&[Stream::Navigate, Stream::Validate, Stream::Compile]),
        Stream::DamagedNavigate => Stream::Navigate,
        other => other,
    };
    let case = sound(kind, &mut rng);
    match stream {
        Stream::Damaged | Stream::DamagedNavigate => damage::damaged(case, &mut rng),
        _ => case,
    }
}

/// Steps that a sweep takes over one base case: 1,024 words of it.
const SWEEP: u64 = 16_384;

/// What `Stream::All` draws from.
const MIXED: [Stream; 12] = [
    Stream::Navigate,
    Stream::Navigate,
    Stream::Validate,
    Stream::Validate,
    Stream::Validate,
    Stream::Validate,
    Stream::Compile,
    Stream::Compile,
    Stream::Both,
    Stream::Standard,
    Stream::Damaged,
    Stream::Damaged,
];

/// A case over well-formed tables.
fn sound(kind: Stream, rng: &mut Rng) -> Case {
    if rng.percent(2)
        && let Some(case) = deep::case(kind, rng)
    {
        return case;
    }
    let mut build = Build::new(rng);
    if kind == Stream::Navigate {
        build.duplicates = 15;
    }
    let depth = build.rng.between(1, 4);
    let node = build.value(depth);
    if kind == Stream::Navigate {
        for _ in 0..build.rng.below(3) {
            build.value(2);
        }
        if build.rng.percent(20) {
            build.schema_for(Some(node), 1);
        }
        let start = build.some_node(node);
        let path = build.path(start);
        let key_wanted = build.rng.percent(40);
        return Case {
            tables: build.finish(),
            request: Request::Navigate {
                node: start.get(),
                path,
                key_wanted,
            },
        };
    }
    let based = kind != Stream::Validate && kind != Stream::Standard;
    build.bases = if based { 45 } else { 4 };
    let depth = build.rng.between(1, 4);
    let root = if based && build.rng.percent(60) {
        build.object_schema(Some(node), depth)
    } else {
        build.schema_for(Some(node), depth)
    };
    build.register_some(root);
    let start = if build.rng.percent(3) {
        build.some_node(node)
    } else {
        node
    };
    let schema = if build.rng.percent(3) {
        build.some_schema(root)
    } else {
        root
    };
    let (node, schema) = (start.get(), schema.get());
    let tables = build.finish();
    match kind {
        Stream::Compile => room::compile(tables, schema, rng, |used| Request::Compile {
            used,
            schema,
        }),
        Stream::Both => room::compile(tables, schema, rng, |used| Request::CompileThenValidate {
            used,
            schema,
            node,
        }),
        _ => validate(tables, kind, [node, schema], rng),
    }
}

fn validate(tables: RawTables, kind: Stream, [node, schema]: [u32; 2], rng: &mut Rng) -> Case {
    let mode = match kind {
        Stream::Standard => Mode::Standard,
        _ => rng.pick(&[Mode::Unnamed, Mode::Source]),
    };
    let extra = |rng: &mut Rng| if rng.percent(30) { rng.below(5) } else { 0 };
    Case {
        request: Request::Validate {
            mode,
            node,
            schema,
            instance_words: INSTANCE_WORDS + extra(rng),
            schema_words: SCHEMA_WORDS + extra(rng),
        },
        tables,
    }
}
