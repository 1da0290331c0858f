//! A case: tables and one call over them.

use quarto_yaml_tables::layout;
use quarto_yaml_tables::{Mode, RawTables};
use std::fmt;

/// Tables and one call.
#[derive(Clone, Debug, PartialEq, Eq)]
pub struct Case {
    /// What is lent; compile's room holds garbage.
    pub tables: RawTables,
    /// The call and its further arguments.
    pub request: Request,
}

/// A call with its arguments.
#[derive(Clone, Debug, PartialEq, Eq)]
pub enum Request {
    /// Following a path.
    Navigate {
        /// The start.
        node: u32,
        /// The step pairs.
        path: Vec<u32>,
        /// Whether a last key step answers the key.
        key_wanted: bool,
    },
    /// Checking a value.
    Validate {
        /// The mode.
        mode: Mode,
        /// The value.
        node: u32,
        /// The schema.
        schema: u32,
        /// Words of the instance path buffer.
        instance_words: usize,
        /// Words of the schema path buffer.
        schema_words: usize,
    },
    /// Compiling a schema.
    Compile {
        /// Used notes, schemas and links.
        used: [u32; 3],
        /// The schema.
        schema: u32,
    },
    /// Compiling a schema and checking a value against the result.
    CompileThenValidate {
        /// Used notes, schemas and links.
        used: [u32; 3],
        /// The schema.
        schema: u32,
        /// The value.
        node: u32,
    },
}

impl Request {
    /// The call's name in reports.
    pub fn name(&self) -> &'static str {
        match self {
            Self::Navigate { .. } => "navigate",
            Self::Validate {
                mode: Mode::Standard,
                ..
            } => "validate standard",
            Self::Validate { .. } => "validate",
            Self::Compile { .. } => "compile",
            Self::CompileThenValidate { .. } => "compile, validate",
        }
    }
}

pub use quarto_yaml_tables::layout::WORD_TABLES;

const TITLES: [&str; 7] = [
    "texts", "nodes", "notes", "schemas", "registry", "patterns", "links",
];

/// The case in full, NONE as `-`.
impl fmt::Display for Case {
    fn fmt(&self, f: &mut fmt::Formatter<'_>) -> fmt::Result {
        writeln!(f, "  {:?}", self.request)?;
        writeln!(f, "  pool {:?}", String::from_utf8_lossy(&self.tables.pool))?;
        for (table, title) in WORD_TABLES.into_iter().zip(TITLES) {
            write!(f, "  {title}")?;
            for (number, record) in self.tables.words(table).chunks(table.words).enumerate() {
                let words: Vec<String> = record.iter().map(|&word| shown(word)).collect();
                write!(f, " {number}:({})", words.join(" "))?;
            }
            writeln!(f)?;
        }
        write!(f, "  numbers")?;
        for (place, bits) in self.tables.numbers.iter().enumerate() {
            write!(
                f,
                " {place}:{} or {:?}",
                *bits as i64,
                f64::from_bits(*bits)
            )?;
        }
        writeln!(f)
    }
}

fn shown(word: u32) -> String {
    match word {
        layout::NONE => "-".to_string(),
        word => word.to_string(),
    }
}
