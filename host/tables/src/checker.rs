//! The three calls, whoever answers them.

use crate::layout::{INSTANCE_WORDS, SCHEMA_WORDS};
use crate::{Answer, RawTables};

/// How lengths and numbers are compared.
#[derive(Clone, Copy, Debug, PartialEq, Eq, Hash)]
pub enum Mode {
    /// The call that names no mode, which means source mode.
    Unnamed,
    /// As the original does.
    Source,
    /// As JSON Schema does.
    Standard,
}

impl Mode {
    /// The mode's number in requests and stored answers.
    pub fn number(self) -> u32 {
        match self {
            Self::Unnamed => 0,
            Self::Source => 1,
            Self::Standard => 2,
        }
    }
}

/// What is validated: a node against a schema.
#[derive(Clone, Copy, Debug, PartialEq, Eq)]
pub struct Visit {
    /// How lengths and numbers are compared.
    pub mode: Mode,
    /// The node's number.
    pub node: u32,
    /// The schema's number.
    pub schema: u32,
}

/// The buffers that a validation writes both paths into, to their ends.
#[derive(Clone, Debug, PartialEq, Eq)]
pub struct Paths {
    /// The instance path: pairs of words.
    pub instance: Vec<u32>,
    /// The schema path: kinds.
    pub steps: Vec<u32>,
}

impl Paths {
    /// Buffers of so many words each, all of them this one.
    pub fn of(word: u32, [instance_words, schema_words]: [usize; 2]) -> Self {
        Self {
            instance: vec![word; instance_words],
            steps: vec![word; schema_words],
        }
    }

    /// The steps of the paths that an answer says are there.
    pub fn held(&self, answer: &Answer) -> [&[u32]; 2] {
        [
            &self.instance[..2 * answer.instance_steps as usize],
            &self.steps[..answer.schema_steps as usize],
        ]
    }
}

impl Default for Paths {
    /// Buffers just long enough, all 0.
    fn default() -> Self {
        Self::of(0, [INSTANCE_WORDS, SCHEMA_WORDS])
    }
}

/// Answers the calls by the rules of the scope document.
///
/// The tables may hold anything: what is wrong with them is an answer.
pub trait Checker {
    /// Follows a path of step pairs from a node.
    fn navigate(&self, tables: &RawTables, node: u32, path: &[u32], key_wanted: bool) -> Answer;

    /// Checks a node against a schema and writes both paths.
    fn validate(&self, tables: &RawTables, visit: Visit, paths: &mut Paths) -> Answer;

    /// Compiles a schema into the room behind the used counts of notes, schemas and links.
    fn compile(&self, tables: &mut RawTables, used: [u32; 3], schema: u32) -> Answer;

    /// Whether this call can be made at all; some libraries lack one.
    fn has(&self, call: Call) -> bool {
        let _ = call;
        true
    }
}

/// The calls by name.
#[derive(Clone, Copy, Debug, PartialEq, Eq, Hash, PartialOrd, Ord)]
pub enum Call {
    /// Following a path.
    Navigate,
    /// Checking a value.
    Validate,
    /// Compiling a schema.
    Compile,
}
