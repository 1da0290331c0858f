//! The original as a judge.
//!
//! Tables become the original's own values, its functions are called, and what
//! they answer becomes a form that an [`Answer`] can be put into as well. A
//! node's number travels as its offset, a note's words as invented strings.
//!
//! Where the given source was missing when this was built, [`PRESENT`] is
//! false and the judge has no answers.

#[cfg(oracle_present)]
mod annotations;
#[cfg(oracle_present)]
mod compiled;
#[cfg(oracle_present)]
mod judge;
#[cfg(oracle_present)]
mod names;
#[cfg(oracle_present)]
mod schemas;
#[cfg(oracle_present)]
mod values;

mod reach;
mod said;

#[cfg(oracle_present)]
pub use judge::Prepared;
pub use reach::{Unfit, fit};
pub use said::{Compiled, Detail, Said, Validated};

use quarto_yaml_tables::{Answer, RawTables};

/// Whether the given source was there when this was built.
pub const PRESENT: bool = cfg!(oracle_present);

/// How the message of the panic starts that is answer 25.
pub const INDEX_PANIC: &str = "index out of bounds";

/// The calls of the original over tables that are well-formed and [`fit`].
///
/// An endless call never returns, or runs out of stack: run it where that can
/// be noticed.
#[derive(Clone, Copy, Debug, Default)]
pub struct Oracle;

#[cfg(oracle_present)]
impl Oracle {
    /// The node that a path leads to.
    pub fn navigate(
        &self,
        tables: &RawTables,
        node: u32,
        path: &[u32],
        key_wanted: bool,
    ) -> Option<u32> {
        judge::navigate(tables, node, path, key_wanted)
    }

    /// Whether two nodes are equal as enum compares, and as unique does.
    pub fn equal(&self, tables: &RawTables, left: u32, right: u32) -> [bool; 2] {
        judge::equal(tables, left, right)
    }

    /// What the original says of a node under a schema.
    pub fn validate(&self, tables: &RawTables, node: u32, schema: u32) -> Validated {
        judge::validate(tables, node, schema)
    }

    /// The message and the code of its refusal, where the original refuses.
    pub fn message(&self, tables: &RawTables, node: u32, schema: u32) -> Option<(String, String)> {
        judge::message(tables, node, schema)
    }

    /// What the original compiles a schema to.
    pub fn compile(&self, tables: &RawTables, schema: u32) -> Compiled {
        judge::compile(tables, schema)
    }

    /// What the original says of a node under a schema that it has compiled.
    pub fn compile_then_validate(
        &self,
        tables: &RawTables,
        node: u32,
        schema: u32,
    ) -> Result<Validated, u32> {
        judge::compile_then_validate(tables, node, schema)
    }

    /// An answer to a validation in the original's words.
    pub fn said(
        &self,
        tables: &RawTables,
        answer: &Answer,
        instance: &[u32],
        steps: &[u32],
    ) -> Validated {
        judge::said(tables, answer, instance, steps)
    }

    /// A schema record in the words that a compiled schema is compared in.
    pub fn tree(&self, tables: &RawTables, schema: u32) -> String {
        compiled::tree(&schemas::schema(tables, schema))
    }
}

#[cfg(not(oracle_present))]
#[allow(missing_docs)]
impl Oracle {
    pub fn navigate(&self, _: &RawTables, _: u32, _: &[u32], _: bool) -> Option<u32> {
        absent()
    }

    pub fn equal(&self, _: &RawTables, _: u32, _: u32) -> [bool; 2] {
        absent()
    }

    pub fn validate(&self, _: &RawTables, _: u32, _: u32) -> Validated {
        absent()
    }

    pub fn message(&self, _: &RawTables, _: u32, _: u32) -> Option<(String, String)> {
        absent()
    }

    pub fn compile(&self, _: &RawTables, _: u32) -> Compiled {
        absent()
    }

    pub fn compile_then_validate(&self, _: &RawTables, _: u32, _: u32) -> Result<Validated, u32> {
        absent()
    }

    pub fn said(&self, _: &RawTables, _: &Answer, _: &[u32], _: &[u32]) -> Validated {
        absent()
    }

    pub fn tree(&self, _: &RawTables, _: u32) -> String {
        absent()
    }
}

/// A validation whose value, schema and registry stand ready.
#[cfg(not(oracle_present))]
pub struct Prepared;

#[cfg(not(oracle_present))]
#[allow(missing_docs)]
impl Prepared {
    pub fn new(_: &RawTables, _: u32, _: u32) -> Self {
        Self
    }

    pub fn number(&self) -> u32 {
        absent()
    }
}

#[cfg(not(oracle_present))]
fn absent() -> ! {
    panic!("the given source was missing when this was built")
}
