//! A second judge: the rules of the scope document, written down plainly.
//!
//! It was written from that document's text alone and aims at being read beside
//! it, not at speed. It judges what the original cannot: damaged tables,
//! standard mode, answers 23 to 25 and 33, path buffers and spare room word
//! for word, and the words of compiled tables.

mod check;
mod compile;
mod json;
mod merge;
mod navigate;
mod room;
mod visit;

pub use check::{Bad, Counts, check, check_used};
pub use compile::{Merge, compile_with};
pub use json::{Equality, equal};
pub use merge::merge;
pub use room::Room;

use quarto_yaml_tables::{Answer, Checker, Paths, RawTables, Visit};

/// The second judge.
#[derive(Clone, Copy, Debug, Default)]
pub struct Model;

impl Checker for Model {
    fn navigate(&self, tables: &RawTables, node: u32, path: &[u32], key_wanted: bool) -> Answer {
        navigate::navigate(tables, node, path, key_wanted)
    }

    fn validate(&self, tables: &RawTables, visit: Visit, paths: &mut Paths) -> Answer {
        visit::validate(tables, visit, paths)
    }

    fn compile(&self, tables: &mut RawTables, used: [u32; 3], schema: u32) -> Answer {
        compile::compile(tables, used, schema)
    }
}
