//! The second judge with something changed, to stand in for a library that goes wrong.

use quarto_yaml_model::{Merge, Model, compile_with, merge};
use quarto_yaml_tables::{Answer, Checker, Paths, RawTables, Visit};

/// The second judge and what is changed in it.
#[derive(Clone, Copy)]
pub struct Altered<After = fn(&RawTables, &mut Answer, &mut Paths)> {
    /// The tables that a validation is asked with.
    pub visited: fn(&RawTables) -> RawTables,
    /// How an object is merged with its bases.
    pub merge: Merge,
    /// What becomes of a validation's answer and paths.
    pub after: After,
}

/// Nothing is changed.
pub const UNALTERED: Altered = Altered {
    visited: RawTables::clone,
    merge,
    after: |_, _, _| {},
};

/// Only what becomes of a validation is changed.
pub fn altered<After>(after: After) -> Altered<After>
where
    After: Fn(&RawTables, &mut Answer, &mut Paths),
{
    Altered {
        visited: UNALTERED.visited,
        merge: UNALTERED.merge,
        after,
    }
}

impl<After> Checker for Altered<After>
where
    After: Fn(&RawTables, &mut Answer, &mut Paths),
{
    fn navigate(&self, tables: &RawTables, node: u32, path: &[u32], key_wanted: bool) -> Answer {
        Model.navigate(tables, node, path, key_wanted)
    }

    fn validate(&self, tables: &RawTables, visit: Visit, paths: &mut Paths) -> Answer {
        let mut answer = Model.validate(&(self.visited)(tables), visit, paths);
        (self.after)(tables, &mut answer, paths);
        answer
    }

    fn compile(&self, tables: &mut RawTables, used: [u32; 3], schema: u32) -> Answer {
        compile_with(self.merge, tables, used, schema)
    }
}
