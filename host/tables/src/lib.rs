//! The tables that the wheel-file checker reads, its answers, and its calls.
//!
//! A host builds [`Tables`] from its values and schemas, then hands them to a
//! [`Checker`]: the proved library, in a process of its own ([`remote`]) or linked
//! (feature `library`, module `calls`), or any other that answers by the same rules.
//!
//! ```
//! use quarto_yaml_tables::{NumberRules, Tables};
//!
//! let mut tables = Tables::new();
//! let step = tables.integer(200)?;
//! let rules = NumberRules { maximum: Some(127.0), ..NumberRules::default() };
//! let schema = tables.number_schema(None, &rules)?;
//! assert_eq!((step.get(), schema.get()), (0, 0));
//! # Ok::<(), quarto_yaml_tables::TableError>(())
//! ```

mod answer;
#[cfg(feature = "library")]
pub mod calls;
mod checker;
mod error;
mod ids;
pub mod layout;
mod nodes;
mod notes;
mod raw;
pub mod remote;
mod schemas;
mod tables;

pub use answer::{Answer, Detail, detail};
pub use checker::{Call, Checker, Mode, Paths, Visit};
pub use error::TableError;
pub use ids::{Node, Note, Schema, Text};
pub use notes::NoteFields;
pub use raw::RawTables;
pub use schemas::{ArrayRules, NumberRules, ObjectRules, StringRules};
pub use tables::{PatternAnswer, Tables};
