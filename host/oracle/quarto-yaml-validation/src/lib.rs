//! The given `quarto-yaml-validation`, unchanged, from the folder named by
//! `ORACLE_SRC` when this crate is built; empty where the folder is missing.
//!
//! The library root is not part of the given source. The one here adds two
//! doors to private functions: what JSON a value is, and the types that a
//! missing property advertises.

#[cfg(oracle_present)]
include!(concat!(env!("OUT_DIR"), "/root.rs"));
