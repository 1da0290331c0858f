//! The given `quarto-yaml`, unchanged, from the folder named by `ORACLE_SRC`
//! when this crate is built; empty where the folder is missing.

#[cfg(oracle_present)]
include!(concat!(env!("OUT_DIR"), "/root.rs"));
