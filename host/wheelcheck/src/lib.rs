//! Checks wheel files against a schema, over the proved library.
//!
//! A [`station::Station`] reads a schema and its bases, compiles them with a
//! [`Checker`](quarto_yaml_tables::Checker) and checks one file after another;
//! [`report`] says what is wrong, for a person or for a machine. What the
//! checker answers is proved; reading YAML, answering patterns and the texts
//! are this crate's.
//!
//! A host takes `Remote::built()` of `quarto_yaml_tables::remote` as its
//! checker, the proved library; here the second judge stands in for it.
//!
//! ```
//! use quarto_yaml_model::Model;
//! use quarto_yaml_tables::Mode;
//! use wheelcheck::station::{Station, Verdict};
//!
//! let schema = "../../examples/wheel.schema.yaml";
//! let mut station = Station::open(Box::new(Model), Mode::Source, schema, &[]).expect("a schema");
//! let report = station.check("../../examples/wheels/step-200.yaml");
//! let Verdict::Refused(refusal) = report.verdict else { panic!("refused") };
//! assert_eq!(refusal.message, "Number 200 is greater than maximum 127");
//! assert_eq!(refusal.place.map(|place| (place.line, place.column)), Some((4, 7)));
//! ```

pub mod args;
pub mod command;
mod marks;
pub mod message;
pub mod patterns;
pub mod report;
pub mod schema;
pub mod source;
pub mod station;
pub mod values;
pub mod yaml;
