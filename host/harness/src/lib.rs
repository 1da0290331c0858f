//! Generated cases, the comparison of every checker with the original and with
//! the second judge, the shrinker, and the stored answers.

pub use quarto_yaml_tables::remote;

pub mod case;
pub mod generate;
pub mod grouped;
pub mod guard;
pub mod judge;
pub mod pattern;
pub mod plant;
pub mod record;
pub mod rng;
pub mod run;
pub mod shrink;
pub mod tally;
pub mod workloads;

use std::process::ExitCode;

/// How a command ends; what went wrong goes to the error output.
pub fn ended(result: Result<(), String>) -> ExitCode {
    match result {
        Ok(()) => ExitCode::SUCCESS,
        Err(message) => {
            eprintln!("{message}");
            ExitCode::FAILURE
        }
    }
}
