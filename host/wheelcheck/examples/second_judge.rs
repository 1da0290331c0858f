//! The same command over the second judge in place of the proved library, to compare the two.

use quarto_yaml_model::Model;
use std::process::ExitCode;

fn main() -> ExitCode {
    let judge = || Some(Box::new(Model) as Box<dyn quarto_yaml_tables::Checker>);
    ExitCode::from(wheelcheck::command::run(std::env::args().skip(1), judge))
}
