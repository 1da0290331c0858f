//! The workloads of `host/bench`, whose instructions are counted from outside.
//!
//! `bench names` lists them. `bench request NAME` writes a workload as `serve`
//! reads it. `bench run NAME` makes the original's call and prints the answer's
//! number.

use quarto_yaml_harness::remote::validation;
use quarto_yaml_harness::workloads::{WORKLOADS, Workload};
use quarto_yaml_oracle::{PRESENT, Prepared};
use quarto_yaml_tables::{Mode, Paths, Visit};
use std::io::Write;
use std::process::ExitCode;

const USAGE: &str = "usage: bench names | bench request NAME | bench run NAME";

fn main() -> ExitCode {
    let arguments: Vec<String> = std::env::args().skip(1).collect();
    let words: Vec<&str> = arguments.iter().map(String::as_str).collect();
    let result = match words[..] {
        ["names"] => {
            WORKLOADS.iter().for_each(|(name, _)| println!("{name}"));
            Ok(())
        }
        ["request", name] => workload(name).and_then(|workload| request(&workload)),
        ["run", name] => workload(name).and_then(|workload| run(&workload)),
        _ => Err(USAGE.to_string()),
    };
    quarto_yaml_harness::ended(result)
}

fn workload(name: &str) -> Result<Workload, String> {
    let known = WORKLOADS.iter().find(|(known, _)| *known == name);
    let (_, build) = known.ok_or_else(|| format!("no workload is called {name}"))?;
    build().map_err(|error| format!("{name}: {error:?}"))
}

fn request(workload: &Workload) -> Result<(), String> {
    let visit = Visit {
        mode: Mode::Source,
        node: workload.node,
        schema: workload.schema,
    };
    let bytes = validation(&workload.tables, visit, &Paths::default());
    let written = std::io::stdout().write_all(&bytes);
    written.map_err(|error| error.to_string())
}

fn run(workload: &Workload) -> Result<(), String> {
    if !PRESENT {
        return Err("bench: not run, the original's source is not there".to_string());
    }
    let prepared = Prepared::new(&workload.tables, workload.node, workload.schema);
    println!("{}", prepared.number());
    Ok(())
}
