//! Checks wheel files against a schema: see `--help`.

use quarto_yaml_tables::Checker;
use quarto_yaml_tables::remote::Remote;
use std::process::ExitCode;
use std::time::Duration;

/// How long a call may take: a schema that refers to itself twice over can stand for an enormous tree.
const LIMIT: Duration = Duration::from_secs(60);

/// Values nest as deep as there are nodes; whatever the machine's limit is, there is room for them.
const STACK: usize = 64 << 20;

fn main() -> ExitCode {
    let library = || {
        let library = Remote::built()?.limited(LIMIT);
        Some(Box::new(library) as Box<dyn Checker>)
    };
    let words = std::env::args_os().skip(1);
    let words: Vec<String> = words
        .map(|word| word.to_string_lossy().into_owned())
        .collect();
    let work = move || wheelcheck::command::run(words, library);
    let status = std::thread::Builder::new()
        .stack_size(STACK)
        .spawn(work)
        .map(|thread| thread.join());
    match status {
        Ok(Ok(status)) => ExitCode::from(status),
        _ => ExitCode::from(2),
    }
}
