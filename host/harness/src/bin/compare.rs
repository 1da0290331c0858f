//! `compare SEED COUNT [STREAM]`: runs generated cases through the original,
//! the second judge and every checker that is built in; fails on a difference.

use quarto_yaml_harness::generate::{self, Stream};
use quarto_yaml_harness::guard::{self, Plan};
use quarto_yaml_oracle::PRESENT;
use std::path::Path;
use std::process::ExitCode;
use std::time::Instant;

const USAGE: &str = "usage: compare SEED COUNT [STREAM] | compare --show STREAM SEED INDEX";

fn main() -> ExitCode {
    let arguments: Vec<String> = std::env::args().skip(1).collect();
    let words: Vec<&str> = arguments.iter().map(String::as_str).collect();
    let result = match words[..] {
        ["--worker", stream, seed, start, end, place] => worker(stream, seed, [start, end], place),
        ["--show", stream, seed, index] => show(stream, seed, index),
        [seed, count] => compare(seed, count, "all"),
        [seed, count, stream] => compare(seed, count, stream),
        _ => Err(USAGE.to_string()),
    };
    match result {
        Ok(code) => code,
        Err(message) => {
            eprintln!("{message}");
            ExitCode::from(2)
        }
    }
}

fn number(text: &str) -> Result<u64, String> {
    text.parse().map_err(|_| format!("not a number: {text}"))
}

fn plan(stream: &str, seed: &str) -> Result<Plan, String> {
    let names = Stream::NAMES.map(|(name, _)| name).join(", ");
    let stream = Stream::named(stream).ok_or(format!("streams: {names}"))?;
    Ok(Plan {
        stream,
        seed: number(seed)?,
    })
}

fn worker(
    stream: &str,
    seed: &str,
    [start, end]: [&str; 2],
    place: &str,
) -> Result<ExitCode, String> {
    let range = number(start)?..number(end)?;
    guard::work(plan(stream, seed)?, range, Path::new(place)).map_err(|error| error.to_string())?;
    Ok(ExitCode::SUCCESS)
}

fn show(stream: &str, seed: &str, index: &str) -> Result<ExitCode, String> {
    let plan = plan(stream, seed)?;
    let index = number(index)?;
    match plan.stream {
        Stream::Grouped => print!("{}", generate::grouping(plan.seed, index)),
        stream => print!("{}", generate::case(stream, plan.seed, index)),
    }
    Ok(ExitCode::SUCCESS)
}

fn compare(seed: &str, count: &str, stream: &str) -> Result<ExitCode, String> {
    let plan = plan(stream, seed)?;
    let count = number(count)?;
    if !PRESENT && plan.stream != Stream::Grouped {
        println!("compare: not run, the original's source is not there");
        return Ok(ExitCode::SUCCESS);
    }
    let workers = std::env::var("JOBS")
        .ok()
        .and_then(|jobs| jobs.parse().ok());
    let start = Instant::now();
    let report = guard::supervise(plan, 0..count, workers.unwrap_or(1))
        .map_err(|error| error.to_string())?;
    let seconds = start.elapsed().as_secs_f64();
    print!("{}", report.tally);
    for difference in report.differences.iter().take(5) {
        println!("difference: {difference}");
    }
    let names: Vec<&str> = guard::checkers().iter().map(|(name, _)| *name).collect();
    let judges = match plan.stream {
        Stream::Grouped => "both versions and the model",
        _ => "the original and the model",
    };
    println!(
        "compare: {count} cases, seed {seed}, stream {stream}, {} against {judges}: {} differ ({:.1} s, {:.0} cases/s)",
        names.join(" and "),
        report.differences.len(),
        seconds,
        count as f64 / seconds
    );
    Ok(if report.differences.is_empty() {
        ExitCode::SUCCESS
    } else {
        ExitCode::FAILURE
    })
}
