//! The command: words in, reports out.

use crate::args::{Args, Asked, USAGE, parse};
use crate::report::{Progress, Style, Summary, failure, json, report, warning};
use crate::source::{Failure, Trouble};
use crate::station::{Report, Station, Verdict, lacking};
use quarto_yaml_tables::Checker;
use std::io::{IsTerminal, Write, stderr, stdout};
use std::panic;

/// Exit status where the command could not run.
const COULD_NOT_RUN: u8 = 2;

/// Runs the command over a checker, none where there is no library; gives the exit status.
pub fn run(
    words: impl IntoIterator<Item = String>,
    checker: impl FnOnce() -> Option<Box<dyn Checker>>,
) -> u8 {
    let args = match parse(words) {
        Ok(Asked::Check(args)) => args,
        Ok(Asked::Help) => {
            print(USAGE);
            return 0;
        }
        Err(wrong) => {
            complain(&format!("wheelcheck: {wrong}\n\n{USAGE}"));
            return COULD_NOT_RUN;
        }
    };
    quiet_reader();
    let station = ready(checker())
        .and_then(|checker| Station::open(checker, args.mode, &args.schema, &args.bases));
    match station {
        Ok(station) => check(&args, station),
        Err(trouble) => {
            complain(&failure(&trouble, style(stderr().is_terminal())));
            COULD_NOT_RUN
        }
    }
}

/// A panic of the YAML reader is reported as trouble with its file, not on top of it.
fn quiet_reader() {
    let usual = panic::take_hook();
    panic::set_hook(Box::new(move |info| {
        let place = info.location().map_or("", |place| place.file());
        if !place.contains("yaml-rust") {
            usual(info);
        }
    }));
}

/// The library with all its calls.
fn ready(checker: Option<Box<dyn Checker>>) -> Result<Box<dyn Checker>, Box<Failure>> {
    let wrong = |message: String| {
        Box::new(Failure {
            name: "wheelcheck".to_string(),
            source: None,
            trouble: Trouble::of_file(message).hint("'host/archive --anew' makes the library anew"),
        })
    };
    let checker = checker.ok_or_else(|| wrong("the proved library is missing".to_string()))?;
    match lacking(checker.as_ref()) {
        Some(call) => Err(wrong(format!("the proved library lacks the call {call}"))),
        None => Ok(checker),
    }
}

fn check(args: &Args, mut station: Station) -> u8 {
    let (out, errors) = (style(stdout().is_terminal()), style(stderr().is_terminal()));
    if !args.quiet && !args.json {
        for Failure {
            name,
            source,
            trouble,
        } in station.warnings()
        {
            complain(&warning(name, source.as_ref(), trouble, errors));
        }
    }
    let mut summary = Summary::default();
    let mut progress = Progress::new(args.files.len(), stderr().is_terminal() && !args.quiet);
    for (done, file) in args.files.iter().enumerate() {
        progress.draw(done);
        let found = station.check(file);
        summary.count(&found);
        let (text, trouble) = said(&found, args, out, errors);
        if !text.is_empty() || !trouble.is_empty() {
            progress.clear();
            complain(&trouble);
            print(&text);
        }
    }
    progress.clear();
    if !args.json && !args.quiet {
        print(&(summary.line() + "\n"));
    }
    summary.status()
}

/// What goes to the output for a file, and what to the error output.
fn said(found: &Report, args: &Args, out: Style, errors: Style) -> (String, String) {
    if args.json {
        let object = if args.quiet {
            String::new()
        } else {
            json(found) + "\n"
        };
        return (object, String::new());
    }
    let unchecked = matches!(found.verdict, Verdict::Unchecked(_));
    match (unchecked, args.quiet) {
        (true, _) => (String::new(), report(found, errors)),
        (false, true) => (String::new(), String::new()),
        (false, false) => {
            let warnings = found.warnings.iter();
            let warnings = warnings
                .map(|trouble| warning(&found.name, found.source.as_ref(), trouble, errors))
                .collect();
            (report(found, out), warnings)
        }
    }
}

fn style(terminal: bool) -> Style {
    match terminal && std::env::var_os("NO_COLOR").is_none() {
        true => Style::Coloured,
        false => Style::Plain,
    }
}

/// A reader that has gone away is no trouble of ours.
fn print(text: &str) {
    let _ = stdout().write_all(text.as_bytes());
    let _ = stdout().flush();
}

fn complain(text: &str) {
    let _ = stderr().write_all(text.as_bytes());
}
