//! Reports for a person.

use crate::message::code;
use crate::source::{Failure, Place, Source, Trouble};
use crate::station::{Refusal, Report, Step, Verdict};
use std::fmt::Write;

/// Most characters shown of a line, and of a message.
const WIDTH: usize = 160;
const MOST: usize = 1_000;

/// Whether parts are coloured.
#[derive(Clone, Copy, Debug, PartialEq, Eq)]
pub enum Style {
    /// For files and pipes.
    Plain,
    /// For a terminal.
    Coloured,
}

impl Style {
    fn paint(self, codes: &str, text: &str) -> String {
        match self {
            Self::Plain => text.to_string(),
            Self::Coloured => format!("\x1b[{codes}m{text}\x1b[0m"),
        }
    }
}

/// What came of a file; nothing where it is accepted.
pub fn report(report: &Report, style: Style) -> String {
    match &report.verdict {
        Verdict::Accepted => String::new(),
        Verdict::Unchecked(trouble) => {
            shown(&report.name, report.source.as_ref(), trouble, style, "31;1")
        }
        Verdict::Refused(refusal) => refused(report, refusal, style),
    }
}

/// What kept the command or a file from being checked.
pub fn failure(failure: &Failure, style: Style) -> String {
    let Failure {
        name,
        source,
        trouble,
    } = failure;
    shown(name, source.as_ref(), trouble, style, "31;1")
}

/// What is let pass and should be known.
pub fn warning(name: &str, source: Option<&Source>, trouble: &Trouble, style: Style) -> String {
    let trouble = Trouble {
        message: format!("warning: {}", trouble.message),
        ..trouble.clone()
    };
    shown(name, source, &trouble, style, "33;1")
}

fn refused(report: &Report, refusal: &Refusal, style: Style) -> String {
    let number = report.answer.map_or(0, |answer| answer.number);
    let code = code(number).map_or(String::new(), |code| format!(" [{code}]"));
    let trouble = Trouble {
        place: refusal.place,
        message: format!("{}{code}", shortened(&refusal.message)),
        hint: None,
    };
    let mut out = shown(
        &report.name,
        report.source.as_ref(),
        &trouble,
        style,
        "31;1",
    );
    let mut field = |name: &str, text: &str| {
        let name = style.paint("1", name);
        let _ = writeln!(out, "  {name}: {}", clean(text));
    };
    field("at", &instance_path(&refusal.instance));
    if let Some(hint) = &refusal.hint {
        field("hint", hint);
    }
    let kinds = match refusal.kinds.is_empty() {
        true => "(root)".to_string(),
        false => refusal.kinds.join(" > "),
    };
    let rule = refusal
        .rule
        .as_ref()
        .map_or(String::new(), |(name, place)| {
            format!(", {name}:{}:{}", place.line, place.column)
        });
    field("schema", &format!("{kinds}{rule}"));
    out
}

/// The way into a file as the original prints it.
fn instance_path(steps: &[Step]) -> String {
    if steps.is_empty() {
        return "(root)".to_string();
    }
    let parts: Vec<String> = steps
        .iter()
        .map(|step| match step {
            Step::Key(key) => key.clone(),
            Step::Index(index) => format!("[{index}]"),
        })
        .collect();
    parts.join(".")
}

fn shown(
    name: &str,
    source: Option<&Source>,
    trouble: &Trouble,
    style: Style,
    colour: &str,
) -> String {
    let place = trouble.place.map_or(String::new(), |place| {
        format!(":{}:{}", place.line, place.column)
    });
    let start = style.paint("1", &format!("{}{place}:", clean(name)));
    let message = style.paint(colour, &clean(&trouble.message));
    let mut out = format!("{start} {message}\n");
    if let (Some(source), Some(place)) = (source, trouble.place) {
        out += &excerpt(source, place, style, colour);
    }
    if let Some(hint) = &trouble.hint {
        let _ = writeln!(out, "  {}: {}", style.paint("1", "hint"), clean(hint));
    }
    out
}

/// The line with a mark under the value.
fn excerpt(source: &Source, place: Place, style: Style, colour: &str) -> String {
    let line: Vec<char> = source.line(place.line).chars().collect();
    let column = place.column.saturating_sub(1).min(line.len());
    // a long line is shown from half a width before the value
    let first = match line.len() > WIDTH {
        true => column.saturating_sub(WIDTH / 2),
        false => 0,
    };
    let last = line.len().min(first + WIDTH);
    let text: String = line[first..last].iter().collect();
    let before: String = line[first..column]
        .iter()
        .map(|c| if *c == '\t' { '\t' } else { ' ' })
        .collect();
    let length = place.length.min((last - column).max(1));
    let mark = style.paint(colour, &"^".repeat(length));
    let number = place.line.to_string();
    let margin = " ".repeat(number.len());
    let text = clean(&text);
    format!("  {number} | {text}\n  {margin} | {before}{mark}\n")
}

/// Without characters that a terminal would obey.
fn clean(text: &str) -> String {
    text.chars()
        .map(|c| match c {
            '\t' => c,
            c if c.is_control() => '\u{fffd}',
            c => c,
        })
        .collect()
}

fn shortened(message: &str) -> String {
    match message.char_indices().nth(MOST) {
        Some((end, _)) => format!("{}…", &message[..end]),
        None => message.to_string(),
    }
}

#[cfg(test)]
mod tests {
    use super::*;

    #[test]
    fn a_mark_stands_under_the_value() {
        let source = Source::new("w", "a: 1\n\tstep: 200\n");
        let place = Place {
            line: 2,
            column: 8,
            length: 3,
        };
        let found = excerpt(&source, place, Style::Plain, "");
        assert_eq!(found, "  2 | \tstep: 200\n    | \t      ^^^\n");
    }

    #[test]
    fn a_long_line_is_cut_and_the_mark_stays() {
        let text = format!("{}X{}", "a".repeat(5000), "b".repeat(5000));
        let place = Place {
            line: 1,
            column: 5001,
            length: 4000,
        };
        let found = excerpt(&Source::new("w", &text), place, Style::Plain, "");
        let lines: Vec<&str> = found.lines().collect();
        assert_eq!(lines[0].find('X'), lines[1].find('^'));
        assert!(lines.iter().all(|line| line.len() < 200));
    }

    #[test]
    fn nothing_is_obeyed_by_a_terminal() {
        assert_eq!(clean("a\x1b[31mb\n"), "a\u{fffd}[31mb\u{fffd}");
    }
}
