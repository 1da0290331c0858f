//! A file's text and places in it.

use std::fs::File;
use std::io::Read;
use std::path::Path;

/// Most bytes of a file: sixteen times what the pool of texts can hold.
pub const MOST_BYTES: u64 = 1_048_576;

/// Where a value stands: line and column from 1, and how many characters are marked.
#[derive(Clone, Copy, Debug, PartialEq, Eq)]
pub struct Place {
    /// The line, from 1.
    pub line: usize,
    /// The column, from 1, in characters.
    pub column: usize,
    /// Characters to mark on that line, at least 1.
    pub length: usize,
}

/// What is wrong with a file or a schema, and where.
#[derive(Clone, Debug, PartialEq, Eq)]
pub struct Trouble {
    /// The place, where there is one.
    pub place: Option<Place>,
    /// What is wrong.
    pub message: String,
    /// What would help.
    pub hint: Option<String>,
}

impl Trouble {
    /// Trouble with the file as a whole.
    pub fn of_file(message: impl Into<String>) -> Self {
        Self {
            place: None,
            message: message.into(),
            hint: None,
        }
    }

    /// Trouble at a place.
    pub fn at(place: Place, message: impl Into<String>) -> Self {
        Self {
            place: Some(place),
            ..Self::of_file(message)
        }
    }

    /// This trouble with a hint.
    pub fn hint(mut self, hint: impl Into<String>) -> Self {
        self.hint = Some(hint.into());
        self
    }
}

/// Trouble with a file, and its text where that could be read.
#[derive(Clone, Debug, PartialEq, Eq)]
pub struct Failure {
    /// The file's name as it was given.
    pub name: String,
    /// Its text.
    pub source: Option<Source>,
    /// What is wrong.
    pub trouble: Trouble,
}

/// A file's name and its text.
#[derive(Clone, Debug, PartialEq, Eq)]
pub struct Source {
    /// The name as it was given.
    pub name: String,
    /// The text, without a byte order mark.
    pub text: String,
}

impl Source {
    /// Reads a file; says why where it cannot.
    pub fn read(name: &str) -> Result<Self, Trouble> {
        let failed = |error: std::io::Error| Trouble::of_file(format!("cannot be read: {error}"));
        if Path::new(name).is_dir() {
            return Err(Trouble::of_file("is a directory, not a file"));
        }
        let mut bytes = Vec::new();
        File::open(name)
            .and_then(|file| file.take(MOST_BYTES + 1).read_to_end(&mut bytes))
            .map_err(failed)?;
        if bytes.len() as u64 > MOST_BYTES {
            return Err(Trouble::of_file(format!(
                "is too large: more than {MOST_BYTES} bytes"
            )));
        }
        let text = String::from_utf8(bytes).map_err(|error| not_utf8(&error))?;
        Ok(Self::new(name, &text))
    }

    /// A text under a name.
    pub fn new(name: &str, text: &str) -> Self {
        Self {
            name: name.to_string(),
            text: text.strip_prefix('\u{feff}').unwrap_or(text).to_string(),
        }
    }

    /// Trouble with this file.
    pub fn failure(&self, trouble: Trouble) -> Box<Failure> {
        Box::new(Failure {
            name: self.name.clone(),
            source: Some(self.clone()),
            trouble,
        })
    }

    /// A line's text by its number from 1.
    pub fn line(&self, number: usize) -> &str {
        lines(&self.text).nth(number - 1).unwrap_or("")
    }
}

/// The lines as YAML counts them: a line feed, a carriage return, or both end one.
fn lines(text: &str) -> impl Iterator<Item = &str> {
    text.split('\n')
        .flat_map(|line| line.strip_suffix('\r').unwrap_or(line).split('\r'))
}

fn not_utf8(error: &std::string::FromUtf8Error) -> Trouble {
    let valid = error.utf8_error().valid_up_to();
    let before = String::from_utf8_lossy(&error.as_bytes()[..valid]);
    let last = lines(&before).last().unwrap_or("");
    let (line, column) = (lines(&before).count(), last.chars().count() + 1);
    Trouble::of_file(format!(
        "is not UTF-8: byte {} is wrong, at line {line}, column {column}",
        valid + 1
    ))
}

#[cfg(test)]
mod tests {
    use super::*;

    #[test]
    fn lines_end_as_yaml_ends_them() {
        let source = Source::new("x", "\u{feff}a\r\nb\rc\nd");
        let found: Vec<&str> = (1..=5).map(|number| source.line(number)).collect();
        assert_eq!(found, ["a", "b", "c", "d", ""]);
    }

    #[test]
    fn a_wrong_byte_is_named_with_its_place() {
        let bytes = b"a: 1\nb: \xff".to_vec();
        let error = String::from_utf8(bytes).unwrap_err();
        let trouble = not_utf8(&error);
        assert_eq!(
            trouble.message,
            "is not UTF-8: byte 9 is wrong, at line 2, column 4"
        );
    }
}
