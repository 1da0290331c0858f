//! The words of a schema's object, each with a value of its kind.

use crate::source::Trouble;
use crate::yaml::{Kind, Value};

/// The entries of an object whose words are all known and differ.
pub struct Fields<'a> {
    entries: Vec<(&'a str, &'a Value, &'a Value)>,
}

/// Trouble with a schema's structure, in the original's words.
pub fn structure(value: &Value, message: impl AsRef<str>) -> Trouble {
    let message = format!("Invalid schema structure: {}", message.as_ref());
    Trouble::at(value.place, message)
}

fn expected(value: &Value, word: &str, what: &str) -> Trouble {
    let got = value.type_name();
    structure(value, format!("'{word}' is {what}, got {got}"))
}

impl<'a> Fields<'a> {
    /// The words of an object, or of nothing at all; refuses any that is not in the lists.
    pub fn of(owner: &str, value: &'a Value, known: &[&[&str]]) -> Result<Self, Trouble> {
        let object: &[(Value, Value)] = match &value.kind {
            Kind::Object(entries) => entries,
            Kind::Null => &[],
            _ => {
                let got = value.type_name();
                return Err(structure(value, format!("{owner} is an object, got {got}")));
            }
        };
        let mut entries: Vec<(&str, &Value, &Value)> = Vec::with_capacity(object.len());
        for (key, held) in object {
            let word = word(key)?;
            if !known.iter().any(|list| list.contains(&word)) {
                let message = format!("unknown word '{word}' in {owner}");
                return Err(structure(key, message).hint(suggestion(word, known)));
            }
            if entries.iter().any(|(earlier, ..)| *earlier == word) {
                return Err(structure(key, format!("'{word}' is there twice")));
            }
            entries.push((word, key, held));
        }
        Ok(Self { entries })
    }

    /// The value of a word, where the word is there.
    pub fn get(&self, word: &str) -> Option<&'a Value> {
        self.entry(word).map(|(_, value)| value)
    }

    /// The word itself and its value, where it is there.
    pub fn entry(&self, word: &str) -> Option<(&'a Value, &'a Value)> {
        let found = self.entries.iter().find(|(other, ..)| *other == word)?;
        Some((found.1, found.2))
    }

    /// A number, as an f64 that holds it exactly.
    pub fn number(&self, word: &str) -> Result<Option<f64>, Trouble> {
        let Some(value) = self.get(word) else {
            return Ok(None);
        };
        let number = match &value.kind {
            Kind::Integer(whole) => {
                let near = *whole as f64;
                if near as i128 != i128::from(*whole) {
                    return Err(structure(
                        value,
                        format!("no f64 is {whole}, '{word}' needs one"),
                    ));
                }
                near
            }
            Kind::Real(text) => match text.parse() {
                Ok(number) => number,
                Err(_) if text.starts_with('-') => f64::NEG_INFINITY,
                Err(_) if text.to_ascii_lowercase().ends_with("inf") => f64::INFINITY,
                Err(_) => f64::NAN,
            },
            _ => return Err(expected(value, word, "a number")),
        };
        if number.is_nan() {
            return Err(expected(value, word, "a number that is one"));
        }
        Ok(Some(number))
    }

    /// A count, from 0.
    pub fn count(&self, word: &str) -> Result<Option<u32>, Trouble> {
        let Some(value) = self.get(word) else {
            return Ok(None);
        };
        match value.kind {
            Kind::Integer(count) if (0..i64::from(u32::MAX)).contains(&count) => {
                Ok(Some(count as u32))
            }
            _ => Err(structure(
                value,
                format!("'{word}' is a count from 0 to {}", u32::MAX - 1),
            )),
        }
    }

    /// A boolean.
    pub fn boolean(&self, word: &str) -> Result<Option<bool>, Trouble> {
        match self.get(word) {
            None => Ok(None),
            Some(Value {
                kind: Kind::Boolean(held),
                ..
            }) => Ok(Some(*held)),
            Some(value) => Err(expected(value, word, "a boolean")),
        }
    }

    /// A string.
    pub fn string(&self, word: &str) -> Result<Option<&'a str>, Trouble> {
        self.get(word)
            .map(|value| {
                value
                    .as_str()
                    .ok_or_else(|| expected(value, word, "a string"))
            })
            .transpose()
    }

    /// A list of strings.
    pub fn strings(&self, word: &str) -> Result<Option<Vec<&'a str>>, Trouble> {
        self.get(word)
            .map(|value| {
                let items = list(value, word)?;
                items
                    .iter()
                    .map(|item| {
                        item.as_str()
                            .ok_or_else(|| expected(item, word, "a list of strings"))
                    })
                    .collect()
            })
            .transpose()
    }
}

/// The items of a list.
pub fn list<'a>(value: &'a Value, word: &str) -> Result<&'a [Value], Trouble> {
    match &value.kind {
        Kind::Array(items) => Ok(items),
        _ => Err(expected(value, word, "a list")),
    }
}

/// A key as a word: a string, or the null that `null` is read as.
pub fn word(key: &Value) -> Result<&str, Trouble> {
    match &key.kind {
        Kind::String(text) => Ok(text),
        Kind::Null => Ok("null"),
        _ => {
            let got = key.type_name();
            Err(structure(key, format!("a key is a word, got {got}")))
        }
    }
}

/// The nearest known word, or all of them.
pub fn suggestion(word: &str, known: &[&[&str]]) -> String {
    let words = known.iter().flat_map(|list| list.iter().copied());
    let near = words
        .clone()
        .map(|other| (distance(word, other), other))
        .min_by_key(|(distance, _)| *distance);
    match near {
        Some((distance, other)) if distance <= 2 => format!("did you mean '{other}'?"),
        _ => format!("known are: {}", words.collect::<Vec<_>>().join(", ")),
    }
}

/// How many letters have to be added, dropped or changed; case is one letter's change.
fn distance(from: &str, to: &str) -> usize {
    let to: Vec<char> = to.chars().collect();
    let mut row: Vec<usize> = (0..=to.len()).collect();
    for (line, a) in from.chars().enumerate() {
        let mut corner = line;
        row[0] = line + 1;
        for (place, b) in to.iter().enumerate() {
            let change = corner + usize::from(a != *b);
            corner = row[place + 1];
            row[place + 1] = change.min(corner + 1).min(row[place] + 1);
        }
    }
    row[to.len()]
}
