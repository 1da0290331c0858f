//! Places of values, from the text and its tokens.

use crate::source::{Place, Trouble};
use std::collections::HashMap;
use yaml_rust2::scanner::{Marker, Scanner, TScalarStyle, Token, TokenType};

/// The text's characters, and where its indicators stand.
pub struct Marks {
    text: Vec<char>,
    /// Each `:`, `-` and `?` by its index: an empty value is shown there.
    indicators: Vec<Marker>,
}

impl Marks {
    /// Goes through the tokens once; refuses an anchor that is there already in its document.
    pub fn scan(text: &str) -> Result<Self, Trouble> {
        let mut marks = Self {
            text: text.chars().collect(),
            indicators: Vec::new(),
        };
        let mut anchors: HashMap<String, usize> = HashMap::new();
        // what is wrong with a token is said by the parser, which meets it again
        for Token(mark, token) in Scanner::new(text.chars()) {
            match token {
                TokenType::DocumentStart => anchors.clear(),
                TokenType::Value | TokenType::BlockEntry | TokenType::Key => {
                    marks.indicators.push(mark);
                }
                TokenType::Anchor(name) => {
                    if let Some(line) = anchors.get(&name) {
                        let message =
                            format!("the anchor '{name}' is there already, at line {line}");
                        let place = marks.place(&mark, 1 + name.chars().count());
                        return Err(Trouble::at(place, format!("Parse error: {message}")));
                    }
                    anchors.insert(name, mark.line());
                }
                _ => {}
            }
        }
        marks.indicators.sort_by_key(Marker::index);
        Ok(marks)
    }

    /// Where a collection starts.
    pub fn start(&self, mark: &Marker) -> Place {
        self.place(mark, 1)
    }

    /// Whether this character stands at a mark.
    pub fn is(&self, mark: &Marker, c: char) -> bool {
        self.text.get(mark.index()) == Some(&c)
    }

    /// Where an alias stands.
    pub fn alias(&self, mark: &Marker) -> Place {
        let ends = |c: &char| c.is_whitespace() || ",[]{}".contains(*c);
        self.place(mark, self.until(mark, ends))
    }

    /// Whether a scalar is empty, and where it stands: an empty one at the indicator before it.
    pub fn scalar(&self, mark: &Marker, text: &str, style: TScalarStyle) -> (bool, Place) {
        let rest = self.text.get(mark.index()..).unwrap_or(&[]);
        let empty = match text {
            "" => style == TScalarStyle::Plain,
            "~" => style == TScalarStyle::Plain && rest.first() != Some(&'~'),
            _ => false,
        };
        if empty {
            let after = self
                .indicators
                .partition_point(|other| other.index() < mark.index());
            let shown = after
                .checked_sub(1)
                .map_or(mark, |last| &self.indicators[last]);
            return (true, self.place(shown, 1));
        }
        let length = match style {
            TScalarStyle::SingleQuoted | TScalarStyle::DoubleQuoted => quoted(rest),
            TScalarStyle::Literal | TScalarStyle::Foled => 1,
            _ if rest.starts_with(&text.chars().collect::<Vec<_>>()) => text.chars().count(),
            _ => self.until(mark, |c| matches!(c, '\n' | '\r')),
        };
        (false, self.place(mark, length))
    }

    fn until(&self, mark: &Marker, ends: impl Fn(&char) -> bool) -> usize {
        let rest = self.text.get(mark.index()..).unwrap_or(&[]);
        rest.iter().take_while(|c| !ends(c)).count()
    }

    fn place(&self, mark: &Marker, length: usize) -> Place {
        Place {
            line: mark.line(),
            column: mark.col() + 1,
            length: length.max(1),
        }
    }
}

/// Characters of a quoted scalar on its first line, both quotes counted.
fn quoted(rest: &[char]) -> usize {
    let Some(quote) = rest.first() else {
        return 1;
    };
    let mut place = 1;
    while let Some(c) = rest.get(place) {
        match c {
            '\n' | '\r' => break,
            '\\' if *quote == '"' => place += 2,
            c if c == quote && *quote == '\'' && rest.get(place + 1) == Some(&'\'') => place += 2,
            c if c == quote => return place + 1,
            _ => place += 1,
        }
    }
    place.min(rest.len())
}
