//! YAML text to values with their places.
//!
//! Scalars are read as yaml-rust reads them. An alias becomes a copy of what
//! its anchor names, so that every value of the file is a tree and its check
//! takes no longer than the tree is large.

use crate::marks::Marks;
use crate::source::{Place, Source, Trouble};
use quarto_yaml_tables::layout::NODES;
use std::collections::HashMap;
use std::panic;
use yaml_rust2::Yaml;
use yaml_rust2::parser::{Event, Parser};
use yaml_rust2::scanner::{Marker, ScanError, TScalarStyle, TokenType};

/// A value and its place.
#[derive(Clone, Debug, PartialEq)]
pub struct Value {
    /// Where it stands.
    pub place: Place,
    /// What it is.
    pub kind: Kind,
}

/// What a value is.
#[derive(Clone, Debug, PartialEq)]
pub enum Kind {
    /// The null value.
    Null,
    /// A boolean.
    Boolean(bool),
    /// An integer.
    Integer(i64),
    /// A real, by its text.
    Real(String),
    /// A string.
    String(String),
    /// An array.
    Array(Vec<Value>),
    /// An object, every entry kept in order.
    Object(Vec<(Value, Value)>),
    /// A scalar that its own tag contradicts.
    Bad,
}

impl Value {
    /// The string, where it is one.
    pub fn as_str(&self) -> Option<&str> {
        match &self.kind {
            Kind::String(text) => Some(text),
            _ => None,
        }
    }

    /// The name of its type, as messages have it.
    pub fn type_name(&self) -> &'static str {
        match self.kind {
            Kind::Null | Kind::Bad => "null",
            Kind::Boolean(_) => "boolean",
            Kind::Integer(_) => "integer",
            Kind::Real(_) => "float",
            Kind::String(_) => "string",
            Kind::Array(_) => "array",
            Kind::Object(_) => "object",
        }
    }

    /// How many values it is with all below it.
    fn size(&self) -> usize {
        match &self.kind {
            Kind::Array(items) => 1 + items.iter().map(Self::size).sum::<usize>(),
            Kind::Object(entries) => {
                let sizes = entries.iter().map(|(key, value)| key.size() + value.size());
                1 + sizes.sum::<usize>()
            }
            _ => 1,
        }
    }
}

/// The one document of a file.
pub fn read_one(source: &Source) -> Result<Value, Trouble> {
    let mut documents = read_all(source)?;
    if documents.len() > 1 {
        let place = documents[1].place;
        return Err(Trouble::at(
            place,
            "holds a second YAML document; a file is one document",
        ));
    }
    documents
        .pop()
        .ok_or_else(|| Trouble::of_file("Unexpected end of input: there is no YAML document in it"))
}

/// All documents of a file.
pub fn read_all(source: &Source) -> Result<Vec<Value>, Trouble> {
    // the reader is not ours: should it panic, that is trouble with this file alone
    panic::catch_unwind(|| read(source))
        .unwrap_or_else(|_| Err(Trouble::of_file("Parse error: the YAML reader gave up")))
}

fn read(source: &Source) -> Result<Vec<Value>, Trouble> {
    let marks = Marks::scan(&source.text)?;
    let mut parser = Parser::new(source.text.chars());
    let mut builder = Builder {
        marks: &marks,
        documents: Vec::new(),
        open: Vec::new(),
        anchors: HashMap::new(),
        values: 0,
    };
    loop {
        let (event, mark) = parser.next().map_err(|error| parse_error(&error))?;
        match event {
            Event::StreamEnd => return Ok(builder.documents),
            event => builder.take(event, mark)?,
        }
    }
}

fn parse_error(error: &ScanError) -> Trouble {
    let whole = error.to_string();
    let message = whole
        .rsplit_once(" at line ")
        .map_or(whole.as_str(), |(before, _)| before);
    let mark = error.marker();
    let place = Place {
        line: mark.line().max(1),
        column: mark.col() + 1,
        length: 1,
    };
    Trouble::at(place, format!("Parse error: {message}"))
}

struct Builder<'a> {
    marks: &'a Marks,
    documents: Vec<Value>,
    open: Vec<Open>,
    /// What an anchor names, none while that is still being read.
    anchors: HashMap<usize, Option<Value>>,
    values: usize,
}

/// A collection that has not ended yet.
struct Open {
    place: Place,
    anchor: usize,
    parts: Vec<Value>,
    object: bool,
    flow: bool,
}

impl Builder<'_> {
    fn take(&mut self, event: Event, mark: Marker) -> Result<(), Trouble> {
        match event {
            Event::DocumentStart => self.anchors.clear(),
            Event::SequenceStart(anchor) => self.begin(anchor, mark, false)?,
            Event::MappingStart(anchor) => self.begin(anchor, mark, true)?,
            Event::SequenceEnd | Event::MappingEnd => {
                let open = self.open.pop().expect("an end follows its start");
                let kind = match open.object {
                    false => Kind::Array(open.parts),
                    true => Kind::Object(pairs(open.parts)),
                };
                // yaml-rust marks a block mapping at its first colon; a person looks at its first key
                let place = match &kind {
                    Kind::Object(entries) if !open.flow => {
                        entries.first().map_or(open.place, |(key, _)| key.place)
                    }
                    _ => open.place,
                };
                self.finish(Value { place, kind }, open.anchor);
            }
            Event::Scalar(text, style, anchor, tag) => {
                self.count(1, mark)?;
                let (empty, place) = self.marks.scalar(&mark, &text, style);
                let kind = match empty && tag.is_none() {
                    true => Kind::Null,
                    false => scalar(text, style, tag),
                };
                self.finish(Value { place, kind }, anchor);
            }
            Event::Alias(anchor) => {
                let place = self.marks.alias(&mark);
                let message = match self.anchors.get(&anchor) {
                    Some(Some(value)) => {
                        let mut value = value.clone();
                        self.count(value.size(), mark)?;
                        value.place = place;
                        self.finish(value, 0);
                        return Ok(());
                    }
                    Some(None) => "this alias stands inside what its own anchor names",
                    None => "while parsing node, found unknown anchor",
                };
                return Err(Trouble::at(place, format!("Parse error: {message}")));
            }
            Event::Nothing | Event::StreamStart | Event::StreamEnd | Event::DocumentEnd => {}
        }
        Ok(())
    }

    fn begin(&mut self, anchor: usize, mark: Marker, object: bool) -> Result<(), Trouble> {
        self.count(1, mark)?;
        if anchor > 0 {
            self.anchors.insert(anchor, None);
        }
        self.open.push(Open {
            place: self.marks.start(&mark),
            anchor,
            parts: Vec::new(),
            object,
            flow: self.marks.is(&mark, '{'),
        });
        Ok(())
    }

    /// Stops as soon as the values cannot fit the table of nodes.
    fn count(&mut self, more: usize, mark: Marker) -> Result<(), Trouble> {
        self.values += more;
        if self.values <= NODES.most {
            return Ok(());
        }
        let message = format!("is too large: more than {} values", NODES.most);
        Err(Trouble::at(self.marks.start(&mark), message))
    }

    fn finish(&mut self, value: Value, anchor: usize) {
        if anchor > 0 {
            self.anchors.insert(anchor, Some(value.clone()));
        }
        match self.open.last_mut() {
            Some(open) => open.parts.push(value),
            None => self.documents.push(value),
        }
    }
}

/// Keys and values in turn.
fn pairs(parts: Vec<Value>) -> Vec<(Value, Value)> {
    let mut parts = parts.into_iter();
    let mut entries = Vec::with_capacity(parts.len() / 2);
    while let (Some(key), Some(value)) = (parts.next(), parts.next()) {
        entries.push((key, value));
    }
    entries
}

/// A scalar by its style and tag, as yaml-rust's own loader has it.
fn scalar(text: String, style: TScalarStyle, tag: Option<TokenType>) -> Kind {
    if style != TScalarStyle::Plain {
        return Kind::String(text);
    }
    let Some(TokenType::Tag(handle, suffix)) = tag else {
        return plain(text);
    };
    match (handle.as_str(), suffix.as_str(), plain(text.clone())) {
        ("!!", "bool", kind @ Kind::Boolean(_)) | ("!!", "null", kind @ Kind::Null) => kind,
        ("!!", "int", _) => text.parse().map_or(Kind::Bad, Kind::Integer),
        ("!!", "float", Kind::Real(_)) => Kind::Real(text),
        ("!!", "float", _) if text.parse::<f64>().is_ok() => Kind::Real(text),
        ("!!", "bool" | "float" | "null", _) => Kind::Bad,
        _ => Kind::String(text),
    }
}

fn plain(text: String) -> Kind {
    match Yaml::from_str(&text) {
        Yaml::Null => Kind::Null,
        Yaml::Boolean(value) => Kind::Boolean(value),
        Yaml::Integer(value) => Kind::Integer(value),
        Yaml::Real(text) => Kind::Real(text),
        _ => Kind::String(text),
    }
}

#[cfg(test)]
mod tests {
    use super::*;

    fn one(text: &str) -> Result<Value, Trouble> {
        read_one(&Source::new("test.yaml", text))
    }

    fn kind(text: &str) -> Kind {
        one(text).expect("a document").kind
    }

    fn message(text: &str) -> String {
        let trouble = one(text).expect_err("trouble");
        let place = trouble.place.map(|place| (place.line, place.column));
        format!("{place:?} {}", trouble.message)
    }

    fn entry(text: &str, number: usize) -> (Value, Value) {
        match kind(text) {
            Kind::Object(mut entries) => entries.swap_remove(number),
            other => panic!("an object, not {other:?}"),
        }
    }

    fn at(value: &Value) -> (usize, usize, usize) {
        (value.place.line, value.place.column, value.place.length)
    }

    #[test]
    fn scalars_have_yaml_rusts_kinds() {
        assert_eq!(kind("~"), Kind::Null);
        assert_eq!(kind("true"), Kind::Boolean(true));
        assert_eq!(kind("0x10"), Kind::Integer(16));
        assert_eq!(kind("+7"), Kind::Integer(7));
        assert_eq!(kind("1.5"), Kind::Real("1.5".into()));
        assert_eq!(kind(".inf"), Kind::Real(".inf".into()));
        assert_eq!(
            kind("99999999999999999999"),
            Kind::Real("99999999999999999999".into())
        );
        assert_eq!(kind("'12'"), Kind::String("12".into()));
        assert_eq!(kind("!!str 12"), Kind::String("12".into()));
        assert_eq!(kind("!!float 12"), Kind::Real("12".into()));
        assert_eq!(kind("!!int twelve"), Kind::Bad);
        assert_eq!(kind("!!null x"), Kind::Bad);
        assert_eq!(kind("!other 12"), Kind::String("12".into()));
    }

    #[test]
    fn places_are_those_of_the_values() {
        let text = "counts: 4\nname: \"wide one\" # note\nlist:\n  - 1\nempty:\nlast: [1, 2]\n";
        assert_eq!(at(&entry(text, 0).0), (1, 1, 6));
        assert_eq!(at(&entry(text, 0).1), (1, 9, 1));
        assert_eq!(at(&entry(text, 1).1), (2, 7, 10));
        assert_eq!(at(&entry(text, 2).1), (4, 3, 1));
        assert_eq!(at(&entry(text, 3).1), (5, 6, 1));
        assert_eq!(entry(text, 3).1.kind, Kind::Null);
        assert_eq!(at(&entry(text, 4).1), (6, 7, 1));
        assert_eq!(at(&one(text).unwrap()), (1, 1, 6));
        assert_eq!(at(&one("{a: 1}").unwrap()), (1, 1, 1));
        assert_eq!(at(&entry("a:\n  bb: 1\n", 0).1), (2, 3, 2));
    }

    #[test]
    fn columns_count_characters() {
        assert_eq!(at(&entry("naïve: é\n", 0).1), (1, 8, 1));
        assert_eq!(at(&entry("a: 1\r\nb: 22\r\n", 1).1), (2, 4, 2));
    }

    #[test]
    fn an_alias_is_a_copy_at_its_own_place() {
        let (_, value) = entry("a: &x 5\nb: *x\n", 1);
        assert_eq!(
            (value.kind.clone(), at(&value)),
            (Kind::Integer(5), (2, 4, 2))
        );
    }

    #[test]
    fn every_entry_is_kept() {
        assert_eq!(entry("a: 1\na: 2\n", 1).1.kind, Kind::Integer(2));
    }

    #[test]
    fn what_cannot_be_represented_is_named_with_its_place() {
        assert_eq!(
            message("a: &x 1\nb: &x 2\n"),
            "Some((2, 4)) Parse error: the anchor 'x' is there already, at line 1"
        );
        assert_eq!(
            message("a: &x [*x]\n"),
            "Some((1, 8)) Parse error: this alias stands inside what its own anchor names"
        );
        assert!(message("a: *nothing\n").contains("found unknown anchor"));
        assert!(message("a: [1, 2\n").contains("Parse error"));
        assert!(message("").contains("Unexpected end of input"));
        assert!(message("a: 1\n---\nb: 2\n").contains("a second YAML document"));
        assert!(message(&"- 1\n".repeat(5000)).contains("more than 4096 values"));
        let bomb = "a: &a [1,1,1,1,1,1,1,1]\n".to_string()
            + &(b'b'..b'h')
                .map(|c| {
                    let [name, before] = [c as char, (c - 1) as char];
                    let parts = vec![format!("*{before}"); 8].join(",");
                    format!("{name}: &{name} [{parts}]\n")
                })
                .collect::<String>();
        assert!(message(&bomb).contains("more than 4096 values"));
    }

    /// Texts put together from what YAML is made of, good and bad.
    #[test]
    fn arbitrary_texts_end_in_a_value_or_a_message() {
        const PARTS: &[&str] = &[
            "a",
            "key",
            ": ",
            ":",
            "- ",
            "-",
            "\n",
            "\n  ",
            "\n    ",
            " ",
            "\t",
            "[",
            "]",
            "{",
            "}",
            ",",
            "\"",
            "'",
            "&a ",
            "*a",
            "!!int ",
            "!t ",
            "|",
            ">",
            "|+2\n",
            "%YAML 1.2\n",
            "---\n",
            "...\n",
            "#",
            "?",
            "? ",
            "\\",
            "\r",
            "é",
            "\u{feff}",
            "\u{2028}",
            "0x1",
            "1.5",
            "~",
            "@",
            "`",
            "<<",
        ];
        let mut state = 1_u64;
        let mut below = |bound: usize| {
            state = state
                .wrapping_mul(6_364_136_223_846_793_005)
                .wrapping_add(1);
            (state >> 33) as usize % bound
        };
        let mut read = 0;
        for _ in 0..20_000 {
            let text: String = (0..below(20)).map(|_| PARTS[below(PARTS.len())]).collect();
            let found = panic::catch_unwind(|| super::read(&Source::new("test.yaml", &text)));
            read += usize::from(matches!(found, Ok(Ok(_))));
        }
        assert!(read > 1_000);
    }

    #[test]
    fn deep_nesting_ends_in_a_message() {
        assert!(message(&"[".repeat(100_000)).contains("Parse error"));
        let blocks: String = (0..5000)
            .map(|depth| " ".repeat(depth % 90) + "- ")
            .collect();
        assert!(one(&blocks).is_err());
    }
}
