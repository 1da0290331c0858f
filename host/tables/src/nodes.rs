//! Values: table 2.

use crate::layout::{NODES, NONE, node};
use crate::{Node, TableError, Tables, Text};

impl Tables {
    /// Adds the null value.
    pub fn null(&mut self) -> Result<Node, TableError> {
        self.node([node::NULL, 0, 0, 0])
    }

    /// Adds a boolean.
    pub fn boolean(&mut self, value: bool) -> Result<Node, TableError> {
        self.node([node::BOOLEAN, value.into(), 0, 0])
    }

    /// Adds an integer.
    pub fn integer(&mut self, value: i64) -> Result<Node, TableError> {
        self.node_with_numbers(node::INTEGER, &[Some(value as u64)])
    }

    /// Adds a real by its text, read as `as_f64` reads it and as Rust's `parse` does.
    pub fn real(&mut self, text: &str) -> Result<Node, TableError> {
        let parsed = text.parse::<f64>().ok();
        let read = match text {
            ".inf" | ".Inf" | ".INF" | "+.inf" | "+.Inf" | "+.INF" => Some(f64::INFINITY),
            "-.inf" | "-.Inf" | "-.INF" => Some(f64::NEG_INFINITY),
            ".nan" | "NaN" | ".NAN" => Some(f64::NAN),
            _ => parsed,
        };
        self.real_read(read, parsed)
    }

    /// Adds a real that the host has read: by `as_f64`, and by Rust's `parse`.
    pub fn real_read(
        &mut self,
        read: Option<f64>,
        parsed: Option<f64>,
    ) -> Result<Node, TableError> {
        let bits = [read, parsed].map(|value| value.map(f64::to_bits));
        self.node_with_numbers(node::REAL, &bits)
    }

    /// Adds a string.
    pub fn string(&mut self, text: Text) -> Result<Node, TableError> {
        let text = self.known_text(text)?;
        self.node([node::STRING, text, 0, 0])
    }

    /// Adds an array of nodes that stand already.
    pub fn array(&mut self, items: &[Node]) -> Result<Node, TableError> {
        let links = self.known_nodes(items.iter().copied())?;
        self.node_with_list(node::ARRAY, &links, items.len())
    }

    /// Adds an object of keys and values that stand already; keys may repeat and be of any kind.
    pub fn object(&mut self, entries: &[(Node, Node)]) -> Result<Node, TableError> {
        let links = self.known_nodes(entries.iter().flat_map(|&(key, value)| [key, value]))?;
        self.node_with_list(node::OBJECT, &links, entries.len())
    }

    /// Adds an alias.
    pub fn alias(&mut self) -> Result<Node, TableError> {
        self.node([node::ALIAS, 0, 0, 0])
    }

    /// Adds a bad value.
    pub fn bad_value(&mut self) -> Result<Node, TableError> {
        self.node([node::BAD_VALUE, 0, 0, 0])
    }

    fn node(&mut self, words: [u32; 4]) -> Result<Node, TableError> {
        self.append(NODES, &words).map(Node)
    }

    fn node_with_numbers(&mut self, kind: u32, bits: &[Option<u64>]) -> Result<Node, TableError> {
        let numbers = self.raw.numbers.len();
        let mut words = [kind, 0, 0, 0];
        let mut fill = || {
            for (word, value) in words[1..].iter_mut().zip(bits) {
                *word = value.map_or(Ok(NONE), |bits| self.number(bits))?;
            }
            self.node(words)
        };
        let result = fill();
        if result.is_err() {
            self.raw.numbers.truncate(numbers);
        }
        result
    }

    fn node_with_list(
        &mut self,
        kind: u32,
        links: &[u32],
        entries: usize,
    ) -> Result<Node, TableError> {
        self.append_with_lists(NODES, |tables| {
            let [first, count] = tables.list(links, entries)?;
            Ok(vec![kind, first, count, 0])
        })
        .map(Node)
    }

    pub(crate) fn known_nodes(
        &self,
        nodes: impl Iterator<Item = Node>,
    ) -> Result<Vec<u32>, TableError> {
        nodes.map(|node| self.known_node(node)).collect()
    }
}
