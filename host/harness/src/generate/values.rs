//! Values, and values that are equal to others or nearly so.

use super::build::Build;
use quarto_yaml_tables::Node;
use quarto_yaml_tables::layout::node;

/// Integers about the ends of what f64 and i64 hold.
pub const INTEGERS: [i64; 24] = [
    0,
    1,
    -1,
    2,
    3,
    4,
    10,
    12,
    127,
    128,
    200,
    -128,
    (1 << 53) - 1,
    1 << 53,
    (1 << 53) + 1,
    (1 << 53) + 2,
    (1 << 53) + 3,
    -(1 << 53) - 1,
    i64::MAX,
    i64::MAX - 1,
    i64::MAX - 511,
    i64::MAX - 512,
    i64::MIN,
    i64::MIN + 1,
];

/// Reals by their texts, some of which do not parse.
pub const REALS: [&str; 28] = [
    "0.0",
    "-0.0",
    "1.0",
    "1.5",
    "2.0",
    "10.0",
    "127.0",
    "0.1",
    "0.3",
    "1e300",
    "-1e300",
    "5e-324",
    "9007199254740992.0",
    "9007199254740993.0",
    "9223372036854775808.0",
    "-9223372036854775808.0",
    "2.220446049250313e-16",
    "4.440892098500626e-16",
    "1e16",
    ".inf",
    "-.inf",
    ".nan",
    "NaN",
    "inf",
    "-inf",
    "abc",
    "1.2.3",
    "nan",
];

impl Build<'_> {
    /// A value of at most this depth.
    pub fn value(&mut self, depth: usize) -> Node {
        match self.rng.below(if depth == 0 { 10 } else { 22 }) {
            0 => {
                let node = self.tables.null();
                self.keep_node(node)
            }
            1 => {
                let value = self.rng.percent(50);
                let node = self.tables.boolean(value);
                self.keep_node(node)
            }
            2 | 3 => self.integer(),
            4 | 5 => self.real(),
            6..=8 => self.string(),
            9 => {
                let node = if self.rng.percent(50) {
                    self.tables.alias()
                } else {
                    self.tables.bad_value()
                };
                self.keep_node(node)
            }
            10..=14 => self.array(depth),
            _ => self.object(depth),
        }
    }

    fn integer(&mut self) -> Node {
        let value = match self.rng.below(8) {
            0 => self.rng.next() as i64,
            1 | 2 => self.rng.below(30) as i64 - 10,
            _ => self.rng.pick(&INTEGERS),
        };
        let node = self.tables.integer(value);
        self.keep_node(node)
    }

    /// A real; the two zeros often, since what holds them equal varies.
    fn real(&mut self) -> Node {
        let text = match self.rng.below(8) {
            0 | 1 => self.rng.pick(&["0.0", "-0.0"]),
            2 => "2.220446049250313e-16",
            _ => self.rng.pick(&REALS),
        };
        let node = self.tables.real(text);
        self.keep_node(node)
    }

    fn string(&mut self) -> Node {
        let text = self.string_text();
        let node = self.tables.string(text);
        self.keep_node(node)
    }

    /// A child: a new value, one that stands, or nearly one of these.
    fn child(&mut self, depth: usize, like: Option<Node>) -> Node {
        match (like, self.rng.below(10)) {
            (Some(like), 0) => like,
            (Some(like), 1..=3) => self.variant(like),
            _ => self.value(depth - 1),
        }
    }

    fn array(&mut self, depth: usize) -> Node {
        let mut items = Vec::new();
        for _ in 0..self.rng.below(5) {
            let like = self.rng.pick_some(&items);
            items.push(self.child(depth, like));
        }
        let node = self.tables.array(&items);
        self.keep_node(node)
    }

    /// An object whose values have at most this depth less one.
    pub fn object(&mut self, depth: usize) -> Node {
        let mut entries: Vec<(Node, Node)> = Vec::new();
        for _ in 0..self.rng.below(6) {
            let key = self.key(&entries);
            let like = self.rng.pick_some(&entries).map(|entry| entry.1);
            let value = self.child(depth, like);
            entries.push((key, value));
        }
        let node = self.tables.object(&entries);
        self.keep_node(node)
    }

    /// A key: mostly a string that is not there yet.
    fn key(&mut self, entries: &[(Node, Node)]) -> Node {
        if self.rng.percent(self.duplicates)
            && let Some((key, _)) = self.rng.pick_some(entries)
        {
            return self.variant(key);
        }
        match self.rng.below(30) {
            0 | 1 => self.value(0),
            2 => self.value(1),
            _ => {
                let mut key = self.string();
                for _ in 0..4 {
                    let raw = self.tables.raw();
                    let bytes = |node: Node| raw.text(raw.node(node.get())[1]);
                    let there = entries.iter().any(|entry| bytes(entry.0) == bytes(key));
                    if !there {
                        break;
                    }
                    key = self.string();
                }
                key
            }
        }
    }

    /// A node equal to this one as JSON, or nearly so.
    pub fn variant(&mut self, of: Node) -> Node {
        let [kind, first, count, _] = self.tables.raw().node(of.get());
        let made = match kind {
            node::NULL | node::ALIAS | node::BAD_VALUE => match self.rng.below(4) {
                0 => self.tables.null(),
                1 => self.tables.alias(),
                2 => self.tables.real(".nan"),
                _ => self.tables.bad_value(),
            },
            node::INTEGER => {
                let value = self.tables.raw().numbers[first as usize] as i64;
                match self.rng.below(4) {
                    0 => self.tables.real(&format!("{:?}", value as f64)),
                    1 => self.tables.integer(value.wrapping_add(1)),
                    _ => self.tables.integer(value),
                }
            }
            node::REAL => self.real_variant(first),
            node::STRING => {
                let text = self.text_of(first);
                let same = self.same_text(text);
                self.tables.string(same)
            }
            node::ARRAY => {
                let items = self.nodes_at(first, count);
                let mut items: Vec<Node> =
                    items.into_iter().map(|item| self.nearly(item)).collect();
                if self.rng.percent(10) {
                    items.pop();
                }
                self.tables.array(&items)
            }
            node::OBJECT => return self.object_variant(first, count),
            _ => {
                let value = self.rng.percent(70) == (first == 1);
                self.tables.boolean(value)
            }
        };
        self.keep_node(made)
    }

    fn real_variant(&mut self, place: u32) -> Result<Node, quarto_yaml_tables::TableError> {
        let Some(&bits) = self.tables.raw().numbers.get(place as usize) else {
            return self.tables.real("x");
        };
        let value = f64::from_bits(bits);
        match self.rng.below(4) {
            0 => self.tables.real(&format!("{:?}", -value)),
            1 => self.tables.integer(value as i64),
            _ => self.tables.real(&format!("{value:?}")),
        }
    }

    /// The same entries in another order, or with an earlier duplicate, or without one.
    fn object_variant(&mut self, first: u32, count: u32) -> Node {
        let mut entries = self.entries_at(first, count);
        for entry in &mut entries {
            *entry = (self.nearly(entry.0), self.nearly(entry.1));
        }
        match self.rng.below(8) {
            0..=2 => self.rng.shuffle(&mut entries),
            3 | 4 => {
                if let Some((key, _)) = self.rng.pick_some(&entries) {
                    let value = self.value(0);
                    entries.insert(0, (key, value));
                }
            }
            5 => {
                entries.pop();
            }
            6 => {
                let (key, value) = (self.value(0), self.value(0));
                entries.push((key, value));
            }
            _ => {}
        }
        let node = self.tables.object(&entries);
        self.keep_node(node)
    }

    fn nearly(&mut self, node: Node) -> Node {
        if self.rng.percent(30) {
            self.variant(node)
        } else {
            node
        }
    }

    /// The nodes that links from a place name.
    pub fn nodes_at(&self, first: u32, count: u32) -> Vec<Node> {
        let links = self.tables.raw().list(first, count);
        links.iter().map(|&link| self.node_of(link)).collect()
    }

    /// The entries that links from a place name.
    pub fn entries_at(&self, first: u32, count: u32) -> Vec<(Node, Node)> {
        let pairs = self.tables.raw().pairs(first, count);
        pairs
            .map(|(key, value)| (self.node_of(key), self.node_of(value)))
            .collect()
    }
}
