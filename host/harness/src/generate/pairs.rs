//! Tables and pairs of their nodes, to be compared as JSON.

use super::build::Build;
use crate::rng::Rng;
use quarto_yaml_tables::layout::node;
use quarto_yaml_tables::{Node, RawTables};

/// Families of one table; what is in a family is equal or nearly so.
const FAMILIES: usize = 2;

/// Pairs of nodes over the same table.
const PAIRS: usize = 24;

/// Well-formed tables, and pairs of their nodes.
pub fn pairs(seed: u64, index: u64) -> (RawTables, Vec<[u32; 2]>) {
    let mut rng = Rng::of_case(seed, index);
    let mut build = Build::new(&mut rng);
    build.duplicates = 25;
    let mut families = Vec::new();
    for _ in 0..FAMILIES {
        let root = build.root();
        families.push(build.family(root));
    }
    if build.rng.percent(15) {
        families.push(build.deep_family(families[0][0]));
    }
    let mut pairs = Vec::new();
    for _ in 0..PAIRS {
        pairs.push(build.pair(&families).map(Node::get));
    }
    (build.tables.into_raw(), pairs)
}

impl Build<'_> {
    /// A value, often beside a zero: what holds the two zeros equal varies.
    fn root(&mut self) -> Node {
        let depth = self.rng.between(1, 3);
        let value = self.value(depth);
        if self.rng.percent(60) {
            return value;
        }
        let text = self.rng.pick(&["0.0", "-0.0"]);
        let zero = self.tables.real(text);
        let zero = self.keep_node(zero);
        if self.rng.percent(50) {
            let array = self.tables.array(&[value, zero]);
            return self.keep_node(array);
        }
        let [first, second] = [self.string_text(), self.string_text()];
        let [first, second] = [first, second].map(|text| {
            let key = self.tables.string(text);
            self.keep_node(key)
        });
        let object = self.tables.object(&[(first, value), (second, zero)]);
        self.keep_node(object)
    }

    /// A value, its copy, and what differs from one of these in little.
    fn family(&mut self, root: Node) -> Vec<Node> {
        let mut members = vec![root, self.copy(root)];
        for _ in 0..2 {
            let like = self.rng.pick(&members);
            members.push(self.variant(like));
            let like = self.rng.pick(&members);
            members.push(self.altered(like));
        }
        members
    }

    /// A value, its copy, and one that differs in one place, all equally far down.
    fn deep_family(&mut self, value: Node) -> Vec<Node> {
        let levels = self.rng.between(1, 80);
        let values = [value, self.copy(value), self.altered(value)];
        values.map(|value| self.held(value, levels)).to_vec()
    }

    /// Two of one family, one each of two, or two nodes that are mostly of one kind.
    fn pair(&mut self, families: &[Vec<Node>]) -> [Node; 2] {
        let family = &families[self.rng.below(families.len())];
        let left = self.rng.pick(family);
        match self.rng.below(10) {
            0..=5 => {
                let others: Vec<Node> = family.iter().copied().filter(|&n| n != left).collect();
                [left, self.rng.pick(&others)]
            }
            6 => {
                let family = &families[self.rng.below(families.len())];
                [left, self.rng.pick(family)]
            }
            _ => {
                let left = self.some_node(left);
                let kind = self.tables.raw().node(left.get())[0];
                let mut right = left;
                for _ in 0..8 {
                    right = self.some_node(left);
                    let other = self.tables.raw().node(right.get())[0];
                    if right != left && (other == kind || self.rng.percent(20)) {
                        break;
                    }
                }
                [left, right]
            }
        }
    }

    /// The same value but for one leaf, or with two items of an array in each other's place.
    fn altered(&mut self, of: Node) -> Node {
        let [kind, first, count, _] = self.tables.raw().node(of.get());
        let made = match kind {
            node::ARRAY if count > 0 => {
                let mut items = self.nodes_at(first, count);
                let [place, other] = [(); 2].map(|()| self.rng.below(items.len()));
                if place != other && self.rng.percent(40) {
                    items.swap(place, other);
                } else {
                    items[place] = self.altered(items[place]);
                }
                self.tables.array(&items)
            }
            node::OBJECT if count > 0 => {
                let mut entries = self.entries_at(first, count);
                let place = self.rng.below(entries.len());
                let entry = &mut entries[place];
                match self.rng.percent(20) {
                    true => entry.0 = self.altered(entry.0),
                    false => entry.1 = self.altered(entry.1),
                }
                self.tables.object(&entries)
            }
            node::REAL => {
                let parsed = self.tables.raw().numbers.get(count as usize).copied();
                let value = parsed.map_or(0.5, f64::from_bits);
                self.tables.real(&format!("{:?}", -value))
            }
            _ => return self.value(0),
        };
        self.keep_node(made)
    }

    /// The same value in new nodes, down to its leaves.
    fn copy(&mut self, of: Node) -> Node {
        let [kind, first, count, _] = self.tables.raw().node(of.get());
        let made = match kind {
            node::ARRAY => {
                let items = self.nodes_at(first, count);
                let copies: Vec<Node> = items.into_iter().map(|item| self.copy(item)).collect();
                self.tables.array(&copies)
            }
            node::OBJECT => {
                let entries = self.entries_at(first, count);
                let copies: Vec<(Node, Node)> = entries
                    .into_iter()
                    .map(|(key, value)| (self.copy(key), self.copy(value)))
                    .collect();
                self.tables.object(&copies)
            }
            node::STRING => {
                let text = self.text_of(first);
                let same = self.same_text(text);
                self.tables.string(same)
            }
            node::INTEGER => {
                let value = self.tables.raw().numbers[first as usize] as i64;
                self.tables.integer(value)
            }
            node::REAL => {
                let parsed = self.tables.raw().numbers.get(count as usize).copied();
                let text = parsed.map_or("x".to_string(), |bits| {
                    format!("{:?}", f64::from_bits(bits))
                });
                self.tables.real(&text)
            }
            node::BOOLEAN => self.tables.boolean(first == 1),
            _ => self.tables.null(),
        };
        self.keep_node(made)
    }

    /// A value so many arrays deep.
    fn held(&mut self, value: Node, levels: usize) -> Node {
        let mut holder = value;
        for _ in 0..levels {
            let array = self.tables.array(&[holder]);
            holder = self.keep_node(array);
        }
        holder
    }
}
