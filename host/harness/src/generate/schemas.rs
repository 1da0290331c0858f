//! Schemas that fit a value, nearly fit it, or do not.

use super::build::Build;
use super::values::{INTEGERS, REALS};
use quarto_yaml_tables::layout::node;
use quarto_yaml_tables::{
    ArrayRules, Node, Note, NumberRules, Schema, StringRules, TableError, Tables,
};

impl Build<'_> {
    /// A schema of at most this depth, mostly one that fits the node.
    pub fn schema_for(&mut self, target: Option<Node>, depth: usize) -> Schema {
        if depth == 0 {
            return match self.rng.below(8) {
                0 => self.leaf_schema(),
                1 => self.any_kind_of_true(),
                2 => self.ghost_reference(30),
                _ => self.fitting_schema(target, 0),
            };
        }
        match self.rng.below(32) {
            0..=14 => self.fitting_schema(target, depth),
            15..=17 => self.enum_schema(target),
            18..=21 => self.any_of(target, depth),
            22..=24 => self.all_of(target, depth),
            25..=27 => self.reference(target, depth),
            28 => self.any_kind_of_true(),
            29 => self.leaf_schema(),
            30 => match self.any_standing_schema() {
                Some(schema) => schema,
                None => self.leaf_schema(),
            },
            _ => self.object_schema(target, depth),
        }
    }

    /// A schema that accepts everything.
    pub fn any_kind_of_true(&mut self) -> Schema {
        let schema = if self.rng.percent(50) {
            self.tables.true_schema()
        } else {
            let note = self.some_note();
            self.tables.any_schema(note)
        };
        self.keep_schema(schema)
    }

    /// A reference whose target may be unknown, so many of 100 times eager.
    pub fn ghost_reference(&mut self, eager: usize) -> Schema {
        let (note, name) = (self.some_note(), self.name_text());
        let eager = self.eager(eager);
        let schema = self.tables.reference(note, name, eager);
        self.keep_schema(schema)
    }

    /// A schema of any simple kind.
    fn leaf_schema(&mut self) -> Schema {
        match self.rng.below(5) {
            0 => self.noted_schema(Tables::boolean_schema),
            1 => self.noted_schema(Tables::null_schema),
            2 => self.number_schema(None),
            3 => self.string_schema(None),
            _ => self.enum_schema(None),
        }
    }

    /// A schema of a kind that has nothing but its note.
    fn noted_schema(
        &mut self,
        add: fn(&mut Tables, Option<Note>) -> Result<Schema, TableError>,
    ) -> Schema {
        let note = self.some_note();
        let schema = add(&mut self.tables, note);
        self.keep_schema(schema)
    }

    fn fitting_schema(&mut self, target: Option<Node>, depth: usize) -> Schema {
        let Some(target) = target else {
            return self.leaf_schema();
        };
        let [kind, first, count, _] = self.tables.raw().node(target.get());
        match kind {
            node::NULL | node::ALIAS | node::BAD_VALUE => self.noted_schema(Tables::null_schema),
            node::BOOLEAN => self.noted_schema(Tables::boolean_schema),
            node::INTEGER | node::REAL => {
                let value = self.value_of(kind, first);
                self.number_schema(value)
            }
            node::STRING => self.string_schema(Some(first)),
            node::ARRAY => self.array_schema(first, count, depth),
            _ => self.object_schema(Some(target), depth),
        }
    }

    /// The f64 of an integer or a real, where it has one.
    fn value_of(&self, kind: u32, place: u32) -> Option<f64> {
        let bits = *self.tables.raw().numbers.get(place as usize)?;
        Some(match kind {
            node::INTEGER => bits as i64 as f64,
            _ => f64::from_bits(bits),
        })
    }

    /// A bound at the value, or about the values that are drawn.
    fn bound(&mut self, value: Option<f64>) -> f64 {
        match (self.rng.below(8), value) {
            (0, Some(value)) => value,
            (1, Some(value)) => self.rng.pick(&[value.next_up(), value.next_down(), -value]),
            (2, _) => self.rng.pick(&REALS).parse().unwrap_or(f64::INFINITY),
            (3, _) => self.rng.below(40) as f64 - 20.0,
            (4, _) => self
                .rng
                .pick(&[0.0, -0.0, f64::INFINITY, f64::NEG_INFINITY, f64::NAN]),
            _ => self.rng.pick(&INTEGERS) as f64,
        }
    }

    /// A multiple; a remainder of just 2^-52 is where the test turns.
    fn multiple(&mut self, value: Option<f64>) -> f64 {
        match (self.rng.below(10), value) {
            (0, _) => self.rng.pick(&[f64::INFINITY, f64::NEG_INFINITY, f64::NAN]),
            (1, _) => self.rng.pick(&[0.0, -0.0]),
            (2, _) => self
                .rng
                .pick(&[f64::EPSILON, f64::EPSILON * 3.0, f64::MIN_POSITIVE, 5e-324]),
            (3, Some(value)) => self
                .rng
                .pick(&[value * 3.0, value / 2.0, value - f64::EPSILON]),
            (4, value) => self.bound(value),
            _ => self
                .rng
                .pick(&[1.0, 2.0, 3.0, 4.0, -2.0, 0.1, 0.5, 1.5, 1e-3, 127.0]),
        }
    }

    /// Bounds that are mostly wide, sometimes narrow.
    fn number_schema(&mut self, value: Option<f64>) -> Schema {
        let part = self.rng.pick(&[0, 15, 40]);
        let mut rules = NumberRules::default();
        if self.rng.percent(part) {
            rules.minimum = Some(self.bound(value));
        }
        if self.rng.percent(part) {
            rules.maximum = Some(self.bound(value));
        }
        if self.rng.percent(part / 2) {
            rules.exclusive_minimum = Some(self.bound(value));
        }
        if self.rng.percent(part / 2) {
            rules.exclusive_maximum = Some(self.bound(value));
        }
        if self.rng.percent(part) {
            rules.multiple_of = Some(self.multiple(value));
        }
        let note = self.some_note();
        let schema = self.tables.number_schema(note, &rules);
        self.keep_schema(schema)
    }

    fn limit(&mut self, about: usize) -> Option<u32> {
        match self.rng.below(12) {
            0 => Some(u32::MAX - 1),
            1..=3 => Some((about + self.rng.below(3)).saturating_sub(1) as u32),
            4 => Some(self.rng.below(4) as u32),
            _ => None,
        }
    }

    fn string_schema(&mut self, text: Option<u32>) -> Schema {
        let length = text.map_or(1, |text| self.tables.raw().text(text).len());
        let pattern = self.rng.percent(35).then(|| self.pattern_text());
        let mut rules = StringRules {
            pattern,
            ..StringRules::default()
        };
        if self.rng.percent(45) {
            rules.minimum = self
                .limit(length)
                .filter(|&limit| limit < 1000 || self.rng.percent(5));
            rules.maximum = self.limit(length);
        }
        let note = self.some_note();
        let schema = self.tables.string_schema(note, &rules);
        self.keep_schema(schema)
    }

    /// Values about the target, so that some are equal to it.
    fn enum_schema(&mut self, target: Option<Node>) -> Schema {
        let mut values = Vec::new();
        for _ in 0..self.rng.below(4) {
            let value = match target {
                Some(target) if self.rng.percent(50) => self.variant(target),
                Some(target) if self.rng.percent(30) => self.some_node(target),
                _ => self.value(1),
            };
            values.push(value);
        }
        let note = self.some_note();
        let schema = self.tables.enum_schema(note, &values);
        self.keep_schema(schema)
    }

    fn any_of(&mut self, target: Option<Node>, depth: usize) -> Schema {
        let mut parts = Vec::new();
        for _ in 0..self.rng.below(4) {
            let part = match self.rng.below(5) {
                0 => self.leaf_schema(),
                1 => self.broken_string(),
                2 => self.schema_for(None, depth - 1),
                _ => self.schema_for(target, depth - 1),
            };
            parts.push(part);
        }
        let note = self.some_note();
        let schema = self.tables.any_of(note, &parts);
        self.keep_schema(schema)
    }

    /// A string schema with a pattern, which may be invalid.
    fn broken_string(&mut self) -> Schema {
        let pattern = Some(self.pattern_text());
        let note = self.some_note();
        let rules = StringRules {
            pattern,
            ..StringRules::default()
        };
        let schema = self.tables.string_schema(note, &rules);
        self.keep_schema(schema)
    }

    fn all_of(&mut self, target: Option<Node>, depth: usize) -> Schema {
        let mut parts = Vec::new();
        for _ in 0..self.rng.below(4) {
            parts.push(self.schema_for(target, depth - 1));
        }
        let note = self.some_note();
        let schema = self.tables.all_of(note, &parts);
        self.keep_schema(schema)
    }

    /// A reference whose target fits, is registered later, or is unknown.
    fn reference(&mut self, target: Option<Node>, depth: usize) -> Schema {
        let known = self.rng.percent(65);
        let name = if known {
            let schema = self.schema_for(target, depth - 1);
            self.register(schema)
        } else {
            self.name_text()
        };
        let note = self.some_note();
        let eager = match known {
            true => self.rng.percent(50),
            false => self.eager(50),
        };
        let schema = self.tables.reference(note, name, eager);
        self.keep_schema(schema)
    }

    fn array_schema(&mut self, first: u32, count: u32, depth: usize) -> Schema {
        let items = self.nodes_at(first, count);
        let mut rules = ArrayRules {
            unique: self.rng.pick(&[None, Some(false), Some(true), Some(true)]),
            ..ArrayRules::default()
        };
        if depth > 0 && self.rng.percent(75) {
            let item = self.rng.pick_some(&items);
            rules.items = Some(self.items_schema(&items, item, depth));
        }
        if self.rng.percent(40) {
            rules.minimum = self.limit(count as usize).filter(|&limit| limit < 1000);
            rules.maximum = self.limit(count as usize);
        }
        let note = self.some_note();
        let schema = self.tables.array_schema(note, &rules);
        self.keep_schema(schema)
    }

    /// A schema for one item, or an anyOf over all of them.
    pub fn items_schema(&mut self, items: &[Node], item: Option<Node>, depth: usize) -> Schema {
        if items.len() < 2 || self.rng.percent(50) {
            return self.schema_for(item, depth - 1);
        }
        let parts: Vec<Schema> = items
            .iter()
            .map(|&item| self.schema_for(Some(item), depth.saturating_sub(2)))
            .collect();
        let note = self.some_note();
        let schema = self.tables.any_of(note, &parts);
        self.keep_schema(schema)
    }
}
