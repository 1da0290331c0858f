//! Object schemas, with bases and without.

use super::build::Build;
use quarto_yaml_tables::layout::node;
use quarto_yaml_tables::{Node, ObjectRules, Schema, StringRules, Text};

impl Build<'_> {
    /// An object schema, mostly one that fits the node.
    pub fn object_schema(&mut self, target: Option<Node>, depth: usize) -> Schema {
        let entries = target.map_or_else(Vec::new, |target| self.string_entries(target));
        let closed = self.part(25, 8);
        let mut rules = ObjectRules {
            closed: self.rng.percent(closed),
            ..ObjectRules::default()
        };
        // bases at the bottom would have nothing to join
        let inner = if self.grouped { depth.max(1) } else { depth };
        if inner > 0 {
            rules.properties = self.properties(&entries, inner);
            if self.rng.percent(25) {
                rules.pattern_properties = self.pattern_properties(inner);
            }
            let [additional, names] = [self.part(40, 60), self.part(30, 60)];
            if self.rng.percent(additional) {
                rules.additional = Some(self.additional(&entries, inner));
            }
            if self.rng.percent(names) {
                rules.names = Some(self.names_schema());
            }
            if depth > 0 && self.rng.percent(self.bases) {
                rules.bases = Some(self.base_list(target, depth));
            }
        }
        let most = if self.grouped && self.rng.percent(70) {
            1
        } else {
            3
        };
        for _ in 0..self.rng.below(most) {
            rules.required.push(self.required_text(&entries));
        }
        let part = self.part(20, 10);
        if self.rng.percent(part) {
            rules.minimum = Some(self.rng.below(4) as u32);
        }
        if self.rng.percent(part) {
            rules.maximum = Some((entries.len() + self.rng.below(4)).saturating_sub(1) as u32);
        }
        if self.rng.percent(20) {
            rules.naming = Some(self.rng.below(5) as u32);
        }
        let note = self.some_note();
        let schema = self.tables.object_schema(note, &rules);
        self.keep_schema(schema)
    }

    /// The string keys and the values of an object.
    fn string_entries(&self, target: Node) -> Vec<(Text, Node)> {
        let raw = self.tables.raw();
        let [kind, first, count, _] = raw.node(target.get());
        if kind != node::OBJECT {
            return Vec::new();
        }
        raw.pairs(first, count)
            .filter_map(|(key, value)| {
                let [kind, text, ..] = raw.node(key);
                (kind == node::STRING).then(|| (self.text_of(text), self.node_of(value)))
            })
            .collect()
    }

    fn required_text(&mut self, entries: &[(Text, Node)]) -> Text {
        match self.rng.pick_some(entries) {
            Some((text, _)) if self.rng.percent(self.part(85, 95)) => self.same_text(text),
            _ => self.string_text(),
        }
    }

    fn properties(&mut self, entries: &[(Text, Node)], depth: usize) -> Vec<(Text, Schema)> {
        let mut properties = Vec::new();
        let part = self.part(60, 20);
        let all = self.rng.percent(part);
        for &(text, value) in entries {
            if all || self.rng.percent(part) {
                let key = self.same_text(text);
                let schema = self.schema_for(Some(value), depth - 1);
                self.add_property(&mut properties, key, schema);
            }
        }
        for _ in 0..self.rng.below(3) {
            let key = self.string_text();
            let schema = self.schema_for(None, depth - 1);
            self.add_property(&mut properties, key, schema);
        }
        if self.rng.percent(30) {
            self.rng.shuffle(&mut properties);
        }
        properties
    }

    /// Adds a pair unless its key is there.
    fn add_property(&self, properties: &mut Vec<(Text, Schema)>, key: Text, schema: Schema) {
        let bytes = self.tables.bytes(key);
        if properties
            .iter()
            .all(|held| self.tables.bytes(held.0) != bytes)
        {
            properties.push((key, schema));
        }
    }

    fn pattern_properties(&mut self, depth: usize) -> Vec<(Text, Schema)> {
        let mut properties = Vec::new();
        for _ in 0..self.rng.between(1, 2) {
            let key = self.pattern_text();
            let schema = self.schema_for(None, depth - 1);
            self.add_property(&mut properties, key, schema);
        }
        properties
    }

    /// A schema for further properties; where joins are to be frequent, joins and what accepts much.
    fn additional(&mut self, entries: &[(Text, Node)], depth: usize) -> Schema {
        let value = self.rng.pick_some(entries).map(|entry| entry.1);
        if !self.grouped {
            return self.schema_for(value, depth - 1);
        }
        let values: Vec<Node> = entries.iter().map(|entry| entry.1).collect();
        match self.rng.below(10) {
            0..=2 => self.any_kind_of_true(),
            3..=5 => self.items_schema(&values, value, depth),
            6 | 7 => self.schema_for(value, depth - 1),
            _ => {
                let parts: Vec<Schema> = (0..self.rng.below(3))
                    .map(|_| self.items_schema(&values, value, depth))
                    .collect();
                self.join(&parts, true)
            }
        }
    }

    /// A join, mostly an allOf or mostly an anyOf; few have a note.
    fn join(&mut self, parts: &[Schema], mostly_all: bool) -> Schema {
        let note = self.rng.percent(20).then(|| self.case_note());
        let schema = match self.rng.percent(80) == mostly_all {
            true => self.tables.all_of(note, parts),
            false => self.tables.any_of(note, parts),
        };
        self.keep_schema(schema)
    }

    /// Joined names, some of them over one that detects the case.
    fn joined_names(&mut self) -> Schema {
        let parts: Vec<Schema> = (0..self.rng.below(3))
            .map(|_| self.names_schema())
            .collect();
        self.join(&parts, false)
    }

    /// A schema for names: some detect the case, some look as if they did.
    fn names_schema(&mut self) -> Schema {
        if self.grouped && self.rng.percent(25) {
            return self.joined_names();
        }
        let note = if self.rng.percent(50) {
            Some(self.case_note())
        } else {
            self.some_note()
        };
        let schema = match self.rng.below(5) {
            0 => self.tables.any_schema(note),
            1 => {
                let text = self.name_text();
                let eager = !self.grouped || self.rng.percent(5);
                self.tables.reference(note, text, eager)
            }
            _ => self.tables.string_schema(note, &StringRules::default()),
        };
        self.keep_schema(schema)
    }

    fn base_list(&mut self, target: Option<Node>, depth: usize) -> Vec<Schema> {
        let count = match self.grouped {
            true => self
                .rng
                .pick(&[1, 1, 1, 2, 2, 2, 2, 3, 3, 3, 3, 4, 4, 5, 0]),
            false => self.rng.pick(&[0, 1, 1, 1, 2, 2, 2, 3]),
        };
        (0..count).map(|_| self.base(target, depth)).collect()
    }

    /// A base: mostly an object or an eager reference to one.
    fn base(&mut self, target: Option<Node>, depth: usize) -> Schema {
        let sound = self.grouped && self.rng.percent(90);
        let draw = match sound {
            true => self.rng.between(2, 23),
            false => self.rng.below(24),
        };
        match draw {
            0 => self.schema_for(target, depth - 1),
            1 => self.ghost_reference(60),
            2..=8 => {
                let object = self.object_schema(target, depth - 1);
                let name = self.register(object);
                let note = self.some_note();
                let schema = self.tables.reference(note, name, true);
                self.keep_schema(schema)
            }
            _ => self.object_schema(target, depth - 1),
        }
    }
}
