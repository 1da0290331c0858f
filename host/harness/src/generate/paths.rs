//! Paths for navigation: there, nearly there, and not at all.

use super::build::Build;
use quarto_yaml_tables::Node;
use quarto_yaml_tables::layout::node;

impl Build<'_> {
    /// A path of step pairs from a node.
    pub fn path(&mut self, start: Node) -> Vec<u32> {
        let mut path = Vec::new();
        let mut at = start.get();
        while path.len() < 24 && !self.rng.percent(12) {
            let [kind, first, count, _] = self.tables.raw().node(at);
            let stray = self.rng.percent(4);
            match kind {
                node::ARRAY if !stray => {
                    let past = count == 0 || self.rng.percent(15);
                    let index = self.rng.below(count as usize + usize::from(past));
                    path.extend([1, index as u32]);
                    match self.tables.raw().list(first, count).get(index) {
                        Some(&item) => at = item,
                        None => break,
                    }
                }
                node::OBJECT if !stray => match self.key_step(first, count) {
                    Some((text, value)) => {
                        path.extend([0, text]);
                        at = value;
                    }
                    None => break,
                },
                _ => {
                    if self.rng.percent(50) {
                        self.stray_step(&mut path);
                    }
                    break;
                }
            }
        }
        path
    }

    /// A key of the object, perhaps by another text, and the value it leads to.
    fn key_step(&mut self, first: u32, count: u32) -> Option<(u32, u32)> {
        let entries: Vec<(u32, u32)> = self.tables.raw().pairs(first, count).collect();
        let (key, value) = self.rng.pick_some(&entries)?;
        let [kind, text, ..] = self.tables.raw().node(key);
        if kind != node::STRING || self.rng.percent(8) {
            return Some((self.string_text().get(), value));
        }
        let text = self.text_of(text);
        Some((self.same_text(text).get(), value))
    }

    fn stray_step(&mut self, path: &mut Vec<u32>) {
        if self.rng.percent(50) {
            path.extend([0, self.string_text().get()]);
        } else {
            let index = self.rng.pick(&[0, 1, 5, u32::MAX, u32::MAX - 1, 1 << 31]);
            path.extend([1, index]);
        }
    }
}
