//! Counts of what was run.

use std::collections::BTreeMap;
use std::fmt;

/// How often each call answered each number, and why cases were left out.
#[derive(Clone, Debug, Default, PartialEq, Eq)]
pub struct Tally {
    counts: BTreeMap<(String, String), u64>,
}

impl Tally {
    /// Counts one more under a heading.
    pub fn add(&mut self, heading: &str, entry: &str) {
        self.add_many(heading, entry, 1);
    }

    /// Counts several more under a heading.
    pub fn add_many(&mut self, heading: &str, entry: &str, count: u64) {
        let key = (heading.to_string(), entry.to_string());
        *self.counts.entry(key).or_default() += count;
    }

    /// Adds another's counts.
    pub fn merge(&mut self, other: &Tally) {
        for ((heading, entry), count) in &other.counts {
            self.add_many(heading, entry, *count);
        }
    }

    /// A line for each count, to be read by [`Tally::read`].
    pub fn lines(&self) -> impl Iterator<Item = String> + '_ {
        self.counts
            .iter()
            .map(|((heading, entry), count)| format!("{heading}\t{entry}\t{count}"))
    }

    /// Reads a line written by [`Tally::lines`].
    pub fn read(&mut self, line: &str) -> Option<()> {
        let mut parts = line.split('\t');
        let (heading, entry) = (parts.next()?, parts.next()?);
        self.add_many(heading, entry, parts.next()?.parse().ok()?);
        Some(())
    }
}

/// One line for each heading; answer numbers in their order.
impl fmt::Display for Tally {
    fn fmt(&self, f: &mut fmt::Formatter<'_>) -> fmt::Result {
        let mut headings: BTreeMap<&str, Vec<(&str, u64)>> = BTreeMap::new();
        for ((heading, entry), count) in &self.counts {
            headings.entry(heading).or_default().push((entry, *count));
        }
        for (heading, mut entries) in headings {
            entries.sort_by_key(|(entry, _)| (entry.parse().unwrap_or(u32::MAX), *entry));
            let shown: Vec<_> = entries
                .iter()
                .map(|(entry, count)| format!("{entry}: {count}"))
                .collect();
            writeln!(f, "{heading}: {}", shown.join(", "))?;
        }
        Ok(())
    }
}
