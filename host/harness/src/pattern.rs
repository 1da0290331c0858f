//! Table 6's answers, by the regex engine that the original uses.

use quarto_yaml_tables::layout::PATTERNS;
use quarto_yaml_tables::{PatternAnswer, RawTables};
use std::cell::RefCell;
use std::collections::HashSet;
use wheelcheck::patterns::Patterns;

thread_local! {
    static KNOWN: RefCell<Patterns> = RefCell::default();
}

/// Whether a subject matches a pattern, and whether that is one.
pub fn answer(pattern: &str, subject: &str) -> PatternAnswer {
    KNOWN.with_borrow_mut(|known| known.answer(pattern, subject))
}

/// Whether the first answer of each pair in table 6 is the engine's.
pub fn faithful(tables: &RawTables) -> bool {
    let mut seen = HashSet::new();
    tables.patterns.chunks_exact(PATTERNS.words).all(|entry| {
        let pair = (tables.text(entry[0]), tables.text(entry[1]));
        let [pattern, subject] = [pair.0, pair.1].map(String::from_utf8_lossy);
        !seen.insert(pair) || answer(&pattern, &subject).number() == entry[2]
    })
}
