//! The smallest form of a failing case.

use crate::case::{Case, Request, WORD_TABLES};
use quarto_yaml_tables::layout::{GROWING, NONE, Table};

/// Makes the case smaller as long as it still fails.
pub fn shrink(case: Case, fails: impl Fn(&Case) -> bool) -> Case {
    let mut shrinker = Shrinker {
        case,
        fails,
        left: ATTEMPTS,
    };
    while shrinker.left > 0 && shrinker.round() {}
    shrinker.case
}

/// Attempts after which a case is small enough.
const ATTEMPTS: usize = 30_000;

struct Shrinker<F> {
    case: Case,
    fails: F,
    left: usize,
}

impl<F: Fn(&Case) -> bool> Shrinker<F> {
    /// Tries every step once; whether one of them helped.
    fn round(&mut self) -> bool {
        let mut better = self.requests();
        for table in WORD_TABLES {
            better |= self.cut(table);
        }
        better |= self.cut_numbers();
        for table in WORD_TABLES {
            better |= self.words(table);
        }
        better
    }

    fn attempt(&mut self, change: impl FnOnce(&mut Case)) -> bool {
        let mut smaller = self.case.clone();
        change(&mut smaller);
        if self.left == 0 || smaller == self.case {
            return false;
        }
        self.left -= 1;
        if !(self.fails)(&smaller) {
            return false;
        }
        self.case = smaller;
        true
    }

    /// Fewer records at a table's end.
    fn cut(&mut self, table: Table) -> bool {
        let mut better = false;
        let mut step = self.case.tables.count(table);
        while step > 0 {
            while self.attempt(|case| {
                let words = case.tables.words_mut(table);
                words.truncate(words.len().saturating_sub(step * table.words));
                lower_used(case, table, step);
            }) {
                better = true;
            }
            step /= 2;
        }
        better
    }

    fn cut_numbers(&mut self) -> bool {
        let mut better = false;
        while self.attempt(|case| _ = case.tables.numbers.pop()) {
            better = true;
        }
        while self.attempt(|case| _ = case.tables.pool.pop()) {
            better = true;
        }
        better
    }

    /// Each word absent, zero, or smaller.
    fn words(&mut self, table: Table) -> bool {
        let mut better = false;
        for place in 0..in_use(&self.case, table) {
            let word = self.case.tables.words(table)[place];
            for value in [NONE, 0, word / 2, word.wrapping_sub(1)] {
                if simplicity(value) >= simplicity(word) {
                    continue;
                }
                better |= self.attempt(|case| case.tables.words_mut(table)[place] = value);
            }
        }
        better
    }

    /// Another start, and a shorter path.
    fn requests(&mut self) -> bool {
        let mut better = false;
        for value in 0..64 {
            better |= self.attempt(|case| {
                if let Some(node) = node_of(&mut case.request) {
                    *node = value.min(*node);
                }
            });
            better |= self.attempt(|case| {
                if let Some(schema) = schema_of(&mut case.request) {
                    *schema = value.min(*schema);
                }
            });
            better |= self.attempt(|case| {
                if let Some(schema) = schema_of(&mut case.request)
                    && value < *schema
                {
                    let words = case.tables.schema(*schema);
                    let start = value as usize * words.len();
                    if let Some(place) = case.tables.schemas.get_mut(start..start + words.len()) {
                        place.copy_from_slice(&words);
                        *schema = value;
                    }
                }
            });
        }
        while self.attempt(|case| {
            if let Request::Navigate { path, .. } = &mut case.request {
                path.truncate(path.len().saturating_sub(2));
            }
        }) {
            better = true;
        }
        better
    }
}

/// The words of a table that mean something: compile's spare room does not.
fn in_use(case: &Case, table: Table) -> usize {
    let words = case.tables.words(table).len();
    let (Request::Compile { used, .. } | Request::CompileThenValidate { used, .. }) = &case.request
    else {
        return words;
    };
    match place(table) {
        Some(place) => words.min(used[place] as usize * table.words),
        None => words,
    }
}

/// The place of a table's used count, where compiling appends to it.
fn place(table: Table) -> Option<usize> {
    GROWING.iter().position(|&growing| growing == table)
}

/// Words in the order in which they are preferred: absent, then small.
fn simplicity(word: u32) -> u32 {
    word.wrapping_add(1)
}

fn lower_used(case: &mut Case, table: Table, step: usize) {
    let (Request::Compile { used, .. } | Request::CompileThenValidate { used, .. }) =
        &mut case.request
    else {
        return;
    };
    let Some(place) = place(table) else {
        return;
    };
    let left = case.tables.words(table).len() / table.words;
    if used[place] as usize > left {
        used[place] = used[place].saturating_sub(step as u32);
    }
}

fn node_of(request: &mut Request) -> Option<&mut u32> {
    match request {
        Request::Navigate { node, .. }
        | Request::Validate { node, .. }
        | Request::CompileThenValidate { node, .. } => Some(node),
        Request::Compile { .. } => None,
    }
}

fn schema_of(request: &mut Request) -> Option<&mut u32> {
    match request {
        Request::Validate { schema, .. }
        | Request::Compile { schema, .. }
        | Request::CompileThenValidate { schema, .. } => Some(schema),
        Request::Navigate { .. } => None,
    }
}
