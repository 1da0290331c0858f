//! Cases and their answers as words.

use super::select::{Group, Kind, Sample, Stored};
use crate::case::{Request, WORD_TABLES};
use crate::run::Outcome;
use quarto_yaml_tables::RawTables;
use quarto_yaml_tables::layout::GROWING;

/// The first word of a file.
pub const MAGIC: u32 = 0x5059_5251;

/// The format's number.
pub const VERSION: u32 = 1;

/// Words of the header.
pub const HEADER_WORDS: usize = 8;

/// A sample as the words of a file.
pub fn words(sample: &Sample) -> Vec<u32> {
    let calls: usize = sample.groups.iter().map(|group| group.stored.len()).sum();
    let mut out = header(
        sample.kind.number(),
        sample.groups.len(),
        calls,
        sample.seed,
    );
    for group in &sample.groups {
        write_group(&mut out, group);
    }
    out
}

/// The first words of a file.
pub(super) fn header(call: u32, groups: usize, calls: usize, seed: u64) -> Vec<u32> {
    let [groups, calls] = [groups, calls].map(|count| count as u32);
    let [low, high] = [seed as u32, (seed >> 32) as u32];
    vec![MAGIC, VERSION, call, groups, calls, low, high, 0]
}

impl Group {
    /// Words that it takes in a file.
    pub(super) fn size(&self) -> usize {
        let mut out = Vec::new();
        write_group(&mut out, self);
        out.len()
    }
}

fn write_group(out: &mut Vec<u32>, group: &Group) {
    write_tables(out, &group.tables);
    out.push(group.stored.len() as u32);
    for stored in &group.stored {
        write_call(out, stored);
    }
}

/// Nine times lent length, stored length, fill; then the stored parts.
pub(super) fn write_tables(out: &mut Vec<u32>, tables: &RawTables) {
    let mut parts = Vec::new();
    let (kept, fill) = cut(&tables.pool);
    out.extend([tables.pool.len() as u32, kept.len() as u32, fill.into()]);
    for chunk in kept.chunks(4) {
        let mut packed = [0; 4];
        packed[..chunk.len()].copy_from_slice(chunk);
        parts.push(u32::from_le_bytes(packed));
    }
    for table in WORD_TABLES {
        let lent = tables.words(table);
        let (kept, fill) = cut(lent);
        out.extend([lent.len() as u32, kept.len() as u32, fill]);
        parts.extend_from_slice(kept);
    }
    let halves: Vec<[u32; 2]> = tables
        .numbers
        .iter()
        .map(|bits| [*bits as u32, (*bits >> 32) as u32])
        .collect();
    let kept = match halves.iter().rposition(|number| *number != [0, 0]) {
        Some(last) => &halves[..=last],
        None => &[],
    };
    out.extend([halves.len() as u32, kept.len() as u32, 0]);
    parts.extend(kept.as_flattened());
    out.extend(parts);
}

/// A slice without the run of equal elements at its end, and that element.
fn cut<T: Copy + Default + PartialEq>(slice: &[T]) -> (&[T], T) {
    let Some(&fill) = slice.last() else {
        return (slice, T::default());
    };
    let kept = slice.iter().rposition(|&element| element != fill);
    (&slice[..kept.map_or(0, |last| last + 1)], fill)
}

fn write_call(out: &mut Vec<u32>, stored: &Stored) {
    let outcome = &stored.outcome;
    out.push(stored.by_original.into());
    match &stored.request {
        Request::Navigate {
            node,
            path,
            key_wanted,
        } => {
            out.extend([*node, u32::from(*key_wanted), path.len() as u32]);
            out.extend(path);
            out.extend(outcome.answer.words());
        }
        Request::Validate {
            mode,
            node,
            schema,
            instance_words,
            schema_words,
        } => {
            out.extend([mode.number(), *node, *schema]);
            out.extend([*instance_words as u32, *schema_words as u32]);
            out.extend(outcome.answer.words());
            out.extend(&outcome.instance[..2 * outcome.answer.instance_steps as usize]);
            out.extend(&outcome.steps[..outcome.answer.schema_steps as usize]);
        }
        Request::Compile { used, schema } | Request::CompileThenValidate { used, schema, .. } => {
            out.extend(used);
            out.push(*schema);
            out.extend(outcome.answer.words());
            write_appended(out, outcome, *used);
        }
    }
}

/// The words that compiling appended to tables 3, 4 and 7.
fn write_appended(out: &mut Vec<u32>, outcome: &Outcome, used: [u32; 3]) {
    let answer = &outcome.answer;
    let Some(tables) = outcome.tables.as_ref().filter(|_| answer.number == 0) else {
        return;
    };
    let after = answer.used();
    for (place, table) in GROWING.into_iter().enumerate() {
        let [start, end] = [used[place], after[place]].map(|used| used as usize * table.words);
        out.extend(&tables.words(table)[start..end]);
    }
}

impl Kind {
    /// The number in a file's header.
    pub fn number(self) -> u32 {
        match self {
            Kind::Navigate | Kind::DamagedNavigate => 0,
            Kind::Validate => 1,
            Kind::Compile => 2,
        }
    }
}
