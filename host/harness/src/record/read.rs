//! Stored answers, run again through a checker.

use super::write::{HEADER_WORDS, MAGIC, VERSION};
use crate::case::{Case, Request, WORD_TABLES};
use crate::run::{Outcome, run};
use quarto_yaml_tables::layout::GROWING;
use quarto_yaml_tables::{Answer, Call, Checker, Mode, RawTables};

/// What a replay came to.
#[derive(Clone, Copy, Debug, Default, PartialEq, Eq)]
pub struct Replayed {
    /// Calls that were run.
    pub calls: usize,
    /// Calls that the original had been asked about.
    pub by_original: usize,
    /// Calls that answered otherwise.
    pub wrong: usize,
}

/// Runs a file's calls through a checker; nothing where the file is not one.
pub fn replay(file: &[u8], checker: &dyn Checker) -> Option<Replayed> {
    each(file, |reader, kind, tables| {
        reader.call(kind, tables, checker)
    })
}

/// Meets each call of a file behind its mark; nothing where the file is not one.
pub(super) fn each(
    file: &[u8],
    mut right: impl FnMut(&mut Reader, u32, &RawTables) -> Option<bool>,
) -> Option<Replayed> {
    let words: Vec<u32> = file
        .chunks_exact(4)
        .map(|bytes| u32::from_le_bytes(bytes.try_into().expect("four bytes")))
        .collect();
    let mut reader = Reader { words: &words };
    let header = reader.take(HEADER_WORDS)?;
    let (kind, groups) = (header[2], header[3]);
    (header[..2] == [MAGIC, VERSION]).then_some(())?;
    let mut replayed = Replayed::default();
    for _ in 0..groups {
        let tables = reader.tables()?;
        for _ in 0..reader.word()? {
            let by_original = reader.word()? == 1;
            replayed.calls += 1;
            replayed.by_original += usize::from(by_original);
            replayed.wrong += usize::from(!right(&mut reader, kind, &tables)?);
        }
    }
    reader.words.is_empty().then_some(replayed)
}

/// The call that a stored file is of.
pub fn stored_call(file: &[u8]) -> Option<Call> {
    match call_number(file)? {
        0 => Some(Call::Navigate),
        1 => Some(Call::Validate),
        2 => Some(Call::Compile),
        _ => None,
    }
}

/// The number of the call that a stored file is of.
pub(super) fn call_number(file: &[u8]) -> Option<u32> {
    let word = file.get(8..12)?;
    Some(u32::from_le_bytes(word.try_into().ok()?))
}

pub(super) struct Reader<'a> {
    words: &'a [u32],
}

impl<'a> Reader<'a> {
    pub(super) fn take(&mut self, count: usize) -> Option<&'a [u32]> {
        let (taken, rest) = self.words.split_at_checked(count)?;
        self.words = rest;
        Some(taken)
    }

    fn word(&mut self) -> Option<u32> {
        self.take(1).map(|words| words[0])
    }

    fn tables(&mut self) -> Option<RawTables> {
        let sizes = self.take(27)?;
        let mut tables = RawTables::default();
        let [lent, kept, fill] = [0, 1, 2].map(|place| sizes[place] as usize);
        let packed = self.take(kept.div_ceil(4))?;
        tables.pool = packed
            .iter()
            .flat_map(|word| word.to_le_bytes())
            .take(kept)
            .collect();
        tables.pool.resize(lent, fill as u8);
        for (place, table) in WORD_TABLES.into_iter().enumerate() {
            let size = &sizes[3 * place + 3..];
            let words = self.take(size[1] as usize)?;
            *tables.words_mut(table) = words.to_vec();
            tables.words_mut(table).resize(size[0] as usize, size[2]);
        }
        let halves = self.take(2 * sizes[25] as usize)?;
        tables.numbers = halves
            .chunks_exact(2)
            .map(|half| u64::from(half[0]) | u64::from(half[1]) << 32)
            .collect();
        tables.numbers.resize(sizes[24] as usize, 0);
        Some(tables)
    }

    /// Runs one call; whether it left behind what is stored.
    fn call(&mut self, kind: u32, tables: &RawTables, checker: &dyn Checker) -> Option<bool> {
        let request = self.request(kind)?;
        let case = Case {
            tables: tables.clone(),
            request,
        };
        let answer = self.take(Answer::WORDS)?;
        let outcome = run(checker, &case)?;
        let same = outcome.answer.words() == answer;
        let [number, instance_steps, schema_steps] = [answer[0], answer[9], answer[10]];
        Some(match &case.request {
            Request::Navigate { .. } => same,
            Request::Validate { .. } => {
                let path = self.take(2 * instance_steps as usize)?;
                let steps = self.take(schema_steps as usize)?;
                same && starts(&outcome.instance, path) && starts(&outcome.steps, steps)
            }
            Request::Compile { used, .. } | Request::CompileThenValidate { used, .. } => {
                let after = [answer[11], answer[12], answer[13]];
                let room = self.room(tables, &outcome, number, [*used, after])?;
                same && room
            }
        })
    }

    fn request(&mut self, kind: u32) -> Option<Request> {
        Some(match kind {
            0 => {
                let head = self.take(3)?;
                Request::Navigate {
                    node: head[0],
                    key_wanted: head[1] == 1,
                    path: self.take(head[2] as usize)?.to_vec(),
                }
            }
            1 => {
                let head = self.take(5)?;
                Request::Validate {
                    mode: [Mode::Unnamed, Mode::Source, Mode::Standard][head[0] as usize],
                    node: head[1],
                    schema: head[2],
                    instance_words: head[3] as usize,
                    schema_words: head[4] as usize,
                }
            }
            _ => {
                let head = self.take(4)?;
                Request::Compile {
                    used: [head[0], head[1], head[2]],
                    schema: head[3],
                }
            }
        })
    }

    /// Whether tables 3, 4 and 7 hold what they held, then what was appended, then zeros.
    fn room(
        &mut self,
        tables: &RawTables,
        outcome: &Outcome,
        number: u32,
        [used, after]: [[u32; 3]; 2],
    ) -> Option<bool> {
        let left = outcome.tables.as_ref()?;
        if matches!(number, 20 | 21) {
            return Some(left == tables);
        }
        let mut right = true;
        for (place, table) in GROWING.into_iter().enumerate() {
            let [start, end] = [used[place], after[place]].map(|used| used as usize * table.words);
            let appended = self.take(end - start)?;
            let (kept, rest) = left.words(table).split_at_checked(start)?;
            right &= *kept == tables.words(table)[..start] && starts(rest, appended);
        }
        Some(right)
    }
}

/// Whether the words start with these and are 0 from there on.
fn starts(words: &[u32], with: &[u32]) -> bool {
    words
        .strip_prefix(with)
        .is_some_and(|rest| rest.iter().all(|&word| word == 0))
}
