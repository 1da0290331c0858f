//! The room that compiling appends to.

use quarto_yaml_tables::RawTables;
use quarto_yaml_tables::layout::{GROWING, LINKS, NOTES, SCHEMAS, Table};

/// Tables 3, 4 and 7 with how much of each is in use.
pub struct Room<'a> {
    /// The tables.
    pub tables: &'a mut RawTables,
    /// Used notes, schemas and links.
    pub used: [u32; 3],
}

/// Answer 33.
pub const NO_ROOM: u32 = 33;

impl Room<'_> {
    /// Appends a note.
    pub fn note(&mut self, words: &[u32; 9]) -> Result<u32, u32> {
        self.append(NOTES, 0, words)
    }

    /// Appends a schema record.
    pub fn schema(&mut self, words: &[u32; 16]) -> Result<u32, u32> {
        self.append(SCHEMAS, 1, words)
    }

    /// Appends the links of a list and gives its first place and count of entries.
    pub fn list(&mut self, links: &[u32], entries: usize) -> Result<[u32; 2], u32> {
        let first = self.used[2];
        for link in links {
            self.append(LINKS, 2, &[*link])?;
        }
        Ok([first, entries as u32])
    }

    fn append(&mut self, table: Table, place: usize, words: &[u32]) -> Result<u32, u32> {
        let record = self.used[place];
        let lent = self.tables.count(table);
        if record as usize >= table.most.min(lent) {
            return Err(NO_ROOM);
        }
        let start = record as usize * table.words;
        self.tables.words_mut(table)[start..start + table.words].copy_from_slice(words);
        self.used[place] += 1;
        Ok(record)
    }

    /// Zeroes every lent word past the used counts, ragged tails included.
    pub fn clear(&mut self, used: [u32; 3]) {
        for (table, used) in GROWING.into_iter().zip(used) {
            let start = used as usize * table.words;
            self.tables.words_mut(table)[start..].fill(0);
        }
    }
}
