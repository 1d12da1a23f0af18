//! A model of rules on disk, written from section 10 of docs/RULES.md alone: the file of a text and its tables, and what a load of any
//! bytes comes to.
use crate::answer::*;
use crate::tables::Tables;
use crate::wellformed::well_formed;

/// A trailer's bytes: five pairs of words, and the version.
pub const TRAILER: usize = 44;

/// The refusals of a load.
pub const UNKNOWN_VERSION: u64 = 13;
pub const BAD_PARTS: u64 = 14;
pub const TOO_SMALL: u64 = 15;

/// How much is lent to a load: bytes of text, words of each table.
#[derive(Clone, Copy, Debug, PartialEq, Eq)]
pub struct Room {
    pub letters: usize,
    pub words: [usize; 4],
}

impl Room {
    /// Exactly as much as some tables' counted rows have.
    pub fn of(tables: &Tables) -> Self {
        let words = std::array::from_fn(|table| tables.counts[table] as usize * ROW_WORDS[table]);
        Room { letters: tables.text.len(), words }
    }

    /// So much more of each.
    pub fn with(self, more: usize) -> Self {
        Room { letters: self.letters + more, words: self.words.map(|words| words + more) }
    }
}

/// The file of a text and the counted rows of its tables.
pub fn file_of(tables: &Tables) -> Vec<u8> {
    let rows = |table: usize| &tables.words[table][..tables.counts[table] as usize * ROW_WORDS[table]];
    let bytes = |words: &[u32]| -> Vec<u8> { words.iter().flat_map(|word| word.to_le_bytes()).collect() };
    let parts: Vec<Vec<u8>> =
        std::iter::once(tables.text.clone()).chain((0..4).map(|table| bytes(rows(table)))).collect();
    let mut trailer = vec![];
    let mut start = 0;
    for part in &parts {
        trailer.extend([start, part.len() as u32]);
        start += part.len() as u32;
    }
    trailer.push(1);
    [parts.concat(), bytes(&trailer)].concat()
}

/// What a load comes to: the text and its tables, with exactly the rows of the file, or the number of its refusal.
pub fn load(file: &[u8], room: Room) -> Result<Tables, u64> {
    let Some(end) = file.len().checked_sub(TRAILER) else { return Err(BAD_PARTS) };
    let trailer = words_of(&file[end..]);
    if trailer[10] != 1 {
        return Err(UNKNOWN_VERSION);
    }
    let mut borders = vec![0u64];
    for pair in trailer[..10].chunks(2) {
        if pair[0] as u64 != *borders.last().unwrap() {
            return Err(BAD_PARTS);
        }
        borders.push(pair[0] as u64 + pair[1] as u64);
    }
    if borders[5] != end as u64 || (0..4).any(|table| trailer[2 * table + 3] as usize % (4 * ROW_WORDS[table]) != 0) {
        return Err(BAD_PARTS);
    }
    let part = |at: usize| &file[borders[at] as usize..borders[at + 1] as usize];
    let words: [Vec<u32>; 4] = std::array::from_fn(|table| words_of(part(table + 1)));
    if part(0).len() > room.letters || (0..4).any(|table| words[table].len() > room.words[table]) {
        return Err(TOO_SMALL);
    }
    let counts = std::array::from_fn(|table| (words[table].len() / ROW_WORDS[table]) as u64);
    let tables = Tables { text: part(0).to_vec(), words, counts };
    if well_formed(&tables) {
        Ok(tables)
    } else {
        Err(NOT_WELL_FORMED)
    }
}

/// The words that bytes hold, the lowest byte first.
fn words_of(bytes: &[u8]) -> Vec<u32> {
    bytes.chunks_exact(4).map(|word| u32::from_le_bytes(word.try_into().unwrap())).collect()
}
