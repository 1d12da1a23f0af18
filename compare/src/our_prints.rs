//! The library's prints and names of accepted tables: with any room, and read back.
use crate::answer::*;
use crate::judge::{Case, LIBRARY};
use crate::memory::Memory;
use crate::model;
use crate::our_reads::wrong_read;
use crate::tables::Tables;

/// Work areas and outputs of at most so many words or bytes are tried at every length.
const SMALL_ROOM: usize = 24;

/// Of more rows than this, the names of some are asked for.
const MANY: u64 = 400;

/// What is wrong with the print of accepted tables, with the names of their rows, and with the print read back.
pub fn wrong_printing(entry: Entry, tables: Tables, memory: &mut Memory) -> Option<String> {
    let more = tables.text.len();
    let tables = tables.with_room(more % 3, more);
    let case = Case::of(&tables);
    case.lend(memory);
    wrong_rooms(&case, memory)
        .or_else(|| wrong_names(&case, memory))
        .or_else(|| wrong_back(entry, case.print.as_deref().unwrap_or(b""), memory))
}

/// What is wrong with prints with as much room as is needed, less and more: every length of work area and of output where
/// they are few, else those about what is needed.
fn wrong_rooms(case: &Case, memory: &mut Memory) -> Option<String> {
    let (words, bytes) = case.needed();
    let every = |needed: usize| -> Vec<usize> {
        if needed <= SMALL_ROOM {
            return (0..needed + 4).collect();
        }
        vec![0, 1, needed / 2, needed - 1, needed, needed + 1, needed + 13]
    };
    every(words)
        .into_iter()
        .map(|words| (words, bytes))
        .chain(every(bytes).into_iter().map(|bytes| (words, bytes)))
        .chain([(0, 0), (words - 1, bytes + 9), (words + 5, bytes.saturating_sub(1)), (words + 3, bytes + 5)])
        .find_map(|(words, bytes)| case.wrong_print(LIBRARY, memory, words, bytes))
}

/// What is wrong with the names of some tables' rows: of every row where they are few, and of rows past the count.
fn wrong_names(case: &Case, memory: &mut Memory) -> Option<String> {
    let count = case.tables.counts[STATEMENTS];
    let step = if count > MANY { count as usize / 8 } else { 1 };
    (0..count)
        .step_by(step)
        .chain([count, count + 1, count + 65_536, 1 << 32, u64::MAX])
        .find_map(|row| case.wrong_name(LIBRARY, memory, row))
}

/// What is wrong where a print is read again, and printed again.
fn wrong_back(entry: Entry, print: &[u8], memory: &mut Memory) -> Option<String> {
    if print.len() > LONGEST {
        return None;
    }
    let reading = model::read(entry, print);
    let tables = Tables::of(print, &reading);
    let case = Case::of(&tables);
    if reading.end.number != ACCEPTED || case.print.as_deref() != Some(print) {
        return Some("the print is not printed alike when it is read".to_string());
    }
    let (words, bytes) = case.needed();
    let capacities = reading.end.counts;
    let fault = wrong_read(entry, print, &reading, Some(&tables), capacities, memory).or_else(|| {
        case.lend(memory);
        case.wrong_print(LIBRARY, memory, words, bytes)
    });
    fault.map(|fault| format!("the print read again: {}", fault))
}
