//! Holds a store and a load, as a library's calls give them, to what the model says: the report, every byte and word that is
//! lent to be written, and that nothing else is changed.
use crate::answer::*;
use crate::judge::{Case, LIBRARY};
use crate::memory::{Memory, RUBBISH, RUBBISH_BYTE};
use crate::store_library::{self, StoreReport};
use crate::stored::{file_of, load, Room, TOO_SMALL};
use crate::tables::Tables;

/// The two calls: a text, four tables, their counts, an output; a file, a text, four tables.
pub type Store = fn(&[u8], [&[u32]; 4], Rows, &mut [u8]) -> StoreReport;
pub type Load = fn(&[u8], &mut [u8], [&mut [u32]; 4]) -> StoreReport;

#[derive(Clone, Copy)]
pub struct StoreCalls {
    pub store: Store,
    pub load: Load,
}

/// The proved library's.
pub const STORE_LIBRARY: StoreCalls = StoreCalls { store: store_library::store, load: store_library::load };

/// What is wrong where the tables of an accepted text are stored and loaded, with room enough and too little, and printed.
pub fn wrong_storing(tables: &Tables, memory: &mut Memory) -> Option<String> {
    let calls = STORE_LIBRARY;
    let case = Case::of(tables);
    let file = file_of(tables);
    case.lend(memory);
    let bytes = file.len();
    let rooms = [bytes, 0, bytes - 1, bytes + 9];
    let fault = rooms.into_iter().find_map(|bytes| wrong_store(calls, &case, memory, bytes));
    let room = Room::of(tables);
    fault
        .or_else(|| too_small(room).into_iter().find_map(|room| wrong_load(calls, &file, memory, room)))
        .or_else(|| wrong_load(calls, &file, memory, room.with(5)))
        .or_else(|| wrong_load(calls, &file, memory, room))
        .or_else(|| wrong_loaded_print(tables, memory))
}

/// Rooms that lack one byte of the text, or one word of a table.
pub fn too_small(room: Room) -> Vec<Room> {
    let mut rooms = vec![];
    if room.letters > 0 {
        rooms.push(Room { letters: room.letters - 1, ..room });
    }
    for table in (0..4).filter(|table| room.words[*table] > 0) {
        let mut less = room;
        less.words[table] -= 1;
        rooms.push(less);
    }
    rooms
}

/// What is wrong with a print of what the last load left, its tables exactly as long as the counted rows.
fn wrong_loaded_print(tables: &Tables, memory: &mut Memory) -> Option<String> {
    let words = std::array::from_fn(|table| tables.words[table][..Room::of(tables).words[table]].to_vec());
    let loaded = Tables { text: tables.text.clone(), words, counts: tables.counts };
    let case = Case::of(&loaded);
    let (words, bytes) = case.needed();
    case.wrong_print(LIBRARY, memory, words, bytes).map(|fault| format!("what was loaded: {}", fault))
}

/// What is wrong with a store of the lent tables into an output of so many bytes.
pub fn wrong_store(calls: StoreCalls, case: &Case, memory: &mut Memory, bytes: usize) -> Option<String> {
    let file = if case.print.is_some() { file_of(case.tables) } else { vec![] };
    let (report, written): (StoreReport, &[u8]) = match &case.print {
        None => ([NOT_WELL_FORMED, 0, 0, 0, 0, 0, 0, 0], b""),
        Some(_) if bytes < file.len() => ([TOO_SMALL, 0, 0, 0, 0, 0, 0, 0], b""),
        Some(_) => ([ACCEPTED, file.len() as u64, 0, 0, 0, 0, 0, 0], &file),
    };
    let edge = memory.edge;
    let Memory { text, tables, file: region, .. } = memory;
    let output = region.bytes(bytes, edge);
    output.fill(RUBBISH_BYTE);
    let lent = std::array::from_fn(|table| tables[table].read_words(case.tables.words[table].len(), edge));
    let text = text.read_bytes(case.tables.text.len(), edge);
    let answered = (calls.store)(text, lent, case.tables.counts, output);
    let fault = if answered != report {
        format!("report {:?}, expected {:?}", answered, report)
    } else if !output.starts_with(written) {
        "the file is another".to_string()
    } else if output[written.len()..].iter().any(|byte| *byte != RUBBISH_BYTE) {
        "output changed past what is written".to_string()
    } else if !region.is_whole(bytes, edge) {
        "written beside the output".to_string()
    } else {
        return case.changed(memory).map(|fault| format!("store: {}", fault));
    };
    Some(format!("store into {} bytes: {}", bytes, fault))
}

/// What is wrong with a load of a file into memory of a room.
pub fn wrong_load(calls: StoreCalls, file: &[u8], memory: &mut Memory, room: Room) -> Option<String> {
    let expected = load(file, room);
    let edge = memory.edge;
    memory.file.bytes(file.len(), edge).copy_from_slice(file);
    let Memory { text, tables, file: region, .. } = memory;
    let letters = text.bytes(room.letters, edge);
    letters.fill(RUBBISH_BYTE);
    let mut words = room.words.iter();
    let lent = tables.each_mut().map(|table| {
        let part = table.words(*words.next().unwrap(), edge);
        part.fill(RUBBISH);
        part
    });
    let answered = (calls.load)(region.read_bytes(file.len(), edge), letters, lent);
    let report = match &expected {
        Err(number) => [*number, 0, 0, 0, 0, 0, 0, 0],
        Ok(Tables { text, counts: [items, statements, operands, attributes], .. }) => {
            [ACCEPTED, text.len() as u64, *items, *statements, *operands, *attributes, 0, 0]
        }
    };
    let fault = if answered != report {
        Some(format!("report {:?}, expected {:?}", answered, report))
    } else if region.read_bytes(file.len(), edge) != file || !region.is_whole(file.len(), edge) {
        Some("the file is changed".to_string())
    } else {
        wrong_left(expected.as_ref().ok(), memory, room)
    };
    fault.map(|fault| format!("load of {} bytes into {:?}: {}", file.len(), room, fault))
}

/// What is wrong with what a load left: the text over the front of the lent one, rows with zeros behind them; all as it was where
/// the load is refused.
fn wrong_left(loaded: Option<&Tables>, memory: &Memory, room: Room) -> Option<String> {
    let Memory { text, tables, edge, .. } = memory;
    let letters = loaded.map_or(&b""[..], |loaded| &loaded.text);
    let left = text.read_bytes(room.letters, *edge);
    let (front, behind) = left.split_at(letters.len());
    if front != letters || behind.iter().any(|byte| *byte != RUBBISH_BYTE) || !text.is_whole(room.letters, *edge) {
        return Some("the text is another".to_string());
    }
    (0..4).find_map(|table| {
        let rest = if loaded.is_some() { 0 } else { RUBBISH };
        let rows = loaded.map_or(&[][..], |loaded| &loaded.words[table]);
        let (front, behind) = tables[table].read_words(room.words[table], *edge).split_at(rows.len());
        let whole = tables[table].is_whole(room.words[table] * 4, *edge);
        let wrong = front != rows || behind.iter().any(|word| *word != rest) || !whole;
        wrong.then(|| format!("table {} is another", table))
    })
}
