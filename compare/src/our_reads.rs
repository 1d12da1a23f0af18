//! The library's readings of a text, held to the model's: the report, every word of every table, and what is not lent.
use crate::answer::*;
use crate::library;
use crate::memory::{Memory, RUBBISH};
use crate::model::Reading;
use crate::tables::Tables;

/// Texts of more bytes than this are not read with every smaller capacity.
const SMALL_TEXT: usize = 400;

/// Where there are more combinations of capacities than this, only some are tried.
const MANY: u64 = 150;

/// What is wrong with a reading at some capacities: the report, every word of every table, and what is not lent.
pub fn wrong_read(
    entry: Entry,
    text: &[u8],
    reading: &Reading,
    tables: Option<&Tables>,
    capacities: Rows,
    memory: &mut Memory,
) -> Option<String> {
    let expected = reading.answer(capacities);
    let more = text.len() + capacities[0] as usize;
    let words: [usize; 4] =
        std::array::from_fn(|table| capacities[table] as usize * ROW_WORDS[table] + more % ROW_WORDS[table]);
    let edge = memory.edge;
    let mut lengths = words.iter();
    let lent = memory.tables.each_mut().map(|region| {
        let part = region.words(*lengths.next().unwrap(), edge);
        part.fill(RUBBISH);
        part
    });
    memory.text.bytes(text.len(), edge).copy_from_slice(text);
    let report = library::read(entry, memory.text.read_bytes(text.len(), edge), lent);
    let answered = Answer { number: report[0], place: report[1], counts: [report[2], report[3], report[4], report[5]] };
    if answered != expected {
        return Some(format!("rows {:?}: ours {:?}, model {:?}", capacities, answered, expected));
    }
    let rows = if expected.number == ACCEPTED { tables } else { None };
    (0..4).find_map(|table| {
        let expected = rows.map_or(&[][..], |tables| &tables.words[table]);
        let lent = memory.tables[table].read_words(words[table], edge);
        let wrong = (0..words[table]).find(|word| lent[*word] != expected.get(*word).copied().unwrap_or(0));
        if !memory.tables[table].is_whole(words[table] * 4, edge) {
            return Some(format!("rows {:?}: written beside table {}", capacities, table));
        }
        wrong.map(|word| format!("rows {:?}: word {} of table {} is {}", capacities, word, table, lent[word]))
    })
}

/// What is wrong where capacities are smaller than needed: every combination where they are few, else each table alone, and
/// for a long text by one row alone.
pub fn wrong_at_smaller(
    entry: Entry,
    text: &[u8],
    reading: &Reading,
    tables: Option<&Tables>,
    memory: &mut Memory,
) -> Option<String> {
    let claimed = reading.claimed();
    let combinations = claimed.iter().fold(1, |product: u64, rows| product.saturating_mul(rows + 1));
    let mut wrong_at = |capacities: Rows| wrong_read(entry, text, reading, tables, capacities, memory);
    if combinations <= MANY {
        return (0..combinations).find_map(|index| wrong_at(combination(index, claimed)));
    }
    (0..4).find_map(|table| {
        let least = if text.len() > SMALL_TEXT { claimed[table].saturating_sub(1) } else { 0 };
        (least..=claimed[table]).find_map(|capacity| {
            let mut capacities = claimed;
            capacities[table] = capacity;
            wrong_at(capacities)
        })
    })
}

/// One of the combinations of capacities of at most these rows, by its number.
fn combination(mut index: u64, rows: Rows) -> Rows {
    rows.map(|rows| {
        let capacity = index % (rows + 1);
        index /= rows + 1;
        capacity
    })
}
