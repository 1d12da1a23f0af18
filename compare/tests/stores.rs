//! The judge of stores and loads passes calls that do as the rules say, and fails each of some that slip.
use compare::answer::*;
use compare::file_run;
use compare::judge::Case;
use compare::memory::Memory;
use compare::our_stores::StoreCalls;
use compare::store_library::StoreReport;
use compare::stored::{self, file_of, Room, BAD_PARTS, TOO_SMALL};
use compare::tables::Tables;

/// How many damaged files each is tried on.
const TRIED: u64 = 60_000;

fn refused(number: u64) -> StoreReport {
    [number, 0, 0, 0, 0, 0, 0, 0]
}

/// A store by the model.
fn store(text: &[u8], tables: [&[u32]; 4], counts: Rows, output: &mut [u8]) -> StoreReport {
    let tables = Tables { text: text.to_vec(), words: tables.map(|words| words.to_vec()), counts };
    if Case::of(&tables).print.is_none() {
        return refused(NOT_WELL_FORMED);
    }
    let file = file_of(&tables);
    if output.len() < file.len() {
        return refused(TOO_SMALL);
    }
    output[..file.len()].copy_from_slice(&file);
    [ACCEPTED, file.len() as u64, 0, 0, 0, 0, 0, 0]
}

fn room_of(text: &[u8], tables: &[&mut [u32]; 4]) -> Room {
    Room { letters: text.len(), words: std::array::from_fn(|table| tables[table].len()) }
}

/// A load by the model.
fn load(file: &[u8], text: &mut [u8], tables: [&mut [u32]; 4]) -> StoreReport {
    match stored::load(file, room_of(text, &tables)) {
        Err(number) => refused(number),
        Ok(loaded) => take(&loaded, text, tables),
    }
}

/// Takes over what was loaded, and reports it.
fn take(loaded: &Tables, text: &mut [u8], tables: [&mut [u32]; 4]) -> StoreReport {
    text[..loaded.text.len()].copy_from_slice(&loaded.text);
    for (lent, words) in tables.into_iter().zip(&loaded.words) {
        lent[..words.len()].copy_from_slice(words);
        lent[words.len()..].fill(0);
    }
    let [items, statements, operands, attributes] = loaded.counts;
    [ACCEPTED, loaded.text.len() as u64, items, statements, operands, attributes, 0, 0]
}

fn differences(calls: StoreCalls) -> u64 {
    file_run::run(TRIED, 7, Some(calls), &mut Memory::new()).differences
}

#[test]
fn the_model_passes() {
    assert_eq!(differences(StoreCalls { store, load }), 0);
}

#[test]
fn slips_of_a_store_are_seen() {
    let slips: [(&str, fn(&[u8], [&[u32]; 4], Rows, &mut [u8]) -> StoreReport); 4] = [
        ("15 before 8", |text, tables, counts, output| {
            let bytes = tables.iter().map(|words| words.len() * 4).sum::<usize>() + text.len() + stored::TRAILER;
            if output.len() < bytes {
                return refused(TOO_SMALL);
            }
            store(text, tables, counts, output)
        }),
        ("bytes in the other order", |text, tables, counts, output| {
            let report = store(text, tables, counts, output);
            if report[0] == ACCEPTED {
                let words = &mut output[text.len()..report[1] as usize];
                words.chunks_mut(4).for_each(|word| word.reverse());
            }
            report
        }),
        ("a start off by one", |text, tables, counts, output| {
            let report = store(text, tables, counts, output);
            if report[0] == ACCEPTED {
                output[report[1] as usize - 36] ^= 1;
            }
            report
        }),
        ("written where it is refused", |text, tables, counts, output| {
            let report = store(text, tables, counts, output);
            if report[0] == TOO_SMALL && !output.is_empty() {
                output[0] = text.first().copied().unwrap_or(0);
            }
            report
        }),
    ];
    for (slip, store) in slips {
        assert_ne!(differences(StoreCalls { store, load }), 0, "{}", slip);
    }
}

#[test]
fn slips_of_a_load_are_seen() {
    let slips: [(&str, fn(&[u8], &mut [u8], [&mut [u32]; 4]) -> StoreReport); 5] = [
        ("copied before the test", |file, text, tables| match stored::load(file, room_of(text, &tables)) {
            Err(NOT_WELL_FORMED) => {
                text.fill(0);
                refused(NOT_WELL_FORMED)
            }
            _ => load(file, text, tables),
        }),
        ("15 before 14", |file, text, tables| match load(file, text, tables) {
            report if report[0] == BAD_PARTS && file.len() > 200 => refused(TOO_SMALL),
            report => report,
        }),
        ("words left behind the rows", |file, text, mut tables| {
            let lent = tables.each_mut().map(|words| &mut words[..]);
            let report = load(file, text, lent);
            if report[0] == ACCEPTED {
                let rows = report[3] as usize * ROW_WORDS[STATEMENTS];
                tables[STATEMENTS][rows..].fill(5);
            }
            report
        }),
        ("the text's rest cleared", |file, text, tables| {
            let report = load(file, text, tables);
            if report[0] == ACCEPTED {
                text[report[1] as usize..].fill(0);
            }
            report
        }),
        ("a version of two bytes", |file, text, tables| {
            let mut file = file.to_vec();
            let bytes = file.len();
            if bytes >= stored::TRAILER {
                file[bytes - 2..].fill(0);
            }
            load(&file, text, tables)
        }),
    ];
    for (slip, load) in slips {
        assert_ne!(differences(StoreCalls { store, load }), 0, "{}", slip);
    }
}
