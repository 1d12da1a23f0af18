//! Times a store and a load beside reading the same text, in one run: nanoseconds a byte of the text.
use crate::answer::*;
use crate::speed::{a_byte, each_mut, least, lent, rounds_of, File};
use crate::store_library::{load, store, STORES};
use crate::stored::TRAILER;
use crate::{library, model};
use std::hint::black_box;

/// What a text's file takes, in nanoseconds and bytes.
struct Times {
    file: usize,
    read: u128,
    store: u128,
    load: u128,
    tested: u128,
}

/// Times every text and shows the table.
pub fn show(files: &[File], rounds: usize) {
    if !STORES {
        return println!("\nThe library's store is not linked.");
    }
    println!("\n| rules on disk                         |  bytes |    file |  store |   test | taking |   load |   read | read / load |");
    println!("|---------------------------------------|-------:|--------:|-------:|-------:|-------:|-------:|-------:|------------:|");
    for file in files {
        let times = time(&file.text, rounds_of(file, rounds));
        let a_byte = |time| a_byte(time, file.text.len());
        println!(
            "| {:<37} | {:>6} | {:>7} | {:>6} | {:>6} | {:>6} | {:>6} | {:>6} | {:>11.2} |",
            file.name,
            file.text.len(),
            times.file,
            a_byte(times.store),
            a_byte(times.tested),
            a_byte(times.load.saturating_sub(times.tested)),
            a_byte(times.load),
            a_byte(times.read),
            times.read as f64 / times.load as f64,
        );
    }
}

/// Reads, stores and loads a text. What a load tests before it takes anything over is told apart by files that are refused late, with 8:
/// one whose last operand has no code, one whose last statement has too wide a type.
fn time(text: &[u8], rounds: usize) -> Times {
    let counts = model::read(Entry::Replacements, text).end.counts;
    let mut tables = lent(counts);
    let read = least(rounds, || library::read(Entry::Replacements, black_box(text), each_mut(&mut tables)));
    let rows: usize = tables.iter().map(|words| words.len() * 4).sum();
    let mut file = vec![0; text.len() + rows + TRAILER];
    let stored = std::array::from_fn(|table| &tables[table][..]);
    let store_time = least(rounds, || store(black_box(text), stored, counts, &mut file));
    assert_eq!(store(text, stored, counts, &mut file)[..2], [ACCEPTED, file.len() as u64]);

    let mut letters = vec![0; text.len()];
    let mut loaded = lent(counts);
    let load_time = least(rounds, || load(black_box(&file), &mut letters, each_mut(&mut loaded)));
    assert_eq!((&letters[..], &loaded), (text, &tables));

    let mut tested = |at: usize, byte: u8| {
        let mut spoilt = file.clone();
        spoilt[at] = byte;
        assert_eq!(load(&spoilt, &mut letters, each_mut(&mut loaded))[0], NOT_WELL_FORMED);
        least(rounds, || load(black_box(&spoilt), &mut letters, each_mut(&mut loaded)))
    };
    let attributes = file.len() - TRAILER - tables[ATTRIBUTES].len() * 4;
    let operands = attributes - tables[OPERANDS].len() * 4;
    let (last_operand, last_statement) = (attributes - ROW_WORDS[OPERANDS] * 4, operands - ROW_WORDS[STATEMENTS] * 4);
    let tested = tested(last_operand, 3).max(tested(last_statement + 3 * 4 + 2, 1));
    Times { file: file.len(), read, store: store_time, load: load_time, tested }
}
