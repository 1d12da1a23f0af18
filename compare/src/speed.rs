//! Times reading and printing, the crate beside the proved library where it is linked, and counts the memory of each: time
//! is the least of many rounds, in nanoseconds a byte of the text that is read or printed.
//!
//! Both read bytes: of the crate's time the UTF-8 check is part, of the library's the check and the clearing of its tables,
//! which have exactly the rows that are needed. Both print into an output as long as the print.
use crate::answer::*;
use crate::counting::most_bytes;
use crate::random::Random;
use crate::{generate, lex_speed, library, model, oracle, store_speed};
use souper_ir::{ast::Replacement, parse::parse_replacements_str};
use std::fmt::Write;
use std::hint::black_box;
use std::time::Instant;

/// What a side takes: nanoseconds, and bytes of memory.
#[derive(Clone, Copy)]
struct Cost {
    time: u128,
    memory: usize,
}

/// The library's print in parts: whole, up to 10, up to 9.
struct Parts {
    bytes: usize,
    whole: Cost,
    measured: u128,
    tested: u128,
}

/// A text, and its name in the table.
pub struct File {
    pub name: String,
    pub text: Vec<u8>,
}

/// Times every file and shows the tables.
pub fn speed(rounds: usize) {
    println!(
        "Nanoseconds a byte, least of {} rounds or more; memory in bytes, beside the text. Rules have 3 to 30",
        rounds
    );
    println!("statements each; short statements are of three-letter names, each referring to the one before.\n");
    println!("| what                                  |  bytes |  crate |   ours | times faster | crate's memory | our memory |");
    println!("|---------------------------------------|-------:|-------:|-------:|-------------:|---------------:|-----------:|");
    let files = files();
    files.iter().for_each(|file| time_read(file, rounds_of(file, rounds)));
    let parts: Vec<_> = files.iter().map(|file| (file, time_print(file, rounds_of(file, rounds)))).collect();
    if !library::PRINTS {
        return println!("\nThe library's printer is not linked.");
    }
    println!("\n| our print of                          |  bytes |   test | measuring | writing |  whole |");
    println!("|---------------------------------------|-------:|-------:|----------:|--------:|-------:|");
    parts.iter().for_each(|(file, parts)| show_parts(&file.name, parts.as_ref().expect("a print of every file")));
    store_speed::show(&files, rounds);
    lex_speed::speed(&files, |file| rounds_of(file, rounds));
}

/// Rules files, and single items.
fn files() -> Vec<File> {
    let mut random = Random::new(3);
    let mut files = vec![];
    for kilobytes in [1, 8, 64] {
        let text = generate::long_text(&mut random, kilobytes * 1024, 3..31);
        files.push(File { name: format!("rules, {} KB", kilobytes), text });
    }
    for statements in [10, 100, 1000, LONGEST] {
        let text = generate::one_item(&mut random, LONGEST, statements);
        files.push(File { name: format!("one item, {} statements", statements_of(&text)), text });
    }
    let text = generate::short_statements(LONGEST);
    files.push(File { name: format!("one item, {} short statements", statements_of(&text)), text });
    files
}

fn statements_of(text: &[u8]) -> u64 {
    model::read(Entry::Replacements, text).end.counts[STATEMENTS]
}

/// More rounds where a file is short.
pub fn rounds_of(file: &File, rounds: usize) -> usize {
    rounds * (LONGEST / file.text.len()).clamp(1, 100)
}

fn time_read(file: &File, rounds: usize) {
    let text = &file.text[..];
    let read = || parse_replacements_str(std::str::from_utf8(black_box(text)).unwrap(), None).unwrap();
    let crates = Cost { time: least(rounds, read), memory: most_bytes(read) };
    let counts = model::read(Entry::Replacements, text).end.counts;
    let ours = library::READS.then(|| {
        let mut tables = lent(counts);
        let time = least(rounds, || library::read(Entry::Replacements, black_box(text), each_mut(&mut tables)));
        Cost { time, memory: tables.iter().map(|words| words.len() * 4).sum() }
    });
    show(&format!("read {}", file.name), text.len(), crates, ours);
}

/// Times the prints of both, and shows them; answers ours in parts.
fn time_print(file: &File, rounds: usize) -> Option<Parts> {
    let items = parse_replacements_str(std::str::from_utf8(&file.text).unwrap(), None).unwrap();
    let print = oracle::print(&items);
    let written = || {
        let mut output = String::with_capacity(print.len());
        black_box(&items).iter().for_each(|item: &Replacement| write!(output, "{}", item).unwrap());
        output
    };
    let crates = Cost { time: least(rounds, written), memory: most_bytes(written) };
    let parts = library::PRINTS.then(|| time_our_print(&file.text, print.as_bytes(), rounds));
    show(&format!("print {}", file.name), print.len(), crates, parts.as_ref().map(|parts| parts.whole));
    parts
}

fn time_our_print(text: &[u8], print: &[u8], rounds: usize) -> Parts {
    let counts = model::read(Entry::Replacements, text).end.counts;
    let mut tables = lent(counts);
    library::read(Entry::Replacements, text, each_mut(&mut tables));
    let tables = std::array::from_fn(|table| &tables[table][..]);
    let needed = 3 * counts[STATEMENTS] as usize + counts[OPERANDS] as usize + 1;
    let (mut work, mut output) = (vec![0; needed], vec![0; print.len()]);
    let mut time = |words: usize, bytes: usize, number: u64| {
        let time =
            least(rounds, || library::print(black_box(text), tables, counts, &mut work[..words], &mut output[..bytes]));
        let report = library::print(text, tables, counts, &mut work[..words], &mut output[..bytes]);
        assert_eq!(report[0], number);
        time
    };
    let tested = time(0, 0, WORK_TOO_SHORT);
    let measured = time(needed, 0, OUTPUT_TOO_SHORT);
    let whole = Cost { time: time(needed, print.len(), ACCEPTED), memory: needed * 4 + print.len() };
    assert_eq!(output, print);
    Parts { bytes: print.len(), whole, measured, tested }
}

/// Tables of exactly so many rows.
pub fn lent(counts: Rows) -> [Vec<u32>; 4] {
    std::array::from_fn(|table| vec![0; counts[table] as usize * ROW_WORDS[table]])
}

pub fn each_mut(tables: &mut [Vec<u32>; 4]) -> [&mut [u32]; 4] {
    tables.each_mut().map(|words| &mut words[..])
}

/// A round that takes longer is often interrupted, and its time is the processor's.
const INTERRUPTED: u128 = 1_000_000;

/// The nanoseconds of the quickest of some rounds; what a round answers is dropped after its time is taken.
pub fn least<T>(rounds: usize, mut round: impl FnMut() -> T) -> u128 {
    let once = |_| {
        let processor = processor_time();
        let start = Instant::now();
        let answer = black_box(round());
        let time = start.elapsed().as_nanos();
        let processor = processor_time() - processor;
        drop(answer);
        if time > INTERRUPTED {
            time.min(processor)
        } else {
            time
        }
    };
    (0..rounds).map(once).min().unwrap()
}

/// The nanoseconds that the processor has spent on this thread.
fn processor_time() -> u128 {
    extern "C" {
        fn clock_gettime(clock: std::ffi::c_int, time: *mut [i64; 2]) -> std::ffi::c_int;
    }
    const OF_THIS_THREAD: std::ffi::c_int = 3;
    let mut time = [0; 2];
    // SAFETY: seconds and nanoseconds are two words of 64 bits, and written.
    assert_eq!(unsafe { clock_gettime(OF_THIS_THREAD, &mut time) }, 0);
    time[0] as u128 * 1_000_000_000 + time[1] as u128
}

pub fn a_byte(time: u128, bytes: usize) -> String {
    format!("{:.2}", time as f64 / bytes as f64)
}

fn show(what: &str, bytes: usize, crates: Cost, ours: Option<Cost>) {
    let of_ours = |said: &dyn Fn(Cost) -> String| ours.map_or("-".to_string(), said);
    println!(
        "| {:<37} | {:>6} | {:>6} | {:>6} | {:>12} | {:>14} | {:>10} |",
        what,
        bytes,
        a_byte(crates.time, bytes),
        of_ours(&|ours| a_byte(ours.time, bytes)),
        of_ours(&|ours| format!("{:.2}", crates.time as f64 / ours.time as f64)),
        crates.memory,
        of_ours(&|ours| ours.memory.to_string()),
    );
}

fn show_parts(name: &str, parts: &Parts) {
    let a_byte = |time| a_byte(time, parts.bytes);
    println!(
        "| {:<37} | {:>6} | {:>6} | {:>9} | {:>7} | {:>6} |",
        name,
        parts.bytes,
        a_byte(parts.tested),
        a_byte(parts.measured.saturating_sub(parts.tested)),
        a_byte(parts.whole.time.saturating_sub(parts.measured)),
        a_byte(parts.whole.time),
    );
}
