//! Compares the crate, the model and, where it is linked, the proved library on many texts.
use crate::answer::*;
use crate::judge::LIBRARY;
use crate::memory::{Memory, CASE};
use crate::our_stores::STORE_LIBRARY;
use crate::store_library::STORES;
use crate::{
    damage, file_run, generate, lexing, library, model, oracle, ours, printing, random::Random, settled, short,
    table_run,
};
use std::panic::{catch_unwind, AssertUnwindSafe};
use std::sync::atomic::Ordering;

/// How many differences are shown.
const SHOWN: u64 = 20;

/// How many texts are compared, and from which seed they are made.
pub struct Plan {
    pub texts: u64,
    pub seed: u64,
    /// Tokens of the longest of the texts that are tried exhaustively.
    pub tokens: usize,
    /// How many damaged tables are compared.
    pub tables: u64,
    /// How many damaged files are compared.
    pub files: u64,
}

/// What has been compared so far.
struct Tally {
    texts: u64,
    by_number: [[u64; NUMBERS]; 3],
    claims: u64,
    differences: u64,
    memory: Memory,
}

/// Compares all texts and tables of a plan; answers how many differ.
pub fn run(plan: &Plan) -> u64 {
    std::panic::set_hook(Box::new(|_| {}));
    let mut tally = Tally { texts: 0, by_number: Default::default(), claims: 0, differences: 0, memory: Memory::new() };
    tally.stage("settled examples", settled_texts);
    tally.stage("long texts", long_texts);
    tally.stage("short texts of bytes", |tally| short::byte_texts(&mut vec![], 4, &mut |text| tally.compare(text)));
    tally.stage("short texts of tokens", |tally| short::token_texts(plan.tokens, &mut |text| tally.compare(text)));
    tally.stage("texts by the grammar, whole and damaged", |tally| random_texts(plan, tally));
    tally.show();
    tally.differences
        + damaged_tables(plan, &mut tally.memory)
        + damaged_files(plan, &mut tally.memory)
        + lexing::run(plan.texts, plan.seed)
}

/// Compares damaged tables; answers how many differ.
fn damaged_tables(plan: &Plan, memory: &mut Memory) -> u64 {
    let calls = library::PRINTS.then_some(LIBRARY);
    let tally = table_run::run(plan.tables, plan.seed, calls, memory);
    let linked = if library::PRINTS { "model and the library" } else { "the library's printer is not linked" };
    println!("\n{} damaged tables, {} of them well formed", tally.tables, tally.well_formed);
    println!("compared: {}\ndifferences: {}", linked, tally.differences);
    tally.differences
}

/// Compares damaged files, and stores of damaged tables; answers how many differ.
fn damaged_files(plan: &Plan, memory: &mut Memory) -> u64 {
    let tally = file_run::run(plan.files, plan.seed, STORES.then_some(STORE_LIBRARY), memory);
    let linked = if STORES { "model and the library" } else { "the library's store is not linked" };
    let [loaded, .., malformed, _, _, _, _, version, parts, small] = tally.by_number;
    println!(
        "\n{} files, {} of them loaded; answers: 8 {}, 13 {}, 14 {}, 15 {}",
        tally.files, loaded, malformed, version, parts, small
    );
    println!("{} stores of damaged tables\ncompared: {}\ndifferences: {}", tally.stores, linked, tally.differences);
    tally.differences
}

fn settled_texts(tally: &mut Tally) {
    for (_, text, _, _) in settled::EXAMPLES.iter().chain(&settled::TRAPS) {
        tally.compare(text.as_bytes());
        every_cut(text.as_bytes(), tally);
    }
    for text in [settled::WHOLE, settled::ORDERED] {
        tally.compare(text.as_bytes());
        every_cut(text.as_bytes(), tally);
    }
}

/// Texts of about the longest length that is read, plain and at its worst.
fn long_texts(tally: &mut Tally) {
    let mut random = Random::new(1);
    for length in [LONGEST - 1, LONGEST, LONGEST + 1] {
        for filler in [&b" "[..], b";", b"(", b"%", b"a", b"0", b"-", b"\n", b"\xC2\x85", b"\xFF", b"%a=var "] {
            let mut text = filler.repeat(length / filler.len() + 1);
            text.truncate(length);
            tally.compare(&text);
            for end in [&b"%"[..], b"knownBits", b"cand 1 1", b"\n%a", b"\xE2\x80", b" 1"] {
                text.truncate(length - end.len());
                text.extend_from_slice(end);
                tally.compare(&text);
            }
        }
        for statements in [3..31, 100_000..100_001] {
            let mut text = generate::long_text(&mut random, length, statements);
            tally.compare(&text);
            text.resize(length, b' ');
            tally.compare(&text);
        }
        tally.compare(&phi_of_every_byte(length));
        tally.compare(&[b"cand 1:i".to_vec(), vec![b'0'; length - 11], b"8 1".to_vec()].concat());
        tally.compare(&[b"cand -".to_vec(), vec![b'0'; length - 9], b"7 1".to_vec()].concat());
        tally.compare(&[b"cand 1 1".to_vec(), b"(harvestedFromUse)".repeat((length - 8) / 18)].concat());
    }
}

/// A phi of a block with as many predecessors as operands of two bytes fit a text.
fn phi_of_every_byte(length: usize) -> Vec<u8> {
    let operands = (length - 40) / 2;
    let mut text = format!("%a=block {} %b=phi %a", operands).into_bytes();
    text.extend(b",0".repeat(operands));
    text.extend_from_slice(b"cand %b 1");
    text
}

fn every_cut(text: &[u8], tally: &mut Tally) {
    for at in 0..text.len() {
        tally.compare(&text[..at]);
        tally.compare(&text[at..]);
    }
}

fn random_texts(plan: &Plan, tally: &mut Tally) {
    let mut random = Random::new(plan.seed);
    let end = tally.texts + plan.texts;
    while tally.texts < end {
        let entry = random.one(&ENTRIES);
        let slips = random.one(&[0, 0, 0, 3, 10, 40]);
        let mut text = generate::text(&mut random, entry, slips);
        if random.chance(500) {
            for _ in 0..1 + random.below(3) {
                damage::damage(&mut random, &mut text);
            }
        }
        tally.compare(&text);
        if text.len() < 300 && random.chance(2) {
            every_cut(&text, tally);
        }
    }
}

impl Tally {
    fn stage(&mut self, name: &str, texts: impl FnOnce(&mut Tally)) {
        let before = self.texts;
        texts(self);
        println!("{:>10} {}", self.texts - before, name);
    }

    /// Compares a text at each entry point.
    fn compare(&mut self, text: &[u8]) {
        self.texts += 1;
        CASE.store(self.texts, Ordering::Relaxed);
        for entry in ENTRIES {
            let reading = model::read(entry, text);
            self.claims += reading.claims.len() as u64;
            if let Some(difference) = difference(entry, text, &reading, &mut self.memory) {
                self.differences += 1;
                if self.differences <= SHOWN {
                    show_difference(entry, text, &difference, &mut self.memory);
                }
            }
            let number = (reading.end.number as usize).min(NUMBERS - 1);
            self.by_number[ENTRIES.iter().position(|one| *one == entry).unwrap()][number] += 1;
        }
    }

    fn show(&self) {
        println!("\n{} texts, each at three entry points, {} claims; answers by number:", self.texts, self.claims);
        println!("     {}", (0..NUMBERS - 1).map(|number| format!("{:>11}", number)).collect::<String>());
        for (entry, counts) in ENTRIES.iter().zip(&self.by_number) {
            let columns = counts[..NUMBERS - 1].iter().map(|count| format!("{:>11}", count)).collect::<String>();
            println!("    {}{}", entry.letter(), columns);
        }
        let linked = match (library::READS, library::PRINTS) {
            (false, _) => "crate and model; the library is not linked",
            (true, false) => "crate, model and the library's readers",
            (true, true) => "crate, model and the library",
        };
        println!("compared: {}\ndifferences: {}", linked, self.differences);
    }
}

/// How the readings of a text differ, if they do.
pub fn difference(entry: Entry, text: &[u8], reading: &model::Reading, memory: &mut Memory) -> Option<String> {
    let Ok(said) = catch_unwind(AssertUnwindSafe(|| oracle::read(entry, text))) else {
        return Some("the crate panics".to_string());
    };
    if said.answer != reading.end {
        return Some(format!("crate {:?}, model {:?}", said.answer, reading.end));
    }
    if reading.claimed().iter().any(|rows| *rows > text.len() as u64) {
        return Some(format!("{:?} rows claimed by {} bytes", reading.claimed(), text.len()));
    }
    if said.answer.number == ACCEPTED {
        if printing::print(&reading.items) != said.print.as_bytes() {
            return Some(format!("the crate prints {:?}", said.print));
        }
        if said.print.len() <= LONGEST && oracle::read(entry, said.print.as_bytes()).print != said.print {
            return Some(format!("the crate's print {:?} is not printed alike when it is read", said.print));
        }
    }
    ours::wrong(entry, text, reading, said.print.as_bytes(), memory)
}

fn show_difference(entry: Entry, text: &[u8], difference: &str, memory: &mut Memory) {
    let small = smallest(entry, text, memory);
    println!("{} {:?}: {}", entry.letter(), String::from_utf8_lossy(&small), difference);
    if small != text {
        let reading = model::read(entry, &small);
        println!("    smallest: {}", self::difference(entry, &small, &reading, memory).unwrap_or_default());
    }
}

/// A text that differs too, of which no byte can be left out.
fn smallest(entry: Entry, text: &[u8], memory: &mut Memory) -> Vec<u8> {
    let mut small = text.to_vec();
    let mut at = 0;
    while at < small.len() && text.len() < 2000 {
        let mut shorter = small.clone();
        shorter.remove(at);
        let reading = model::read(entry, &shorter);
        if self::difference(entry, &shorter, &reading, memory).is_some() {
            small = shorter;
            at = 0;
        } else {
            at += 1;
        }
    }
    small
}
