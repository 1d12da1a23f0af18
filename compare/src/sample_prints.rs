//! The sample's lines about tables that a text was read into, each of 15 rows: their print with some room, their print with
//! one word damaged, the name of a row. Their answers are the model's.
//!
//! `P ENTRY WORK OUTPUT HEX` asks for the print with so many words of work area and so many bytes of output, and is answered
//! by `NUMBER PLACE HEX`: the print's number, what its report has for a place, and the bytes written. `D ENTRY TABLE WORD
//! VALUE HEX` asks for the print after one word of a table (0 to 3) is set to a value, with room enough. `N ENTRY ROW HEX`
//! asks for the name of a statement row, and is answered by `LENGTH HEX`.
use crate::answer::*;
use crate::judge::Case;
use crate::random::Random;
use crate::tables::Tables;
use crate::{generate, model, settled, table_damage};
use std::collections::HashSet;

/// How many rows each table has.
pub const ROWS: usize = 15;

/// The words of the longest work area, and the bytes of the longest output.
pub const WORK: usize = 64;
pub const OUTPUT: usize = 500;

/// The longest text.
const LONGEST_TEXT: usize = 110;

/// How many texts of chance are asked about.
const TEXTS: usize = 90;

/// How many damaged words of a text of chance are asked about.
const DAMAGED: usize = 4;

/// A question and its answer, a line each.
pub struct Line {
    pub question: String,
    pub answer: String,
}

pub fn sample() -> Vec<Line> {
    let mut random = Random::new(23);
    let mut lines = vec![];
    let whole = (Entry::Replacements, settled::WHOLE, 0, 0);
    for (entry, text, _, _) in [&whole].into_iter().chain(&settled::EXAMPLES).chain(&settled::TRAPS) {
        if let Some(tables) = tables_of(*entry, text.as_bytes()) {
            every_room(*entry, &tables, &mut lines);
            every_name(*entry, &tables, &mut lines);
            damaged(*entry, &tables, &mut random, 6, &mut lines);
        }
    }
    by_chance(&mut random, &mut lines);
    lines
}

/// The tables of an accepted text that is short enough and has rows few enough.
fn tables_of(entry: Entry, text: &[u8]) -> Option<Tables> {
    let reading = model::read(entry, text);
    if reading.end.number != ACCEPTED
        || text.len() > LONGEST_TEXT
        || reading.claimed().iter().any(|rows| *rows > ROWS as u64)
    {
        return None;
    }
    let mut tables = Tables::of(text, &reading);
    (0..4).for_each(|table| tables.words[table].resize(ROWS * ROW_WORDS[table], 0));
    Some(tables)
}

/// Exactly the room that is needed, one less of each, none, and more.
fn every_room(entry: Entry, tables: &Tables, lines: &mut Vec<Line>) {
    let case = Case::of(tables);
    let (words, bytes) = case.needed();
    let mut ask = |words: usize, bytes: usize| {
        if words <= WORK && bytes <= OUTPUT {
            let question = format!("P {} {} {} {}\n", entry.letter(), words, bytes, hex(&tables.text));
            lines.push(Line { question, answer: print_answer(&case, words, bytes) });
        }
    };
    ask(words, bytes);
    ask(words - 1, bytes);
    if bytes > 0 {
        ask(words, bytes - 1);
    }
    ask(0, 0);
    ask(words + 2, bytes + 3);
}

fn every_name(entry: Entry, tables: &Tables, lines: &mut Vec<Line>) {
    let case = Case::of(tables);
    for row in 0..=tables.counts[STATEMENTS] {
        let [_, first, length, ..] = case.name(row);
        let name = &tables.text[first as usize..(first + length) as usize];
        let question = format!("N {} {} {}\n", entry.letter(), row, hex(&tables.text));
        lines.push(Line { question, answer: format!("{} {}\n", length, hex(name)) });
    }
}

/// So many changes of a word, taken by chance: half of them such that the tables stay well formed, as far as they are found.
fn damaged(entry: Entry, tables: &Tables, random: &mut Random, wanted: usize, lines: &mut Vec<Line>) {
    let mut missing = [wanted / 2; 2];
    let mut seen = HashSet::new();
    for _ in 0..100 {
        let table = random.below(4);
        let word = random.below((tables.counts[table] as usize + 1).min(ROWS) * ROW_WORDS[table]);
        let value = random.one(&table_damage::edges(tables, table, word));
        let mut changed = tables.clone();
        changed.words[table][word] = value;
        let case = Case::of(&changed);
        let (words, bytes) = case.needed();
        let missing = &mut missing[case.print.is_some() as usize];
        if words <= WORK && bytes <= OUTPUT && *missing > 0 && seen.insert((table, word)) {
            *missing -= 1;
            let question = format!("D {} {} {} {} {}\n", entry.letter(), table, word, value, hex(&tables.text));
            lines.push(Line { question, answer: print_answer(&case, WORK, OUTPUT) });
        }
    }
}

fn by_chance(random: &mut Random, lines: &mut Vec<Line>) {
    let mut seen = HashSet::new();
    while seen.len() < TEXTS {
        let entry = random.one(&ENTRIES);
        let text = generate::text(random, entry, 0);
        let Some(tables) = tables_of(entry, &text) else { continue };
        if tables.counts[STATEMENTS] == 0 || !seen.insert(text) {
            continue;
        }
        let (words, bytes) = Case::of(&tables).needed();
        if bytes <= OUTPUT && words <= WORK {
            every_room(entry, &tables, lines);
            every_name(entry, &tables, lines);
            damaged(entry, &tables, random, DAMAGED, lines);
        }
    }
}

fn print_answer(case: &Case, words: usize, bytes: usize) -> String {
    let expected = case.expected(words, bytes);
    format!("{} {} {}\n", expected.report[0], expected.report[1], hex(expected.written))
}

pub fn hex(bytes: &[u8]) -> String {
    bytes.iter().map(|byte| format!("{:02x}", byte)).collect()
}

#[cfg(test)]
mod tests {
    use super::*;
    use crate::oracle;

    fn bytes_of(hex: &str) -> Vec<u8> {
        (0..hex.len() / 2).map(|at| u8::from_str_radix(&hex[at * 2..at * 2 + 2], 16).unwrap()).collect()
    }

    #[test]
    fn lines_have_every_number_and_the_crates_prints() {
        let lines = sample();
        for (kind, number) in [('P', 0), ('P', 9), ('P', 10), ('D', 0), ('D', 8)] {
            let begins =
                |line: &&Line| line.question.starts_with(kind) && line.answer.starts_with(&format!("{} ", number));
            assert!(lines.iter().filter(begins).count() > 100, "{} {}", kind, number);
        }
        assert!(lines.iter().filter(|line| line.question.starts_with('N')).count() > 300);
        for line in lines.iter().filter(|line| line.question.starts_with('P') && line.answer.starts_with("0 ")) {
            let fields: Vec<&str> = line.question.trim_end_matches('\n').split(' ').collect();
            let entry = ENTRIES.into_iter().find(|entry| fields[1] == entry.letter().to_string()).unwrap();
            let print = oracle::read(entry, &bytes_of(fields[4])).print;
            assert_eq!(line.answer, format!("0 {} {}\n", print.len(), hex(print.as_bytes())));
        }
    }
}
