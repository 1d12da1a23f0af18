//! A fixed sample of readings, with their answers, that a program replays from standard input; `sample_prints` has its lines
//! about prints and names.
//!
//! A line asks `ENTRY ITEMS STATEMENTS OPERANDS ATTRIBUTES HEX`: the entry point's letter, four capacities in rows, and the
//! text, two hexadecimal digits a byte (none for the empty text). Its answer is the line `NUMBER PLACE ITEMS STATEMENTS
//! OPERANDS ATTRIBUTES`.
use crate::answer::*;
use crate::sample_prints::{self, hex};
use crate::{damage, generate, model, oracle, random::Random, settled};
use std::collections::HashSet;
use std::{fs, io, path::Path};

/// The longest text that is taken by chance.
const SHORT: usize = 90;

/// How many readings of each number are taken by chance.
const WANTED: [usize; NUMBERS] = [320, 0, 130, 200, 300, 160, 200, 470];

/// A question, and its answer.
pub struct Asked {
    pub entry: Entry,
    pub capacities: Rows,
    pub text: Vec<u8>,
    pub answer: Answer,
}

/// The whole sample.
pub fn sample() -> Vec<Asked> {
    let mut asked: Vec<Asked> = vec![];
    for (entry, text, _, _) in settled::EXAMPLES.iter().chain(&settled::TRAPS) {
        every_table_short(*entry, text.as_bytes(), &mut asked);
    }
    every_table_short(Entry::Replacements, settled::WHOLE.as_bytes(), &mut asked);
    by_chance(&mut asked);
    let mut too_long = b"%a = var infer %a result %a\n".repeat(LONGEST / 28);
    too_long.resize(LONGEST + 1, b' ');
    asked.push(ask(Entry::Replacements, [1, 2, 3, 4], too_long));
    asked
}

/// Writes the sample's questions to the file `stdin` of a folder, and the answers to `stdout`.
pub fn write(folder: &Path) -> io::Result<()> {
    let asked = sample();
    let prints = sample_prints::sample();
    let questions = asked.iter().map(question).chain(prints.iter().map(|line| line.question.clone()));
    let answers = asked.iter().map(answer).chain(prints.iter().map(|line| line.answer.clone()));
    fs::create_dir_all(folder)?;
    fs::write(folder.join("stdin"), questions.collect::<String>())?;
    fs::write(folder.join("stdout"), answers.collect::<String>())
}

pub fn question(asked: &Asked) -> String {
    let [items, statements, operands, attributes] = asked.capacities;
    let letter = asked.entry.letter();
    format!("{} {} {} {} {} {}\n", letter, items, statements, operands, attributes, hex(&asked.text))
}

pub fn answer(asked: &Asked) -> String {
    let Answer { number, place, counts: [items, statements, operands, attributes] } = asked.answer;
    format!("{} {} {} {} {} {}\n", number, place, items, statements, operands, attributes)
}

fn ask(entry: Entry, capacities: Rows, text: Vec<u8>) -> Asked {
    let answer = model::read(entry, &text).answer(capacities);
    Asked { entry, capacities, text, answer }
}

/// A text with as many rows as it claims, with some more, and with one too few of each table.
fn every_table_short(entry: Entry, text: &[u8], asked: &mut Vec<Asked>) {
    let claimed = model::read(entry, text).claimed();
    asked.push(ask(entry, claimed, text.to_vec()));
    asked.push(ask(entry, claimed.map(|rows| rows + 2), text.to_vec()));
    for table in 0..4 {
        if claimed[table] > 0 {
            let mut fewer = claimed;
            fewer[table] -= 1;
            asked.push(ask(entry, fewer, text.to_vec()));
        }
    }
}

/// Texts by the grammar, whole and damaged, until there are enough of each number.
fn by_chance(asked: &mut Vec<Asked>) {
    let mut random = Random::new(7);
    let mut wanted = WANTED;
    let mut seen = HashSet::new();
    while wanted.iter().any(|count| *count > 0) {
        let entry = random.one(&ENTRIES);
        let slips = random.one(&[0, 0, 5, 30]);
        let mut text = generate::text(&mut random, entry, slips);
        if random.chance(400) {
            damage::damage(&mut random, &mut text);
        }
        if random.chance(50) {
            text.extend_from_slice(random.one(&damage::BAD_SEQUENCES));
        }
        if text.len() > SHORT || text.len() < 12 && random.chance(900) || !seen.insert(text.clone()) {
            continue;
        }
        let capacities = some_capacities(&mut random, model::read(entry, &text).claimed());
        let one = ask(entry, capacities, text);
        if wanted[one.answer.number as usize] > 0 {
            wanted[one.answer.number as usize] -= 1;
            asked.push(one);
        }
    }
}

/// Capacities about what is claimed: exactly that, more, or too few of one table or of all.
fn some_capacities(random: &mut Random, claimed: Rows) -> Rows {
    match random.below(5) {
        0 => claimed,
        1 => claimed.map(|rows| rows + random.below(4) as u64),
        2 => claimed.map(|rows| random.below(rows as usize + 2) as u64),
        _ => {
            let table = random.below(4);
            let mut fewer = claimed;
            fewer[table] = random.below(claimed[table] as usize + 1) as u64;
            fewer
        }
    }
}

/// How many questions of a sample the crate answers otherwise, where rows are not what decides.
pub fn differences(asked: &[Asked]) -> usize {
    let differs = |one: &&Asked| one.answer.number != NO_ROW && oracle::read(one.entry, &one.text).answer != one.answer;
    asked.iter().filter(differs).count()
}

#[cfg(test)]
mod tests {
    use super::*;

    #[test]
    fn the_sample_covers_every_number_and_is_small() {
        let asked = sample();
        assert!(asked.len() >= 2000);
        for number in 0..NUMBERS as u64 {
            assert!(asked.iter().any(|one| one.answer.number == number), "no answer {}", number);
        }
        for entry in ENTRIES {
            assert!(asked.iter().filter(|one| one.entry == entry).count() > 300);
        }
        let prints = sample_prints::sample();
        let bytes = asked.iter().map(|one| question(one).len()).sum::<usize>();
        let of_prints = prints.iter().map(|line| line.question.len()).sum::<usize>();
        assert!(bytes + of_prints <= 524_288, "{} and {} bytes", bytes, of_prints);
        assert_eq!(differences(&asked), 0);
    }
}
