//! Compares the library with the model on many damaged tables: which of them are well formed, and the prints of those.
use crate::answer::*;
use crate::judge::{Calls, Case};
use crate::memory::{Memory, CASE};
use crate::random::Random;
use crate::tables::Tables;
use crate::{generate, model, settled, table_damage, table_limits};
use std::sync::atomic::Ordering;

/// How many differences are shown.
const SHOWN: u64 = 20;

/// Tables of texts of more bytes than this are not changed word by word.
const SMALL_TEXT: usize = 120;

/// How many tables are made of those of one text by chance.
const BY_CHANCE: usize = 400;

/// What has been compared so far.
pub struct Tally<'m> {
    calls: Option<Calls>,
    memory: &'m mut Memory,
    random: Random,
    /// What a print of the tables of the text at hand needs.
    room: (usize, usize),
    pub tables: u64,
    pub well_formed: u64,
    pub differences: u64,
}

/// Compares at least so many damaged tables, where calls are linked; else the model answers alone.
pub fn run<'m>(tables: u64, seed: u64, calls: Option<Calls>, memory: &'m mut Memory) -> Tally<'m> {
    let random = Random::new(seed);
    let mut tally = Tally { calls, memory, random, room: (0, 0), tables: 0, well_formed: 0, differences: 0 };
    table_limits::at_the_limits(&mut |tables| tally.compare(tables));
    tally.settled(tables);
    while tally.tables < tables {
        tally.text_of_chance();
    }
    tally
}

impl Tally<'_> {
    /// The tables of the settled examples, as far as they are accepted.
    fn settled(&mut self, tables: u64) {
        let whole = (Entry::Replacements, settled::WHOLE, 0, 0);
        for (entry, text, _, _) in settled::EXAMPLES.iter().chain(&settled::TRAPS).chain([&whole]) {
            if self.tables < tables {
                self.text(*entry, text.as_bytes());
            }
        }
    }

    /// A text by the grammar; one in a thousand is long, and one in a hundred has many names.
    fn text_of_chance(&mut self) {
        if self.random.chance(10) {
            return self.many_names();
        }
        if self.random.chance(1) {
            let bytes = self.random.one(&[2_000, 20_000, LONGEST]);
            let statements = if self.random.chance(500) { 3..31 } else { 1_000..5_000 };
            let text = generate::long_text(&mut self.random, bytes, statements);
            return self.text(Entry::Replacements, &text);
        }
        let entry = self.random.one(&ENTRIES);
        let text = generate::text(&mut self.random, entry, 0);
        self.text(entry, &text);
    }

    /// Changes names of one item, of about as many statements as from which the library tests names through marks, or more.
    fn many_names(&mut self) {
        let statements = self.random.one(&[62, 63, 64, 65, 100, 300]);
        let text = generate::one_item(&mut self.random, LONGEST, statements);
        let tables = Tables::of(&text, &model::read(Entry::Replacements, &text));
        self.room = Case::of(&tables).needed();
        self.compare(&tables);
        for _ in 0..BY_CHANCE / 10 {
            let mut changed = tables.clone();
            for _ in 0..self.random.one(&[1, 1, 2]) {
                table_damage::rename(&mut self.random, &mut changed);
            }
            self.compare(&changed);
        }
    }

    /// Damages the tables of a text, where it is accepted.
    fn text(&mut self, entry: Entry, text: &[u8]) {
        let reading = model::read(entry, text);
        if reading.end.number != ACCEPTED {
            return;
        }
        let (rows, more) = (self.random.below(2), self.random.below(12));
        let tables = Tables::of(text, &reading).with_room(rows, more);
        self.room = Case::of(&tables).needed();
        self.compare(&tables);
        if text.len() <= SMALL_TEXT {
            table_damage::one_change(&tables, &mut |changed| self.compare(changed));
        }
        let by_chance = if text.len() > 1_000 { BY_CHANCE / 20 } else { BY_CHANCE };
        for _ in 0..by_chance {
            let mut changed = tables.clone();
            for _ in 0..self.random.one(&[1, 1, 2, 2, 3, 5]) {
                table_damage::damage(&mut self.random, &mut changed);
            }
            self.compare(&changed);
        }
    }

    fn compare(&mut self, tables: &Tables) {
        self.tables += 1;
        CASE.store(self.tables, Ordering::Relaxed);
        self.memory.turn();
        let case = Case::of(tables);
        self.well_formed += case.print.is_some() as u64;
        let Some(calls) = self.calls else { return };
        case.lend(self.memory);
        let (words, bytes) = self.some_room(&case);
        let rows = tables.counts[STATEMENTS].min(1 << 20) as usize;
        let row = if self.random.chance(50) { u64::MAX } else { self.random.below(rows + 2) as u64 };
        let fault =
            case.wrong_print(calls, self.memory, words, bytes).or_else(|| case.wrong_name(calls, self.memory, row));
        if let Some(fault) = fault {
            self.differences += 1;
            if self.differences <= SHOWN {
                println!("{}\n{}", fault, shown(tables));
            }
        }
    }

    /// Room for a print: mostly what it needs, at times less or more.
    fn some_room(&mut self, case: &Case) -> (usize, usize) {
        let (words, bytes) = if case.print.is_some() { case.needed() } else { self.room };
        match self.random.below(12) {
            0 => (words.saturating_sub(1), bytes),
            1 => (words, bytes.saturating_sub(1)),
            2 => (self.random.below(words + 2), self.random.below(bytes + 2)),
            3 => (words + 3, bytes + 5),
            _ => (words, bytes),
        }
    }
}

/// A text and its tables, row by row.
fn shown(tables: &Tables) -> String {
    let mut shown = format!("    text {:?}, counts {:?}\n", String::from_utf8_lossy(&tables.text), tables.counts);
    for (table, words) in tables.words.iter().enumerate() {
        for row in words.chunks(ROW_WORDS[table]) {
            shown += &format!("    table {}: {:?}\n", table, row);
        }
    }
    shown
}
