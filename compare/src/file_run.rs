//! Compares the library with the model on many damaged files: what a load of each comes to, in memory that is enough, too small by
//! one, and larger; and stores of damaged tables.
use crate::answer::*;
use crate::judge::Case;
use crate::memory::{Memory, CASE};
use crate::our_stores::{too_small, wrong_load, wrong_store, StoreCalls};
use crate::random::Random;
use crate::stored::{file_of, load, Room, TRAILER};
use crate::tables::Tables;
use crate::{file_damage, generate, model, settled, table_damage, table_limits};
use std::sync::atomic::Ordering;

/// How many differences are shown.
const SHOWN: u64 = 20;

/// Files of texts of more bytes than this are not changed word by word.
const SMALL_TEXT: usize = 60;

/// How many files are made of that of one text by chance.
const BY_CHANCE: usize = 200;

/// How many numbers a load answers, from 0 on.
const NUMBERS: usize = 16;

/// What has been compared so far.
pub struct Tally<'m> {
    calls: Option<StoreCalls>,
    memory: &'m mut Memory,
    random: Random,
    /// What is lent: for the file at hand as it was before it was damaged.
    room: Room,
    pub files: u64,
    pub stores: u64,
    pub by_number: [u64; NUMBERS],
    pub differences: u64,
}

/// Compares at least so many damaged files, where calls are linked; else the model answers alone.
pub fn run<'m>(files: u64, seed: u64, calls: Option<StoreCalls>, memory: &'m mut Memory) -> Tally<'m> {
    let room = Room { letters: 0, words: [0; 4] };
    let mut tally = Tally {
        calls,
        memory,
        random: Random::new(seed),
        room,
        files: 0,
        stores: 0,
        by_number: [0; NUMBERS],
        differences: 0,
    };
    tally.settled();
    table_limits::at_the_limits(&mut |tables| tally.limit(tables));
    for (entry, text, _, _) in settled::EXAMPLES.iter().chain(&settled::TRAPS) {
        tally.text(*entry, text.as_bytes());
    }
    while tally.files < files {
        let entry = tally.random.one(&ENTRIES);
        let text = generate::text(&mut tally.random, entry, 0);
        tally.text(entry, &text);
    }
    tally
}

impl Tally<'_> {
    /// Files of a trailer alone, and bytes that are none.
    fn settled(&mut self) {
        self.room = Room { letters: 3, words: [9, 10, 7, 11] };
        for bytes in 0..=TRAILER + 2 {
            for byte in [0, 1, 0xFF] {
                self.compare(&vec![byte; bytes]);
            }
        }
        for letters in [&b""[..], b"A", b"%a\xFF"] {
            let file = file_of(&Tables { text: letters.to_vec(), words: Default::default(), counts: [0; 4] });
            self.compare(&file);
            self.damaged(&file, letters.len());
        }
    }

    /// Tables and texts about the longest that are well formed, and a file for each.
    fn limit(&mut self, tables: &Tables) {
        let file = file_of(tables);
        self.room = Room::of(tables);
        self.compare(&file);
        self.store(tables, file.len());
    }

    /// Damages the file of a text, where it is accepted, and its tables.
    fn text(&mut self, entry: Entry, text: &[u8]) {
        let reading = model::read(entry, text);
        if reading.end.number != ACCEPTED {
            return;
        }
        let tables = Tables::of(text, &reading);
        let file = file_of(&tables);
        self.room = Room::of(&tables);
        self.compare(&file);
        if text.len() <= SMALL_TEXT {
            self.damaged(&file, text.len());
            table_damage::one_change(&tables, &mut |changed| self.store(changed, file.len()));
        }
        for _ in 0..BY_CHANCE {
            let mut changed = file.clone();
            for _ in 0..self.random.one(&[1, 1, 2, 3]) {
                file_damage::damage(&mut self.random, &mut changed);
            }
            self.compare(&changed);
        }
    }

    fn damaged(&mut self, file: &[u8], letters: usize) {
        file_damage::one_change(file, letters, &mut |changed| self.compare(changed));
    }

    /// Holds a load to the model, with as much room as the file had, at times one less or more.
    fn compare(&mut self, file: &[u8]) {
        self.files += 1;
        CASE.store(self.files, Ordering::Relaxed);
        self.memory.turn();
        let mut room = self.room;
        match self.random.below(8) {
            0 => room = self.random.one(&[&too_small(room)[..], &[room]].concat()),
            1 => room = room.with(3),
            2 => room = room.with(100),
            _ => {}
        }
        self.by_number[load(file, room).map_or_else(|number| number, |_| ACCEPTED) as usize] += 1;
        let Some(calls) = self.calls else { return };
        let fault = wrong_load(calls, file, self.memory, room);
        self.tell(fault);
    }

    /// Holds a store of tables to the model, into an output of so many bytes, at times one less or more.
    fn store(&mut self, tables: &Tables, bytes: usize) {
        self.stores += 1;
        let Some(calls) = self.calls else { return };
        self.memory.turn();
        let bytes = self.random.one(&[bytes, bytes, bytes - 1, bytes + 1, 0]);
        let case = Case::of(tables);
        case.lend(self.memory);
        let fault = wrong_store(calls, &case, self.memory, bytes);
        self.tell(fault);
    }

    fn tell(&mut self, fault: Option<String>) {
        let Some(fault) = fault else { return };
        self.differences += 1;
        if self.differences <= SHOWN {
            println!("{}", fault);
        }
    }
}
