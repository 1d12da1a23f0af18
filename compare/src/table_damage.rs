//! Tables damaged: each word, count, length and byte of the text in turn; and by chance in ways that keep more in order, so
//! that every clause of well-formedness is the one that decides, or none is.
use crate::answer::*;
use crate::random::Random;
use crate::rows::*;
use crate::tables::Tables;

/// Gives tables with one change each: every word at the edges of what it may be, every count, length and letter.
pub fn one_change(tables: &Tables, give: &mut impl FnMut(&Tables)) {
    let mut changed = tables.clone();
    for table in 0..4 {
        words(tables, table, &mut changed, give);
        counts(tables, table, &mut changed, give);
        lengths(tables, table, &mut changed, give);
    }
    letters(tables, &mut changed, give);
}

fn words(tables: &Tables, table: usize, changed: &mut Tables, give: &mut impl FnMut(&Tables)) {
    for (word, &old) in tables.words[table].iter().enumerate() {
        for value in edges(tables, table, word) {
            changed.words[table][word] = value;
            give(changed);
        }
        changed.words[table][word] = old;
    }
}

/// What a word is changed to: the edges of fields, its neighbours, and counts.
pub fn edges(tables: &Tables, table: usize, word: usize) -> Vec<u32> {
    let old = tables.words[table][word];
    let mut edges = vec![0, 1, 2, 10, 65_535, 65_536, 65_537, 1 << 31, u32::MAX, tables.text.len() as u32];
    edges.extend([old.wrapping_sub(1), old.wrapping_add(1), old ^ 0x8000_0000, old.wrapping_add(65_536)]);
    edges.extend(tables.counts.map(|count| count as u32));
    edges.sort_unstable();
    edges.dedup();
    edges.retain(|value| *value != old);
    edges
}

fn counts(tables: &Tables, table: usize, changed: &mut Tables, give: &mut impl FnMut(&Tables)) {
    let old = tables.counts[table];
    let edges = [0, 1, old.wrapping_sub(1), old + 1, old + 2, 65_535, 65_536, 65_537, 1 << 31, 1 << 32, old | 1 << 32];
    let large = [old | 1 << 63, u64::MAX / 44, u64::MAX / 4, u64::MAX - 1, u64::MAX];
    for count in edges.into_iter().chain(large).filter(|count| *count != old) {
        changed.counts[table] = count;
        give(changed);
    }
    changed.counts[table] = old;
}

/// A table with fewer words or more; the words that come in are 0, but for the last.
fn lengths(tables: &Tables, table: usize, changed: &mut Tables, give: &mut impl FnMut(&Tables)) {
    let (old, row) = (tables.words[table].len(), ROW_WORDS[table]);
    for length in [0, 1, old.saturating_sub(row), old.saturating_sub(1), old + 1, old + row - 1, old + row] {
        for last in [0, 1, u32::MAX] {
            changed.words[table].resize(length, 0);
            if length > old {
                changed.words[table][length - 1] = last;
            }
            give(changed);
            changed.words[table].clone_from(&tables.words[table]);
        }
    }
}

/// A text that is cut short, longer, or another at one byte.
fn letters(tables: &Tables, changed: &mut Tables, give: &mut impl FnMut(&Tables)) {
    for at in 0..tables.text.len() {
        for letter in [0, b'%', b' ', b'a', b'0', b'x', b'2', b'.', b'[', 0x80, 0xFF] {
            changed.text[at] = letter;
            give(changed);
        }
        changed.text[at] = tables.text[at];
    }
    for length in (0..tables.text.len()).chain([tables.text.len() + 1]) {
        changed.text.resize(length, b'a');
        give(changed);
        changed.text.clone_from(&tables.text);
    }
}

/// Damages tables in one place, by chance. Tables of no rows stay as they are.
pub fn damage(random: &mut Random, tables: &mut Tables) {
    let mut damage = Damage::of(random, tables);
    match damage.random.below(20) {
        0 => damage.any_word(),
        1 | 2 => damage.word_of_another_row(),
        3 => damage.rows_swapped(),
        4 | 5 => damage.code(),
        6 | 7 => damage.boundary(),
        8 | 9 => damage.reference(),
        10 => damage.name(),
        11 => damage.kind(),
        12 => damage.middle(),
        13 => damage.width(),
        14 | 15 => damage.attribute(),
        16 => damage.block(),
        17 => damage.last_item(),
        18 => damage.constant(),
        _ => damage.letter(),
    }
}

/// One name becomes another part of the text.
pub fn rename(random: &mut Random, tables: &mut Tables) {
    Damage::of(random, tables).name()
}

struct Damage<'a> {
    random: &'a mut Random,
    tables: &'a mut Tables,
    /// How many rows of each table are there and counted.
    rows: [usize; 4],
}

impl<'a> Damage<'a> {
    fn of(random: &'a mut Random, tables: &'a mut Tables) -> Self {
        let rows = std::array::from_fn(|table| {
            (tables.counts[table] as usize).min(tables.words[table].len() / ROW_WORDS[table])
        });
        Damage { random, tables, rows }
    }

    fn row(&mut self, table: usize) -> Option<usize> {
        (self.rows[table] > 0).then(|| self.random.below(self.rows[table]))
    }

    fn word(&mut self, table: usize, row: usize, field: usize) -> &mut u32 {
        &mut self.tables.words[table][row * ROW_WORDS[table] + field]
    }

    /// A number up to one past a bound.
    fn up_to(&mut self, bound: usize) -> u32 {
        self.random.below(bound + 2) as u32
    }

    fn any_word(&mut self) {
        let table = self.random.below(4);
        let length = self.tables.words[table].len();
        if length > 0 {
            let word = self.random.below(length);
            self.tables.words[table][word] = self.random.bits() as u32;
        }
    }

    /// A word becomes what it is in another row, or one more or less.
    fn word_of_another_row(&mut self) {
        let table = self.random.below(4);
        let (Some(row), Some(other)) = (self.row(table), self.row(table)) else { return };
        let field = self.random.below(ROW_WORDS[table]);
        let near = self.random.below(3) as u32;
        *self.word(table, row, field) = self.word(table, other, field).wrapping_add(near).wrapping_sub(1);
    }

    fn rows_swapped(&mut self) {
        let table = self.random.below(4);
        let (Some(row), Some(other)) = (self.row(table), self.row(table)) else { return };
        let from = self.random.below(ROW_WORDS[table]);
        for field in from..ROW_WORDS[table] {
            let word = *self.word(table, row, field);
            *self.word(table, row, field) = std::mem::replace(self.word(table, other, field), word);
        }
    }

    fn code(&mut self) {
        let Some(row) = self.row(STATEMENTS) else { return };
        *self.word(STATEMENTS, row, 0) = match self.random.below(3) {
            0 => self.up_to(LAST_ASSIGNMENT as usize + 3),
            _ => self.random.one(&[1, 2, 21, 29, 30, 31, 33, 39, 40, 46, 57, 58, 59, 60, 61, 62, 63, 64, 65, 66]),
        };
    }

    /// The end of a statement's operands or attributes, and the beginning of the next one's, move together.
    fn boundary(&mut self) {
        let Some(row) = self.row(STATEMENTS) else { return };
        let field = self.random.one(&[7, 9]);
        let old = *self.word(STATEMENTS, row, field);
        let new = self.random.one(&[old.wrapping_sub(1), old.wrapping_add(1)]);
        *self.word(STATEMENTS, row, field) = new;
        if row + 1 < self.rows[STATEMENTS] {
            let next = self.word(STATEMENTS, row + 1, field - 1);
            *next = if *next == old { new } else { *next };
        }
        if let Some(item) = self.row(ITEMS) {
            let closing = self.word(ITEMS, item, field - 2);
            *closing = if *closing == old { new } else { *closing };
        }
    }

    fn reference(&mut self) {
        if self.random.chance(100) {
            let Some(row) = self.row(ITEMS) else { return };
            *self.word(ITEMS, row, 4) = self.up_to(self.rows[STATEMENTS]);
        }
        let Some(row) = self.row(OPERANDS) else { return };
        *self.word(OPERANDS, row, 1) = self.up_to(self.rows[STATEMENTS]);
    }

    /// A name becomes another part of the text: one behind a `%` that stands there, longer or shorter by a letter or not.
    fn name(&mut self) {
        let Some(row) = self.row(STATEMENTS) else { return };
        let Some(first) = self.some_byte(b"%") else { return };
        let behind = &self.tables.text[first as usize + 1..];
        let length = 1 + behind.iter().take_while(|byte| crate::lexer::is_name_byte(**byte)).count() as u32;
        *self.word(STATEMENTS, row, 1) = first;
        *self.word(STATEMENTS, row, 2) = first + length + self.random.one(&[0, 0, 0, 1, u32::MAX]);
    }

    /// The place of one of the text's bytes that are among some.
    fn some_byte(&mut self, among: &[u8]) -> Option<u32> {
        let places: Vec<usize> =
            (0..self.tables.text.len()).filter(|at| among.contains(&self.tables.text[*at])).collect();
        (!places.is_empty()).then(|| self.random.one(&places) as u32)
    }

    fn kind(&mut self) {
        let Some(row) = self.row(ITEMS) else { return };
        *self.word(ITEMS, row, 0) = self.random.below(6) as u32;
        if self.random.chance(500) {
            *self.word(ITEMS, row, 3) = *self.word(ITEMS, row, 2);
        }
        if self.random.chance(300) {
            *self.word(ITEMS, row, 4) = 0;
        }
    }

    fn middle(&mut self) {
        let Some(row) = self.row(ITEMS) else { return };
        *self.word(ITEMS, row, 3) = self.up_to(self.rows[STATEMENTS]);
    }

    fn width(&mut self) {
        let (table, field) = self.random.one(&[(STATEMENTS, 3), (OPERANDS, 2)]);
        let Some(row) = self.row(table) else { return };
        *self.word(table, row, field) = self.random.one(&[0, 1, 32, 65_535, 65_536, 65_537, u32::MAX]);
    }

    fn attribute(&mut self) {
        let Some(row) = self.row(ATTRIBUTES) else { return };
        if self.random.chance(500) {
            *self.word(ATTRIBUTES, row, 0) = self.random.below(12) as u32;
        }
        let (first, past) = match self.some_byte(b"01x") {
            Some(first) if self.random.chance(600) => (first, first + self.random.below(4) as u32),
            _ => (0, 0),
        };
        *self.word(ATTRIBUTES, row, 1) = first;
        *self.word(ATTRIBUTES, row, 2) = past;
        if self.random.chance(300) {
            let field = 3 + self.random.below(8);
            *self.word(ATTRIBUTES, row, field) = self.random.one(&[0, 1, 255, 256, 1 << 31, u32::MAX]);
        }
        if self.random.chance(300) {
            (3..11).for_each(|field| *self.word(ATTRIBUTES, row, field) = 0);
        }
    }

    /// A block's number, or what a phi or a blockpc takes for its block.
    fn block(&mut self) {
        let Some(row) = self.row(STATEMENTS) else { return };
        let field = self.random.one(&[4, 5]);
        *self.word(STATEMENTS, row, field) = match self.random.below(3) {
            0 => self.random.one(&[u32::MAX, 1 << 31, 65_536]),
            _ => self.up_to(self.rows[STATEMENTS].min(6)),
        };
    }

    /// The last item goes, with all its rows or all but one.
    fn last_item(&mut self) {
        let items = self.rows[ITEMS];
        if items == 0 {
            return;
        }
        let item = self.tables.item(items - 1);
        let first = item.statements.first as usize;
        let (operands, attributes) = match first < self.rows[STATEMENTS] && first < item.statements.past as usize {
            true => (self.tables.statement(first).operands.first, self.tables.statement(first).attributes.first),
            false => (item.operands.first, item.attributes.first),
        };
        let kept = [items as u32 - 1, item.statements.first, operands, attributes];
        let spared = self.random.below(8);
        for table in (0..4).filter(|table| *table != spared) {
            if kept[table] as usize <= self.rows[table] {
                self.tables.counts[table] = kept[table] as u64;
                self.tables.words[table][kept[table] as usize * ROW_WORDS[table]..].fill(0);
            }
        }
    }

    /// An operand becomes a constant, or a constant's bits others.
    fn constant(&mut self) {
        let Some(row) = self.row(OPERANDS) else { return };
        let bits = self.random.one(&[0, 1, u128::MAX, 1 << 127, (1 << 127) - 1, 1 << 64, 10u128.pow(38), 1 << 32]);
        let of = self.random.one(&[0, 0, 0, 1]);
        let words = OperandRow { code: CONSTANT, row: of, width: self.random.one(&[0, 8]), bits }.words();
        (0..7).for_each(|field| *self.word(OPERANDS, row, field) = words[field]);
    }

    fn letter(&mut self) {
        if !self.tables.text.is_empty() {
            let at = self.random.below(self.tables.text.len());
            self.tables.text[at] = self.random.one(b"%a01x ._-2\xFF");
        }
    }
}
