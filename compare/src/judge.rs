//! Holds a print and a name of tables, as a library's calls give them, to what the model says of those tables: the report,
//! every word of the work area, every byte of the output, and that nothing else is changed.
use crate::answer::*;
use crate::library::{self, Report};
use crate::memory::{Memory, RUBBISH, RUBBISH_BYTE};
use crate::printing;
use crate::rows::LAST_ASSIGNMENT;
use crate::tables::Tables;
use crate::wellformed::well_formed;

/// The two calls that take tables: a text, four tables, their counts; then a work area and an output, or a row.
pub type Print = fn(&[u8], [&[u32]; 4], Rows, &mut [u32], &mut [u8]) -> Report;
pub type Name = fn(&[u8], [&[u32]; 4], Rows, u64) -> Report;

#[derive(Clone, Copy)]
pub struct Calls {
    pub print: Print,
    pub name: Name,
}

/// The proved library's.
pub const LIBRARY: Calls = Calls { print: library::print, name: library::name };

/// Tables, and their print by the model; none where they are not well formed.
pub struct Case<'t> {
    pub tables: &'t Tables,
    pub print: Option<Vec<u8>>,
}

/// What a print has to report, and to write.
pub struct Expected<'c> {
    pub report: Report,
    pub written: &'c [u8],
}

impl<'t> Case<'t> {
    pub fn of(tables: &'t Tables) -> Self {
        Case { tables, print: well_formed(tables).then(|| printing::print(&tables.items())) }
    }

    /// The words and bytes that a print needs; none where the tables are not well formed.
    pub fn needed(&self) -> (usize, usize) {
        self.print.as_ref().map_or((0, 0), |print| (self.tables.work_words(), print.len()))
    }

    /// What a print with so much room has to report and to write.
    pub fn expected(&self, work_words: usize, output_bytes: usize) -> Expected<'_> {
        let (words, bytes) = self.needed();
        let refused = |number, needed| Expected { report: [number, needed as u64, 0, 0, 0, 0], written: b"" };
        match &self.print {
            None => refused(NOT_WELL_FORMED, 0),
            Some(_) if work_words < words => refused(WORK_TOO_SHORT, words),
            Some(_) if output_bytes < bytes => refused(OUTPUT_TOO_SHORT, bytes),
            Some(print) => Expected { report: [ACCEPTED, bytes as u64, 0, 0, 0, 0], written: print },
        }
    }

    /// The report of the name of a row.
    pub fn name(&self, row: u64) -> Report {
        if self.print.is_none() || row >= self.tables.counts[STATEMENTS] {
            return [0; 6];
        }
        let statement = self.tables.statement(row as usize);
        match statement.code {
            1..=LAST_ASSIGNMENT => [0, statement.name.first as u64, statement.name.long() as u64, 0, 0, 0],
            _ => [0; 6],
        }
    }

    /// Copies the text and the tables into lent memory, where the calls find them.
    pub fn lend(&self, memory: &mut Memory) {
        let edge = memory.edge;
        memory.text.bytes(self.tables.text.len(), edge).copy_from_slice(&self.tables.text);
        for (lent, words) in memory.tables.iter_mut().zip(&self.tables.words) {
            lent.words(words.len(), edge).copy_from_slice(words);
        }
    }

    /// What is wrong with a print of the lent tables, with so much room.
    pub fn wrong_print(&self, calls: Calls, memory: &mut Memory, words: usize, bytes: usize) -> Option<String> {
        let expected = self.expected(words, bytes);
        let edge = memory.edge;
        let Memory { text, tables, work, output, .. } = memory;
        let (area, room) = (work.words(words, edge), output.bytes(bytes, edge));
        area.fill(RUBBISH);
        room.fill(RUBBISH_BYTE);
        let lent = std::array::from_fn(|table| tables[table].read_words(self.tables.words[table].len(), edge));
        let text = text.read_bytes(self.tables.text.len(), edge);
        let report = (calls.print)(text, lent, self.tables.counts, area, room);
        let left = if matches!(expected.report[0], NOT_WELL_FORMED | WORK_TOO_SHORT) { RUBBISH } else { 0 };
        let fault = if report != expected.report {
            format!("report {:?}, expected {:?}", report, expected.report)
        } else if !room.starts_with(expected.written) {
            let ours = String::from_utf8_lossy(&room[..expected.written.len()]).into_owned();
            format!("prints {:?}, expected {:?}", ours, String::from_utf8_lossy(expected.written))
        } else if room[expected.written.len()..].iter().any(|byte| *byte != RUBBISH_BYTE) {
            "output changed past what is written".to_string()
        } else if area.iter().any(|word| *word != left) {
            format!("a word of the work area is not {}", left)
        } else if !work.is_whole(words * 4, edge) || !output.is_whole(bytes, edge) {
            "written beside the work area or the output".to_string()
        } else {
            return self.changed(memory);
        };
        Some(format!("print with {} words and {} bytes: {}", words, bytes, fault))
    }

    /// What is wrong with the name of a row.
    pub fn wrong_name(&self, calls: Calls, memory: &mut Memory, row: u64) -> Option<String> {
        let expected = self.name(row);
        let Memory { text, tables, edge, .. } = &*memory;
        let lent = std::array::from_fn(|table| tables[table].read_words(self.tables.words[table].len(), *edge));
        let text = text.read_bytes(self.tables.text.len(), *edge);
        let report = (calls.name)(text, lent, self.tables.counts, row);
        if report != expected {
            return Some(format!("name of row {}: report {:?}, expected {:?}", row, report, expected));
        }
        self.changed(memory)
    }

    /// What has changed that a call may only read, or that is not lent.
    pub fn changed(&self, memory: &Memory) -> Option<String> {
        let Memory { text, tables, edge, .. } = memory;
        let bytes = self.tables.text.len();
        if text.read_bytes(bytes, *edge) != self.tables.text || !text.is_whole(bytes, *edge) {
            return Some("the text is changed".to_string());
        }
        for (table, words) in self.tables.words.iter().enumerate() {
            let lent = &tables[table];
            if lent.read_words(words.len(), *edge) != words || !lent.is_whole(words.len() * 4, *edge) {
                return Some(format!("table {} is changed", table));
            }
        }
        None
    }
}
