//! The words that every part shares: the three entry points, the four tables, and what a reading answers.

/// The longest text that is read, in bytes.
pub const LONGEST: usize = 65_536;

/// The four tables, in the order in which they are lent.
pub const ITEMS: usize = 0;
pub const STATEMENTS: usize = 1;
pub const OPERANDS: usize = 2;
pub const ATTRIBUTES: usize = 3;

/// The words of a row of each table. docs/LAYOUT.md decides them.
pub const ROW_WORDS: [usize; 4] = [9, 10, 7, 11];

/// A number of rows for each table: capacities, or counts.
pub type Rows = [u64; 4];

/// Rows enough for any text.
pub const ENOUGH: Rows = [LONGEST as u64; 4];

/// The refusals of a reading, by their numbers.
pub const ACCEPTED: u64 = 0;
pub const TOO_LONG: u64 = 1;
pub const NOT_UTF8: u64 = 2;
pub const LEXER: u64 = 3;
pub const WRONG_TOKEN: u64 = 4;
pub const BAD_INTEGER: u64 = 5;
pub const BAD_NAME: u64 = 6;
pub const NO_ROW: u64 = 7;

/// And those of a print.
pub const NOT_WELL_FORMED: u64 = 8;
pub const WORK_TOO_SHORT: u64 = 9;
pub const OUTPUT_TOO_SHORT: u64 = 10;

/// How many different numbers a reading answers.
pub const NUMBERS: usize = 8;

/// Which list a text is read as.
#[derive(Clone, Copy, Debug, PartialEq, Eq)]
pub enum Entry {
    Replacements,
    LeftHandSides,
    RightHandSides,
}

pub const ENTRIES: [Entry; 3] = [Entry::Replacements, Entry::LeftHandSides, Entry::RightHandSides];

impl Entry {
    /// The settled examples' letter for this entry point.
    pub fn letter(self) -> char {
        match self {
            Entry::Replacements => 'R',
            Entry::LeftHandSides => 'L',
            Entry::RightHandSides => 'T',
        }
    }
}

/// What a reading answers: after a refusal all counts are 0, after acceptance the place is.
#[derive(Clone, Copy, Debug, PartialEq, Eq)]
pub struct Answer {
    pub number: u64,
    pub place: u64,
    pub counts: Rows,
}

impl Answer {
    pub fn accepted(counts: Rows) -> Self {
        Answer { number: ACCEPTED, place: 0, counts }
    }

    pub fn refused(number: u64, place: usize) -> Self {
        Answer { number, place: place as u64, counts: [0; 4] }
    }
}
