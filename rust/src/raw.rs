//! The library's calls over memory that the caller lends: nothing is allocated, and nothing is kept between calls.
//!
//! docs/LAYOUT.md of the repository says what each word of a row means, include/peldarox.h what each call answers and leaves.
//!
//! ```
//! use peldarox::raw::{self, Entry, TablesMut};
//!
//! let text = b"%a = var\ninfer %a\n";
//! let (mut items, mut statements, mut operands, mut attributes) = ([0; 9], [0; 10], [0; 0], [0; 0]);
//! let mut tables = TablesMut {
//!     items: &mut items,
//!     statements: &mut statements,
//!     operands: &mut operands,
//!     attributes: &mut attributes,
//! };
//! let counts = raw::read(Entry::LeftHandSides, text, &mut tables)?;
//! assert_eq!((counts.items, counts.statements, counts.operands, counts.attributes), (1, 1, 0, 0));
//! assert_eq!(raw::name(text, tables.shared(), counts, 0), b"%a");
//!
//! let (mut work, mut output) = ([0; 4], [0; 32]);
//! let bytes = raw::print(text, tables.shared(), counts, &mut work, &mut output)?;
//! assert_eq!(&output[..bytes], text);
//!
//! let (mut file, mut loaded) = ([0; 138], [0; 18]);
//! assert_eq!(raw::store(text, tables.shared(), counts, &mut file), Ok(138));
//! assert_eq!(raw::load(&file, &mut loaded, &mut tables), Ok((18, counts)));
//! assert_eq!(&loaded, text);
//! # Ok::<(), peldarox::Refusal>(())
//! ```
use crate::lexing::Lexed;
use crate::refusal::Refusal;

/// The longest text that is read, in bytes; also the most rows that a table gets.
pub const MOST_BYTES: usize = 65_536;

/// How many words a row of items has.
pub const ITEM_WORDS: usize = 9;

/// How many words a row of statements has.
pub const STATEMENT_WORDS: usize = 10;

/// How many words a row of operands has.
pub const OPERAND_WORDS: usize = 7;

/// How many words a row of attributes has.
pub const ATTRIBUTE_WORDS: usize = 11;

/// How many words the state of the lexer has.
pub const LEXER_WORDS: usize = 14;

/// The longest token that is carried from part to part, in bytes; a longer one is refused.
pub const LONGEST_TOKEN: usize = 4_096;

/// How many bytes the trailer of a stored file has.
pub const TRAILER_BYTES: usize = 44;

/// What a text is a list of.
#[derive(Clone, Copy, Debug, PartialEq, Eq, Hash)]
pub enum Entry {
    /// Statements, then `infer` and `result`, or `cand`.
    Replacements,
    /// Statements, then `infer`.
    LeftHandSides,
    /// Statements, then `result`.
    RightHandSides,
}

/// Four tables, lent to be written.
#[derive(Debug)]
pub struct TablesMut<'a> {
    /// Rows of [`ITEM_WORDS`].
    pub items: &'a mut [u32],
    /// Rows of [`STATEMENT_WORDS`].
    pub statements: &'a mut [u32],
    /// Rows of [`OPERAND_WORDS`].
    pub operands: &'a mut [u32],
    /// Rows of [`ATTRIBUTE_WORDS`].
    pub attributes: &'a mut [u32],
}

impl TablesMut<'_> {
    /// The same tables, to be looked at.
    pub fn shared(&self) -> Tables<'_> {
        Tables { items: self.items, statements: self.statements, operands: self.operands, attributes: self.attributes }
    }
}

/// Four tables, lent to be looked at.
#[derive(Clone, Copy, Debug)]
pub struct Tables<'a> {
    /// Rows of [`ITEM_WORDS`].
    pub items: &'a [u32],
    /// Rows of [`STATEMENT_WORDS`].
    pub statements: &'a [u32],
    /// Rows of [`OPERAND_WORDS`].
    pub operands: &'a [u32],
    /// Rows of [`ATTRIBUTE_WORDS`].
    pub attributes: &'a [u32],
}

/// How many rows of each table are in use.
#[derive(Clone, Copy, Debug, Default, PartialEq, Eq, Hash)]
pub struct Counts {
    /// Rows of items.
    pub items: u64,
    /// Rows of statements.
    pub statements: u64,
    /// Rows of operands.
    pub operands: u64,
    /// Rows of attributes.
    pub attributes: u64,
}

impl Counts {
    /// How many words of work area a print of so many rows needs.
    pub fn work_words(&self) -> u64 {
        self.statements.saturating_mul(3).saturating_add(self.operands).saturating_add(1)
    }

    /// How many bytes the file of a text of so many bytes with so many rows has.
    pub fn stored_bytes(&self, text_bytes: usize) -> u64 {
        let rows = [
            (self.items, ITEM_WORDS),
            (self.statements, STATEMENT_WORDS),
            (self.operands, OPERAND_WORDS),
            (self.attributes, ATTRIBUTE_WORDS),
        ];
        rows.iter().fold(text_bytes as u64 + TRAILER_BYTES as u64, |bytes, (count, words)| {
            bytes.saturating_add(count.saturating_mul(4 * *words as u64))
        })
    }
}

type Report = [u64; 6];

/// What the calls that lex report, and a store and a load.
type LongReport = [u64; 8];

#[rustfmt::skip]
type Reader = unsafe extern "C" fn(
    text: *const u8, text_bytes: usize, items: *mut u32, item_words: usize, statements: *mut u32, statement_words: usize,
    operands: *mut u32, operand_words: usize, attributes: *mut u32, attribute_words: usize, report: *mut Report,
);

#[rustfmt::skip]
extern "C" {
    fn peldarox_read_replacements(
        text: *const u8, text_bytes: usize, items: *mut u32, item_words: usize, statements: *mut u32, statement_words: usize,
        operands: *mut u32, operand_words: usize, attributes: *mut u32, attribute_words: usize, report: *mut Report,
    );
    fn peldarox_read_left_hand_sides(
        text: *const u8, text_bytes: usize, items: *mut u32, item_words: usize, statements: *mut u32, statement_words: usize,
        operands: *mut u32, operand_words: usize, attributes: *mut u32, attribute_words: usize, report: *mut Report,
    );
    fn peldarox_read_right_hand_sides(
        text: *const u8, text_bytes: usize, items: *mut u32, item_words: usize, statements: *mut u32, statement_words: usize,
        operands: *mut u32, operand_words: usize, attributes: *mut u32, attribute_words: usize, report: *mut Report,
    );
    fn peldarox_print(
        text: *const u8, text_bytes: usize, items: *const u32, item_words: usize, statements: *const u32,
        statement_words: usize, operands: *const u32, operand_words: usize, attributes: *const u32, attribute_words: usize,
        item_count: u64, statement_count: u64, operand_count: u64, attribute_count: u64, work: *mut u32, work_words: usize,
        output: *mut u8, output_bytes: usize, report: *mut Report,
    );
    fn peldarox_name(
        text: *const u8, text_bytes: usize, items: *const u32, item_words: usize, statements: *const u32,
        statement_words: usize, operands: *const u32, operand_words: usize, attributes: *const u32, attribute_words: usize,
        item_count: u64, statement_count: u64, operand_count: u64, attribute_count: u64, row: u64, report: *mut Report,
    );
    fn peldarox_lex_start(state: *mut u64, state_words: usize, report: *mut LongReport);
    fn peldarox_lex_part(
        state: *mut u64, state_words: usize, part: *const u8, part_bytes: usize, report: *mut LongReport,
    );
    fn peldarox_lex_end(state: *const u64, state_words: usize, report: *mut LongReport);
    fn peldarox_store(
        text: *const u8, text_bytes: usize, items: *const u32, item_words: usize, statements: *const u32,
        statement_words: usize, operands: *const u32, operand_words: usize, attributes: *const u32, attribute_words: usize,
        item_count: u64, statement_count: u64, operand_count: u64, attribute_count: u64, output: *mut u8, output_bytes: usize,
        report: *mut LongReport,
    );
    fn peldarox_load(
        file: *const u8, file_bytes: usize, text: *mut u8, text_bytes: usize, items: *mut u32, item_words: usize,
        statements: *mut u32, statement_words: usize, operands: *mut u32, operand_words: usize, attributes: *mut u32,
        attribute_words: usize, report: *mut LongReport,
    );
}

/// Reads a text into tables. A table has room for its words divided by its row length, rounded down. With a row of items for two
/// bytes of the text, of statements and attributes for three and of operands for each, refusal 7 never comes. Words behind the
/// counted rows are 0; after a refusal every word is 0.
#[rustfmt::skip]
pub fn read(entry: Entry, text: &[u8], tables: &mut TablesMut<'_>) -> Result<Counts, Refusal> {
    let reader: Reader = match entry {
        Entry::Replacements => peldarox_read_replacements,
        Entry::LeftHandSides => peldarox_read_left_hand_sides,
        Entry::RightHandSides => peldarox_read_right_hand_sides,
    };
    let TablesMut { items, statements, operands, attributes } = tables;
    let mut report = [0; 6];
    // SAFETY: each pointer is a slice's, so it is not null and aligned, and has as many elements as the count behind it says; what
    // is written is lent alone.
    unsafe {
        reader(
            text.as_ptr(), text.len(), items.as_mut_ptr(), items.len(), statements.as_mut_ptr(), statements.len(),
            operands.as_mut_ptr(), operands.len(), attributes.as_mut_ptr(), attributes.len(), &mut report,
        )
    }
    accepted(&report)?;
    Ok(Counts { items: report[2], statements: report[3], operands: report[4], attributes: report[5] })
}

/// Prints what tables and their text say, and answers how many bytes of the output it wrote. It needs [`Counts::work_words`] words
/// of work area, which it leaves 0. Refusal 10 says how many bytes the output needs, and 9 how many words the work area.
#[rustfmt::skip]
pub fn print(
    text: &[u8], tables: Tables<'_>, counts: Counts, work: &mut [u32], output: &mut [u8],
) -> Result<usize, Refusal> {
    let Tables { items, statements, operands, attributes } = tables;
    let mut report = [0; 6];
    // SAFETY: as for a read.
    unsafe {
        peldarox_print(
            text.as_ptr(), text.len(), items.as_ptr(), items.len(), statements.as_ptr(), statements.len(), operands.as_ptr(),
            operands.len(), attributes.as_ptr(), attributes.len(), counts.items, counts.statements, counts.operands,
            counts.attributes, work.as_mut_ptr(), work.len(), output.as_mut_ptr(), output.len(), &mut report,
        )
    }
    accepted(&report)?;
    Ok(report[1] as usize)
}

/// The name of a statement's row: a part of the text, with its `%`. It is empty where the row is past the count or no assignment,
/// or where the tables are not well formed.
#[rustfmt::skip]
pub fn name<'t>(text: &'t [u8], tables: Tables<'_>, counts: Counts, row: u64) -> &'t [u8] {
    let Tables { items, statements, operands, attributes } = tables;
    let mut report = [0; 6];
    // SAFETY: as for a read.
    unsafe {
        peldarox_name(
            text.as_ptr(), text.len(), items.as_ptr(), items.len(), statements.as_ptr(), statements.len(), operands.as_ptr(),
            operands.len(), attributes.as_ptr(), attributes.len(), counts.items, counts.statements, counts.operands,
            counts.attributes, row, &mut report,
        )
    }
    let (first, bytes) = (report[1] as usize, report[2] as usize);
    &text[first..first + bytes]
}

/// Starts to lex a text that arrives in parts: the first [`LEXER_WORDS`] words are the state, and those behind them stay.
/// Refusal 9 says how many words are needed.
///
/// ```
/// use peldarox::{raw, Lexed};
///
/// let mut state = [0; raw::LEXER_WORDS];
/// raw::lex_start(&mut state)?;
/// raw::lex_part(&mut state, b"%a = va")?;
/// raw::lex_part(&mut state, b"r")?;
/// assert_eq!(raw::lex_end(&state)?, Lexed { tokens: 3, refusal: None });
/// # Ok::<(), peldarox::Refusal>(())
/// ```
pub fn lex_start(state: &mut [u64]) -> Result<(), Refusal> {
    let mut report = [0; 8];
    // SAFETY: as for a read.
    unsafe { peldarox_lex_start(state.as_mut_ptr(), state.len(), &mut report) }
    room(report)
}

/// Lexes the next part of a text. Refusal 9 says how many words the state needs.
pub fn lex_part(state: &mut [u64], part: &[u8]) -> Result<(), Refusal> {
    let mut report = [0; 8];
    // SAFETY: as for a read.
    unsafe { peldarox_lex_part(state.as_mut_ptr(), state.len(), part.as_ptr(), part.len(), &mut report) }
    room(report)
}

/// What a text comes to where it ends here; the state is left as it is. Refusal 9 says how many words the state needs.
pub fn lex_end(state: &[u64]) -> Result<Lexed, Refusal> {
    let mut report = [0; 8];
    // SAFETY: as for a read.
    unsafe { peldarox_lex_end(state.as_ptr(), state.len(), &mut report) }
    room(report)?;
    let refusal = (report[0] != 0).then_some(Refusal { number: report[0] as u32, place: report[1] });
    Ok(Lexed { tokens: report[2], refusal })
}

/// Refusal 9 of a lexer's call, if it is one.
fn room(report: LongReport) -> Result<(), Refusal> {
    match report[0] {
        9 => Err(Refusal { number: 9, place: report[1] }),
        _ => Ok(()),
    }
}

/// Writes the file of a text and its tables, and answers how many bytes of the output it wrote: [`Counts::stored_bytes`]. Refusal 15
/// says that the output is shorter, and 8 that the tables are not well formed; refused, the output is not changed.
#[rustfmt::skip]
pub fn store(text: &[u8], tables: Tables<'_>, counts: Counts, output: &mut [u8]) -> Result<usize, Refusal> {
    let Tables { items, statements, operands, attributes } = tables;
    let mut report = [0; 8];
    // SAFETY: as for a read.
    unsafe {
        peldarox_store(
            text.as_ptr(), text.len(), items.as_ptr(), items.len(), statements.as_ptr(), statements.len(), operands.as_ptr(),
            operands.len(), attributes.as_ptr(), attributes.len(), counts.items, counts.statements, counts.operands,
            counts.attributes, output.as_mut_ptr(), output.len(), &mut report,
        )
    }
    accepted(&report)?;
    Ok(report[1] as usize)
}

/// Takes a file's text and rows into lent memory, and answers how many bytes of text and rows there are. [`part_bytes`] says how
/// much memory a file asks for. Words behind the rows are 0, bytes behind the text as they were; refused, nothing is changed.
#[rustfmt::skip]
pub fn load(file: &[u8], text: &mut [u8], tables: &mut TablesMut<'_>) -> Result<(usize, Counts), Refusal> {
    let TablesMut { items, statements, operands, attributes } = tables;
    let mut report = [0; 8];
    // SAFETY: as for a read.
    unsafe {
        peldarox_load(
            file.as_ptr(), file.len(), text.as_mut_ptr(), text.len(), items.as_mut_ptr(), items.len(),
            statements.as_mut_ptr(), statements.len(), operands.as_mut_ptr(), operands.len(), attributes.as_mut_ptr(),
            attributes.len(), &mut report,
        )
    }
    accepted(&report)?;
    let [_, bytes, items, statements, operands, attributes, ..] = report;
    Ok((bytes as usize, Counts { items, statements, operands, attributes }))
}

/// How many bytes a file's trailer tells of its text, items, statements, operands and attributes; none more than the file has, and
/// none of a file that has no trailer.
pub fn part_bytes(file: &[u8]) -> [usize; 5] {
    let Some(trailer) = file.len().checked_sub(TRAILER_BYTES) else { return [0; 5] };
    core::array::from_fn(|part| {
        let length = trailer + 8 * part + 4;
        let word = [file[length], file[length + 1], file[length + 2], file[length + 3]];
        file.len().min(u32::from_le_bytes(word) as usize)
    })
}

/// A report's refusal, if it is one.
fn accepted(report: &[u64]) -> Result<(), Refusal> {
    match report[0] {
        0 => Ok(()),
        number => Err(Refusal { number: number as u32, place: report[1] }),
    }
}
