//! The proved library's calls from C, where it is linked. include/peldarox.h has their promises.
use crate::answer::*;

/// Whether the library's readers are linked.
pub const READS: bool = cfg!(ours);

/// Whether the library's printer, and the call for a name, are linked.
pub const PRINTS: bool = cfg!(ours_print);

/// Whether the library's calls that lex a text as it arrives are linked.
pub const LEXES: bool = cfg!(ours_lex);

/// What every call reports.
pub type Report = [u64; 6];

/// What a call that lexes reports.
pub type LexReport = [u64; 8];

/// What stands in a report before a call.
#[cfg(ours)]
pub(crate) const UNTOLD: u64 = 0xA5C3_0FF1_5EED_1E55;

#[cfg(ours)]
#[rustfmt::skip]
type Reader = unsafe extern "C" fn(
    text: *const u8, text_bytes: usize, items: *mut u32, item_words: usize, statements: *mut u32,
    statement_words: usize, operands: *mut u32, operand_words: usize, attributes: *mut u32, attribute_words: usize,
    report: *mut u64,
);

#[cfg(ours)]
#[rustfmt::skip]
extern "C" {
    fn peldarox_read_replacements(
        text: *const u8, text_bytes: usize, items: *mut u32, item_words: usize, statements: *mut u32,
        statement_words: usize, operands: *mut u32, operand_words: usize, attributes: *mut u32, attribute_words: usize,
        report: *mut u64,
    );
    fn peldarox_read_left_hand_sides(
        text: *const u8, text_bytes: usize, items: *mut u32, item_words: usize, statements: *mut u32,
        statement_words: usize, operands: *mut u32, operand_words: usize, attributes: *mut u32, attribute_words: usize,
        report: *mut u64,
    );
    fn peldarox_read_right_hand_sides(
        text: *const u8, text_bytes: usize, items: *mut u32, item_words: usize, statements: *mut u32,
        statement_words: usize, operands: *mut u32, operand_words: usize, attributes: *mut u32, attribute_words: usize,
        report: *mut u64,
    );
    #[cfg(ours_print)]
    fn peldarox_print(
        text: *const u8, text_bytes: usize, items: *const u32, item_words: usize, statements: *const u32,
        statement_words: usize, operands: *const u32, operand_words: usize, attributes: *const u32,
        attribute_words: usize, item_count: u64, statement_count: u64, operand_count: u64, attribute_count: u64,
        work: *mut u32, work_words: usize, output: *mut u8, output_bytes: usize, report: *mut u64,
    );
    #[cfg(ours_print)]
    fn peldarox_name(
        text: *const u8, text_bytes: usize, items: *const u32, item_words: usize, statements: *const u32,
        statement_words: usize, operands: *const u32, operand_words: usize, attributes: *const u32,
        attribute_words: usize, item_count: u64, statement_count: u64, operand_count: u64, attribute_count: u64,
        row: u64, report: *mut u64,
    );
}

/// The library's report of reading a text into lent tables.
#[cfg(ours)]
#[rustfmt::skip]
pub fn read(entry: Entry, text: &[u8], tables: [&mut [u32]; 4]) -> Report {
    let reader: Reader = match entry {
        Entry::Replacements => peldarox_read_replacements,
        Entry::LeftHandSides => peldarox_read_left_hand_sides,
        Entry::RightHandSides => peldarox_read_right_hand_sides,
    };
    let mut report = [UNTOLD; 8];
    let [items, statements, operands, attributes] = tables;
    // SAFETY: every pointer is to as many words or bytes as the length behind it says; report is to eight words.
    unsafe {
        reader(
            text.as_ptr(), text.len(), items.as_mut_ptr(), items.len(), statements.as_mut_ptr(), statements.len(),
            operands.as_mut_ptr(), operands.len(), attributes.as_mut_ptr(), attributes.len(), report[1..].as_mut_ptr(),
        )
    }
    told(report)
}

/// The library's report of printing tables of these counts.
#[cfg(ours_print)]
#[rustfmt::skip]
pub fn print(text: &[u8], tables: [&[u32]; 4], counts: Rows, work: &mut [u32], output: &mut [u8]) -> Report {
    let mut report = [UNTOLD; 8];
    let [items, statements, operands, attributes] = tables;
    // SAFETY: every pointer is to as many words or bytes as the length behind it says; report is to eight words.
    unsafe {
        peldarox_print(
            text.as_ptr(), text.len(), items.as_ptr(), items.len(), statements.as_ptr(), statements.len(),
            operands.as_ptr(), operands.len(), attributes.as_ptr(), attributes.len(), counts[ITEMS],
            counts[STATEMENTS], counts[OPERANDS], counts[ATTRIBUTES], work.as_mut_ptr(), work.len(),
            output.as_mut_ptr(), output.len(), report[1..].as_mut_ptr(),
        )
    }
    told(report)
}

/// The library's report of the name of a statement row of tables of these counts.
#[cfg(ours_print)]
#[rustfmt::skip]
pub fn name(text: &[u8], tables: [&[u32]; 4], counts: Rows, row: u64) -> Report {
    let mut report = [UNTOLD; 8];
    let [items, statements, operands, attributes] = tables;
    // SAFETY: every pointer is to as many words or bytes as the length behind it says; report is to eight words.
    unsafe {
        peldarox_name(
            text.as_ptr(), text.len(), items.as_ptr(), items.len(), statements.as_ptr(), statements.len(),
            operands.as_ptr(), operands.len(), attributes.as_ptr(), attributes.len(), counts[ITEMS],
            counts[STATEMENTS], counts[OPERANDS], counts[ATTRIBUTES], row, report[1..].as_mut_ptr(),
        )
    }
    told(report)
}

/// A call that lexes.
#[derive(Clone, Copy, Debug)]
pub enum LexCall<'a> {
    Start,
    Part(&'a [u8]),
    End,
}

/// The library's report of a call that lexes with this state.
#[cfg(ours_lex)]
pub fn lex(state: &mut [u64], call: LexCall) -> LexReport {
    extern "C" {
        fn peldarox_lex_start(state: *mut u64, state_words: usize, report: *mut u64);
        fn peldarox_lex_part(state: *mut u64, words: usize, part: *const u8, part_bytes: usize, report: *mut u64);
        fn peldarox_lex_end(state: *const u64, state_words: usize, report: *mut u64);
    }
    let mut report = [UNTOLD; 10];
    let words = report[1..].as_mut_ptr();
    // SAFETY: every pointer is to as many words or bytes as the length behind it says; report is to nine words.
    unsafe {
        match call {
            LexCall::Start => peldarox_lex_start(state.as_mut_ptr(), state.len(), words),
            LexCall::Part(part) => peldarox_lex_part(state.as_mut_ptr(), state.len(), part.as_ptr(), part.len(), words),
            LexCall::End => peldarox_lex_end(state.as_ptr(), state.len(), words),
        }
    }
    told(report)
}

#[cfg(not(ours_lex))]
pub fn lex(_: &mut [u64], _: LexCall) -> LexReport {
    unreachable!("the library's calls that lex are not linked")
}

/// The words of a report, which stands between two that must not change.
#[cfg(ours)]
pub(crate) fn told<const BETWEEN: usize, const WORDS: usize>(report: [u64; BETWEEN]) -> [u64; WORDS] {
    assert_eq!((report[0], report[WORDS + 1]), (UNTOLD, UNTOLD), "written beside the report");
    std::array::from_fn(|word| report[word + 1])
}

#[cfg(not(ours))]
pub fn read(_: Entry, _: &[u8], _: [&mut [u32]; 4]) -> Report {
    unreachable!("the library is not linked")
}

#[cfg(not(ours_print))]
pub fn print(_: &[u8], _: [&[u32]; 4], _: Rows, _: &mut [u32], _: &mut [u8]) -> Report {
    unreachable!("the library's printer is not linked")
}

#[cfg(not(ours_print))]
pub fn name(_: &[u8], _: [&[u32]; 4], _: Rows, _: u64) -> Report {
    unreachable!("the library's printer is not linked")
}
