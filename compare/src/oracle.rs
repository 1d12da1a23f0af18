//! What the crate says of a text, in the numbers of docs/RULES.md, section 4.
//!
//! The crate has one error type. Its messages tell a lexer's fault from a parser's, an integer's and a name's; a message
//! that is not known here answers `UNKNOWN_MESSAGE`, which no reading may answer.
use crate::answer::*;
use souper_ir::{ast, parse, parse::Parse};
use std::fmt::{Display, Write};

/// A number that stands for a message of the crate that this program does not know.
pub const UNKNOWN_MESSAGE: u64 = 99;

/// The crate's messages that are always the same, and the number of each.
const MESSAGES: [(&str, u64); 20] = [
    ("expected value name", LEXER),
    ("expected [0|1|x]+ bit pattern for knownBits", LEXER),
    ("expected a value name", WRONG_TOKEN),
    ("expected an integer literal", WRONG_TOKEN),
    ("expected '='", WRONG_TOKEN),
    ("expected ','", WRONG_TOKEN),
    ("expected ')'", WRONG_TOKEN),
    ("expected '['", WRONG_TOKEN),
    ("expected 'infer'", WRONG_TOKEN),
    ("expected 'result'", WRONG_TOKEN),
    ("expected 'cand'", WRONG_TOKEN),
    ("expected a type (like 'i32', 'i8', or 'i1')", WRONG_TOKEN),
    ("expected a constant, var, block, phi, or instruction", WRONG_TOKEN),
    ("expected an attribute identifier", WRONG_TOKEN),
    ("expected 'demandedBits' or 'harvestedFromUse'", WRONG_TOKEN),
    ("expected [0|1]+ bit pattern", WRONG_TOKEN),
    ("invalid digit found in string", BAD_INTEGER),
    ("number too large to fit in target type", BAD_INTEGER),
    ("number too small to fit in target type", BAD_INTEGER),
    ("out of range integral type conversion attempted", BAD_INTEGER),
];

/// How the crate's other messages begin: a letter or a name of the text follows.
const MESSAGE_STARTS: [(&str, u64); 7] = [
    ("unexpected '", LEXER),
    ("expected '=', found '", LEXER),
    ("unknown attribute '", WRONG_TOKEN),
    ("no value named '", BAD_NAME),
    ("unknown value '", BAD_NAME),
    ("cannot redefine '", BAD_NAME),
    ("unknown block '", BAD_NAME),
];

/// What the crate says of a text: its answer, and where it accepts, its print.
#[derive(Debug)]
pub struct Said {
    pub answer: Answer,
    pub print: String,
}

/// What the crate says of a text, after the two tests that come before it is asked.
pub fn read(entry: Entry, text: &[u8]) -> Said {
    if text.len() > LONGEST {
        return refused(TOO_LONG, LONGEST);
    }
    match std::str::from_utf8(text) {
        Err(fault) => refused(NOT_UTF8, fault.valid_up_to()),
        Ok(text) => match entry {
            Entry::Replacements => said(text, parse::parse_replacements_str(text, None)),
            Entry::LeftHandSides => said(text, parse::parse_left_hand_sides_str(text, None)),
            Entry::RightHandSides => said(text, parse::parse_right_hand_sides_str(text, None)),
        },
    }
}

fn refused(number: u64, place: usize) -> Said {
    Said { answer: Answer::refused(number, place), print: String::new() }
}

fn said<T: Item>(text: &str, list: parse::Result<Vec<T>>) -> Said {
    match list {
        Ok(items) => {
            let mut counts = [0; 4];
            items.iter().for_each(|item| item.count(&mut counts));
            Said { answer: Answer::accepted(counts), print: print(&items) }
        }
        Err(fault) => {
            let place = fault.fault_offset().expect("a reading from memory has an offset at each fault");
            refused(number::<T>(text, &fault), place)
        }
    }
}

/// The prints of a list's items, one after another.
pub fn print<T: Item>(items: &[T]) -> String {
    let mut printed = String::new();
    items.iter().for_each(|item| write!(printed, "{}{}", item, T::LINE_END).unwrap());
    printed
}

/// The number of a fault.
fn number<T: Item>(text: &str, fault: &parse::ParseError) -> u64 {
    let shown = fault.to_string();
    match message(&shown) {
        "unexpected EOF" if ends_in_pattern_word::<T>(text) => LEXER,
        "unexpected EOF" => WRONG_TOKEN,
        message => number_of_message(message),
    }
}

/// Whether the text ended in the lexer, behind the word `knownBits`, and not where the parser demands a token. The crate
/// says the same of both; with a space more, the lexer says something else.
fn ends_in_pattern_word<T: Parse>(text: &str) -> bool {
    message(&first_fault::<T>(&format!("{} ", text)).to_string()) != "unexpected EOF"
}

/// The fault of a text that is refused, as the crate's parser of single items gives it.
fn first_fault<T: Parse>(text: &str) -> parse::ParseError {
    let mut parser = parse::Parser::new(text);
    loop {
        if let Err(fault) = T::parse(&mut parser) {
            return fault;
        }
    }
}

/// The message in what the crate shows of a fault: `FILE:LINE:COLUMN: MESSAGE`, then the faulty line.
fn message(shown: &str) -> &str {
    let behind_place = shown.split_once(": ").expect("a place stands before the message").1;
    behind_place.split_once("\n     |\n").expect("a line stands behind the message").0
}

fn number_of_message(message: &str) -> u64 {
    let whole = MESSAGES.iter().find(|known| known.0 == message);
    let begun = MESSAGE_STARTS.iter().find(|known| message.starts_with(known.0));
    whole.or(begun).map_or(UNKNOWN_MESSAGE, |known| known.1)
}

/// An item of a list: it is printed, and counts the rows that the rules give it.
pub trait Item: Parse + Display {
    /// What the list's print has behind an item, beside what the crate prints.
    const LINE_END: &'static str;
    fn count(&self, rows: &mut Rows);
}

impl Item for ast::Replacement {
    const LINE_END: &'static str = "";
    fn count(&self, rows: &mut Rows) {
        rows[ITEMS] += 1;
        match self {
            ast::Replacement::LhsRhs { statements, lhs, .. } => {
                count_statements(statements, rows);
                rows[ATTRIBUTES] += lhs.attributes.len() as u64;
                rows[OPERANDS] += 1;
            }
            ast::Replacement::Cand { statements, cand } => {
                count_statements(statements, rows);
                rows[ATTRIBUTES] += cand.attributes.len() as u64;
                rows[OPERANDS] += 2;
            }
        }
    }
}

impl Item for ast::LeftHandSide {
    const LINE_END: &'static str = "";
    fn count(&self, rows: &mut Rows) {
        rows[ITEMS] += 1;
        count_statements(&self.statements, rows);
        rows[ATTRIBUTES] += self.infer.attributes.len() as u64;
    }
}

impl Item for ast::RightHandSide {
    /// The listed difference: each right-hand side gets a line feed.
    const LINE_END: &'static str = "\n";
    fn count(&self, rows: &mut Rows) {
        rows[ITEMS] += 1;
        count_statements(&self.statements, rows);
        rows[OPERANDS] += 1;
    }
}

fn count_statements(statements: &ast::Arena<ast::Statement>, rows: &mut Rows) {
    rows[STATEMENTS] += statements.len() as u64;
    for (_, statement) in statements.iter() {
        match statement {
            ast::Statement::Pc(_) | ast::Statement::BlockPc(_) => rows[OPERANDS] += 2,
            ast::Statement::Assignment(assignment) => {
                rows[OPERANDS] += operands(&assignment.value);
                rows[ATTRIBUTES] += assignment.attributes.len() as u64;
            }
        }
    }
}

/// How many operands a right side has. The crate keeps an instruction's operands to itself but shows them.
fn operands(value: &ast::AssignmentRhs) -> u64 {
    match value {
        ast::AssignmentRhs::Phi(phi) => phi.values.len() as u64,
        ast::AssignmentRhs::Instruction(instruction) => {
            let shown = format!("{:?}", instruction);
            (shown.matches("Value(ValueId(").count() + shown.matches("Constant(Constant {").count()) as u64
        }
        _ => 0,
    }
}
