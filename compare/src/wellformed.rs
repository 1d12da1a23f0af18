//! Which tables are well formed: docs/RULES.md, section 6, written from the rules' words and docs/LAYOUT.md alone.
//!
//! Items are walked in reading order with the next row of each table at hand: each span has to begin there, and in the end
//! every counted row has been owned. A row is looked at only once it is known to be counted.
use crate::answer::*;
use crate::lexer::is_name_byte;
use crate::reader::INSTRUCTIONS;
use crate::rows::*;
use crate::tables::Tables;
use std::collections::HashSet;
use std::sync::LazyLock;

/// Whether tables are well formed.
pub fn well_formed(tables: &Tables) -> bool {
    tables.text.len() <= LONGEST && (0..4).all(|table| counted(tables, table)) && owned(tables)
}

/// A count within the capacity and 65,536, and every word past the counted rows 0.
fn counted(tables: &Tables, table: usize) -> bool {
    let words = &tables.words[table];
    let count = tables.counts[table];
    count <= LONGEST as u64
        && count <= (words.len() / ROW_WORDS[table]) as u64
        && words[count as usize * ROW_WORDS[table]..].iter().all(|word| *word == 0)
}

fn owned(tables: &Tables) -> bool {
    let mut walk = Walk { tables, next: [0; 4] };
    (0..tables.counts[ITEMS] as usize).all(|row| walk.item(tables.item(row)))
        && (STATEMENTS..=ATTRIBUTES).all(|table| walk.next[table] as u64 == tables.counts[table])
}

struct Walk<'t> {
    tables: &'t Tables,
    /// The first row of each table that nothing has owned so far.
    next: [u32; 4],
}

impl<'t> Walk<'t> {
    /// Whether a span begins at the next row of its table and ends inside the count; then its rows are owned.
    fn own(&mut self, table: usize, span: Span) -> bool {
        let fits =
            span.first == self.next[table] && span.first <= span.past && span.past as u64 <= self.tables.counts[table];
        self.next[table] = span.past;
        fits
    }

    fn item(&mut self, item: ItemRow) -> bool {
        self.own(STATEMENTS, item.statements)
            && (item.statements.first..=item.statements.past).contains(&item.middle)
            && (item.kind == INFER_RESULT || item.middle == item.statements.past)
            && self.statements(item)
            && self.own(OPERANDS, item.operands)
            && self.closing(item)
    }

    /// The statements before the middle, the closing line's attributes, the statements behind the middle.
    fn statements(&mut self, item: ItemRow) -> bool {
        let mut names = HashSet::new();
        let (first, past) = (item.statements.first, item.statements.past);
        (first..item.middle).all(|row| self.statement(row, first, &mut names))
            && self.own(ATTRIBUTES, item.attributes)
            && (item.middle..past).all(|row| self.statement(row, first, &mut names))
    }

    fn closing(&self, item: ItemRow) -> bool {
        let (first, past) = (item.statements.first, item.statements.past);
        let inferred = self.is_assignment(item.infer, first..item.middle);
        let operands = self.operands(item.operands, first..past);
        let attributes = self.attributes(item.attributes, DEMANDED_BITS..=HARVESTED_FROM_USE);
        match (item.kind, item.operands.long()) {
            (INFER_RESULT, 1) | (LEFT_HAND_SIDE, 0) => inferred && operands && attributes,
            (CAND, 2) => item.infer == 0 && operands && attributes,
            (RIGHT_HAND_SIDE, 1) => item.infer == 0 && operands && item.attributes.long() == 0,
            _ => false,
        }
    }
}

/// Statements.
impl<'t> Walk<'t> {
    /// A statement row of an item whose statements begin at another; its name joins those of the item.
    fn statement(&mut self, row: u32, first: u32, names: &mut HashSet<&'t [u8]>) -> bool {
        let statement = self.tables.statement(row as usize);
        self.own(OPERANDS, statement.operands)
            && self.own(ATTRIBUTES, statement.attributes)
            && self.operands(statement.operands, first..row)
            && self.block(statement, first..row)
            && self.arity(statement) == Some(statement.operands.long())
            && (statement.number == 0 || matches!(statement.code, BLOCK | BLOCK_PC))
            && match statement.code {
                1..=LAST_ASSIGNMENT => self.assignment(statement, names),
                _ => statement.name == NO_SPAN && statement.width == 0 && statement.attributes.long() == 0,
            }
    }

    fn assignment(&self, statement: StatementRow, names: &mut HashSet<&'t [u8]>) -> bool {
        let Some(name) = self.tables.letters(statement.name) else { return false };
        is_name(name)
            && names.insert(name)
            && statement.width <= 65535
            && self.attributes(statement.attributes, KNOWN_BITS..=RANGE)
    }

    /// A block reference names a block before it; nothing else has one.
    fn block(&self, statement: StatementRow, earlier: std::ops::Range<u32>) -> bool {
        match statement.code {
            PHI | BLOCK_PC => {
                earlier.contains(&statement.block) && self.tables.statement(statement.block as usize).code == BLOCK
            }
            _ => statement.block == 0,
        }
    }

    /// How many operands a statement has whose block reference is as it should be; none where there is no such code.
    fn arity(&self, statement: StatementRow) -> Option<usize> {
        match statement.code {
            1..=LAST_INSTRUCTION => Some(ARITIES[statement.code as usize - 1]),
            PHI => Some(self.tables.statement(statement.block as usize).number as usize),
            PC | BLOCK_PC => Some(2),
            60..=LAST_ASSIGNMENT => Some(0),
            _ => None,
        }
    }
}

/// How many operands each instruction takes, in the order of their codes.
static ARITIES: LazyLock<Vec<usize>> = LazyLock::new(|| {
    let arity = |word: &&str| INSTRUCTIONS.iter().position(|names| names.contains(word)).expect("an instruction");
    STATEMENT_CODES[..LAST_INSTRUCTION as usize].iter().map(arity).collect()
});

fn is_name(letters: &[u8]) -> bool {
    letters.len() >= 2 && letters[0] == b'%' && letters[1..].iter().all(|letter| is_name_byte(*letter))
}

/// Operands and attributes.
impl Walk<'_> {
    fn is_assignment(&self, row: u32, among: std::ops::Range<u32>) -> bool {
        among.contains(&row) && (1..=LAST_ASSIGNMENT).contains(&self.tables.statement(row as usize).code)
    }

    /// Operands whose values are assignments among some rows.
    fn operands(&self, span: Span, among: std::ops::Range<u32>) -> bool {
        span.range().all(|row| {
            let operand = self.tables.operand(row);
            match operand.code {
                VALUE => self.is_assignment(operand.row, among.clone()) && operand.width == 0 && operand.bits == 0,
                CONSTANT => operand.row == 0 && operand.width <= 65535,
                _ => false,
            }
        })
    }

    fn attributes(&self, span: Span, codes: std::ops::RangeInclusive<u32>) -> bool {
        span.range().all(|row| {
            let attribute = self.tables.attribute(row);
            codes.contains(&attribute.code) && self.attribute(attribute)
        })
    }

    fn attribute(&self, attribute: AttributeRow) -> bool {
        let pattern = match attribute.code {
            KNOWN_BITS => self.is_pattern(attribute.pattern, b"01x"),
            DEMANDED_BITS => self.is_pattern(attribute.pattern, b"01"),
            _ => attribute.pattern == NO_SPAN,
        };
        pattern
            && match attribute.code {
                RANGE => true,
                SIGN_BITS => attribute.low <= 255 && attribute.high == 0,
                _ => attribute.low == 0 && attribute.high == 0,
            }
    }

    fn is_pattern(&self, span: Span, letters: &[u8]) -> bool {
        let pattern = self.tables.letters(span).unwrap_or(b"");
        !pattern.is_empty() && pattern.iter().all(|letter| letters.contains(letter))
    }
}
