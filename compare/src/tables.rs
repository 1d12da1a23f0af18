//! A text and four tables: what a reading of the model leaves in them, and the items that well-formed ones say.
use crate::answer::*;
use crate::model::{Attribute, Closing, Infer, Item, Operand, Reading, Statement, Value};
use crate::rows::*;
use std::collections::HashMap;

/// A text, every word that is lent as each table, and how many rows of each are counted.
#[derive(Clone, Debug, PartialEq, Eq)]
pub struct Tables {
    pub text: Vec<u8>,
    pub words: [Vec<u32>; 4],
    pub counts: Rows,
}

impl Tables {
    /// What an accepted reading of a text leaves, where exactly the rows are lent that it claims.
    pub fn of(text: &[u8], reading: &Reading) -> Self {
        let tables = Tables { text: text.to_vec(), words: Default::default(), counts: reading.end.counts };
        let mut writer = Writer { text, tables, rows: HashMap::new() };
        reading.items.iter().for_each(|item| writer.item(item));
        writer.tables
    }

    /// The words that a print of well-formed tables needs as its work area.
    pub fn work_words(&self) -> usize {
        3 * self.counts[STATEMENTS] as usize + self.counts[OPERANDS] as usize + 1
    }

    /// The same tables with so many rows more lent, and some words too few for another row.
    pub fn with_room(mut self, rows: usize, more: usize) -> Self {
        for (table, words) in self.words.iter_mut().enumerate() {
            words.resize(words.len() + rows * ROW_WORDS[table] + more % ROW_WORDS[table], 0);
        }
        self
    }

    fn words_of(&self, table: usize, row: usize) -> &[u32] {
        &self.words[table][row * ROW_WORDS[table]..]
    }

    pub fn item(&self, row: usize) -> ItemRow {
        ItemRow::of(self.words_of(ITEMS, row))
    }

    pub fn statement(&self, row: usize) -> StatementRow {
        StatementRow::of(self.words_of(STATEMENTS, row))
    }

    pub fn operand(&self, row: usize) -> OperandRow {
        OperandRow::of(self.words_of(OPERANDS, row))
    }

    pub fn attribute(&self, row: usize) -> AttributeRow {
        AttributeRow::of(self.words_of(ATTRIBUTES, row))
    }

    /// A part of the text; none where the span runs outside or backwards.
    pub fn letters(&self, span: Span) -> Option<&[u8]> {
        self.text.get(span.range())
    }
}

/// Writes the rows of items, in reading order.
struct Writer<'t> {
    text: &'t [u8],
    tables: Tables,
    /// The statement rows of the item's names so far.
    rows: HashMap<&'t [u8], u32>,
}

impl<'t> Writer<'t> {
    fn next(&self, table: usize) -> u32 {
        (self.tables.words[table].len() / ROW_WORDS[table]) as u32
    }

    /// What a part of the text is as a span.
    fn span(&self, part: &[u8]) -> Span {
        let first = (part.as_ptr() as usize - self.text.as_ptr() as usize) as u32;
        Span { first, past: first + part.len() as u32 }
    }

    fn item(&mut self, item: &Item<'t>) {
        self.rows.clear();
        let (before, between) = item.statements.split_at(item.middle);
        let first = self.next(STATEMENTS);
        before.iter().for_each(|statement| self.statement(statement));
        let middle = self.next(STATEMENTS);
        let (kind, name, attributes, operands): (_, _, &[Attribute], Vec<&Operand>) = match &item.closing {
            Closing::Infer(infer) => (LEFT_HAND_SIDE, Some(infer.name), &infer.attributes, vec![]),
            Closing::Replaced(infer, operand) => (INFER_RESULT, Some(infer.name), &infer.attributes, vec![operand]),
            Closing::Result(operand) => (RIGHT_HAND_SIDE, None, &[], vec![operand]),
            Closing::Cand(left, right, attributes) => (CAND, None, attributes, vec![left, right]),
        };
        let infer = name.map_or(0, |name| self.rows[name]);
        let attributes = self.attributes(attributes);
        between.iter().for_each(|statement| self.statement(statement));
        let statements = Span { first, past: self.next(STATEMENTS) };
        let operands = self.operands(&operands);
        let row = ItemRow { kind, statements, middle, infer, operands, attributes };
        self.tables.words[ITEMS].extend(row.words());
    }

    fn statement(&mut self, statement: &Statement<'t>) {
        let (mut name, mut width, mut number, mut block) = (NO_SPAN, 0, 0, 0);
        let (word, operands, attributes): (&[u8], Vec<&Operand>, &[Attribute]) = match statement {
            Statement::Pc(operands) => (b"pc", operands.iter().collect(), &[]),
            Statement::BlockPc(of, predecessor, operands) => {
                (number, block) = (*predecessor as u32, self.rows[of]);
                (b"blockpc", operands.iter().collect(), &[])
            }
            Statement::Assignment { name: of, width: bits, value, attributes } => {
                (name, width) = (self.span(of), bits.unwrap_or(0) as u32);
                match value {
                    Value::Word(word) => (*word, vec![], attributes),
                    Value::Block(predecessors) => {
                        number = *predecessors as u32;
                        (b"block", vec![], attributes)
                    }
                    Value::Phi(of, operands) => {
                        block = self.rows[of];
                        (b"phi", operands.iter().collect(), attributes)
                    }
                    Value::Instruction(word, operands) => (*word, operands.iter().collect(), attributes),
                }
            }
        };
        let code = code_of(&STATEMENT_CODES, word);
        let operands = self.operands(&operands);
        let attributes = self.attributes(attributes);
        if let Statement::Assignment { name, .. } = statement {
            self.rows.insert(name, self.next(STATEMENTS));
        }
        let row = StatementRow { code, name, width, number, block, operands, attributes };
        self.tables.words[STATEMENTS].extend(row.words());
    }

    fn operands(&mut self, operands: &[&Operand]) -> Span {
        let first = self.next(OPERANDS);
        for operand in operands {
            let row = match operand {
                Operand::Value(name) => OperandRow { code: VALUE, row: self.rows[name], width: 0, bits: 0 },
                Operand::Constant(number, width) => {
                    OperandRow { code: CONSTANT, row: 0, width: width.unwrap_or(0) as u32, bits: *number as u128 }
                }
            };
            self.tables.words[OPERANDS].extend(row.words());
        }
        Span { first, past: self.next(OPERANDS) }
    }

    fn attributes(&mut self, attributes: &[Attribute]) -> Span {
        let first = self.next(ATTRIBUTES);
        for attribute in attributes {
            let (code, pattern, low, high) = match attribute {
                Attribute::Word(word) => (code_of(&ATTRIBUTE_CODES, word), NO_SPAN, 0, 0),
                Attribute::KnownBits(pattern) => (KNOWN_BITS, self.span(pattern), 0, 0),
                Attribute::DemandedBits(pattern) => (DEMANDED_BITS, self.span(pattern), 0, 0),
                Attribute::SignBits(number) => (SIGN_BITS, NO_SPAN, *number as u128, 0),
                Attribute::Range(low, high) => (RANGE, NO_SPAN, *low as u128, *high as u128),
            };
            self.tables.words[ATTRIBUTES].extend(AttributeRow { code, pattern, low, high }.words());
        }
        Span { first, past: self.next(ATTRIBUTES) }
    }
}

/// The items that well-formed tables say.
impl Tables {
    pub fn items(&self) -> Vec<Item<'_>> {
        (0..self.counts[ITEMS] as usize).map(|row| self.item_said(self.item(row))).collect()
    }

    fn item_said(&self, row: ItemRow) -> Item<'_> {
        let mut operands = self.operands_said(row.operands).into_iter();
        let mut operand = || operands.next().expect("as many operands as its kind wants");
        let attributes = self.attributes_said(row.attributes);
        let name = || self.name_said(row.infer);
        let closing = match row.kind {
            INFER_RESULT => Closing::Replaced(Infer { name: name(), attributes }, operand()),
            CAND => Closing::Cand(operand(), operand(), attributes),
            LEFT_HAND_SIDE => Closing::Infer(Infer { name: name(), attributes }),
            _ => Closing::Result(operand()),
        };
        let statements = row.statements.range().map(|row| self.statement_said(self.statement(row))).collect();
        Item { statements, middle: (row.middle - row.statements.first) as usize, closing }
    }

    /// The name of a statement row.
    fn name_said(&self, row: u32) -> &[u8] {
        self.letters(self.statement(row as usize).name).expect("a name in the text")
    }

    fn statement_said(&self, row: StatementRow) -> Statement<'_> {
        let mut operands = self.operands_said(row.operands);
        let number = row.number as u64;
        let word = STATEMENT_CODES[row.code as usize - 1].as_bytes();
        let value = match row.code {
            PC | BLOCK_PC => {
                let last = operands.pop().expect("two operands");
                let operands = [operands.pop().expect("two operands"), last];
                return match row.code {
                    PC => Statement::Pc(operands),
                    _ => Statement::BlockPc(self.name_said(row.block), number, operands),
                };
            }
            BLOCK => Value::Block(number),
            PHI => Value::Phi(self.name_said(row.block), operands),
            1..=LAST_INSTRUCTION => Value::Instruction(word, operands),
            _ => Value::Word(word),
        };
        let name = self.letters(row.name).expect("a name in the text");
        Statement::Assignment {
            name,
            width: width_said(row.width),
            value,
            attributes: self.attributes_said(row.attributes),
        }
    }

    fn operands_said(&self, span: Span) -> Vec<Operand<'_>> {
        let said = |row: OperandRow| match row.code {
            VALUE => Operand::Value(self.name_said(row.row)),
            _ => Operand::Constant(row.bits as i128, width_said(row.width)),
        };
        span.range().map(|row| said(self.operand(row))).collect()
    }

    fn attributes_said(&self, span: Span) -> Vec<Attribute<'_>> {
        let said = |row: AttributeRow| {
            let pattern = self.letters(row.pattern).unwrap_or(b"");
            match row.code {
                KNOWN_BITS => Attribute::KnownBits(pattern),
                DEMANDED_BITS => Attribute::DemandedBits(pattern),
                SIGN_BITS => Attribute::SignBits(row.low as u64),
                RANGE => Attribute::Range(row.low as i128, row.high as i128),
                code => Attribute::Word(ATTRIBUTE_CODES[code as usize - 1].as_bytes()),
            }
        };
        span.range().map(|row| said(self.attribute(row))).collect()
    }
}

/// A type's width, of which 0 is none.
fn width_said(width: u32) -> Option<u64> {
    if width == 0 {
        None
    } else {
        Some(width as u64)
    }
}
