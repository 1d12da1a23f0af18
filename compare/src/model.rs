//! The rules' reading of a text: its answer at any capacities, its claims, its items.
//!
//! A claim past capacity stops a reading and changes nothing before it, so one reading with rows enough, that remembers
//! its claims in order, answers for every capacity.
use crate::answer::*;
use crate::reader::Reader;

/// What a text reads as, whatever the capacities.
#[derive(Debug)]
pub struct Reading<'t> {
    /// The answer where rows are enough.
    pub end: Answer,
    /// Every claim before that end, in order: the table, and the last token found when it was made.
    pub claims: Vec<(usize, usize)>,
    /// The items read whole.
    pub items: Vec<Item<'t>>,
}

impl Reading<'_> {
    /// How many rows of each table are claimed before the end.
    pub fn claimed(&self) -> Rows {
        let mut rows = [0; 4];
        self.claims.iter().for_each(|claim| rows[claim.0] += 1);
        rows
    }

    /// The answer where the tables have these capacities: 7 at the first claim past them, if there is one.
    pub fn answer(&self, capacities: Rows) -> Answer {
        let mut claimed = [0; 4];
        for &(table, last) in &self.claims {
            if claimed[table] == capacities[table] {
                return Answer::refused(NO_ROW, last);
            }
            claimed[table] += 1;
        }
        self.end
    }
}

#[derive(Debug)]
pub struct Item<'t> {
    pub statements: Vec<Statement<'t>>,
    /// How many statements stand before the first closing line.
    pub middle: usize,
    pub closing: Closing<'t>,
}

#[derive(Debug)]
pub enum Closing<'t> {
    /// `infer`, the closing of a left-hand side.
    Infer(Infer<'t>),
    /// `infer`, and `result` after the statements that follow it.
    Replaced(Infer<'t>, Operand<'t>),
    Result(Operand<'t>),
    Cand(Operand<'t>, Operand<'t>, Vec<Attribute<'t>>),
}

#[derive(Debug)]
pub struct Infer<'t> {
    pub name: &'t [u8],
    pub attributes: Vec<Attribute<'t>>,
}

#[derive(Debug)]
pub enum Statement<'t> {
    Assignment { name: &'t [u8], width: Option<u64>, value: Value<'t>, attributes: Vec<Attribute<'t>> },
    Pc([Operand<'t>; 2]),
    BlockPc(&'t [u8], u64, [Operand<'t>; 2]),
}

#[derive(Debug)]
pub enum Value<'t> {
    Word(&'t [u8]),
    Block(u64),
    Phi(&'t [u8], Vec<Operand<'t>>),
    Instruction(&'t [u8], Vec<Operand<'t>>),
}

#[derive(Debug)]
pub enum Operand<'t> {
    Value(&'t [u8]),
    Constant(i128, Option<u64>),
}

#[derive(Debug)]
pub enum Attribute<'t> {
    Word(&'t [u8]),
    KnownBits(&'t [u8]),
    DemandedBits(&'t [u8]),
    SignBits(u64),
    Range(i128, i128),
}

/// What a text reads as.
pub fn read(entry: Entry, text: &[u8]) -> Reading<'_> {
    let mut reader = Reader::new(text);
    let end = reader.list(entry);
    let mut reading = Reading { end: Answer::accepted([0; 4]), claims: reader.claims, items: reader.items };
    reading.end = match end {
        Ok(()) => Answer::accepted(reading.claimed()),
        Err((number, place)) => Answer::refused(number, place),
    };
    reading
}
