//! The parser of docs/RULES.md, sections 2 to 5, written from the rules' words and not from the crate: one function for each rule of the grammar.
use crate::answer::*;
use crate::lexer::{first_bad_sequence, next_token, Kind, Lexed, Token};
use crate::model::{Attribute, Closing, Infer, Item, Operand, Statement, Value};
use std::collections::HashMap;

/// The instructions of each arity.
#[rustfmt::skip]
pub const INSTRUCTIONS: [&[&str]; 4] = [
    &["hole"],
    &["zext", "sext", "trunc", "ctpop", "bswap", "bitreverse", "cttz", "ctlz", "freeze"],
    &[
        "add", "addnsw", "addnuw", "addnw", "sub", "subnsw", "subnuw", "subnw", "mul", "mulnsw", "mulnuw", "mulnw",
        "shl", "shlnsw", "shlnuw", "shlnw", "udiv", "sdiv", "udivexact", "sdivexact", "urem", "srem", "and", "or",
        "xor", "lshr", "lshrexact", "ashr", "ashrexact", "eq", "ne", "ult", "slt", "ule", "sle", "sadd.with.overflow",
        "uadd.with.overflow", "ssub.with.overflow", "usub.with.overflow", "smul.with.overflow", "umul.with.overflow",
        "sadd.sat", "uadd.sat", "ssub.sat", "usub.sat", "extractvalue",
    ],
    &["select", "fshl", "fshr"],
];

/// A refusal: its number and place.
pub type Read<T> = Result<T, (u64, usize)>;

/// A text while it is read, and what has been read of it.
pub struct Reader<'t> {
    text: &'t [u8],
    at: usize,
    ahead: Option<Token>,
    /// The first byte of the last token found.
    last: usize,
    /// The names in scope, and the number of each that is a block.
    scope: HashMap<&'t [u8], Option<u64>>,
    pub claims: Vec<(usize, usize)>,
    pub items: Vec<Item<'t>>,
}

/// Tokens.
impl<'t> Reader<'t> {
    pub fn new(text: &'t [u8]) -> Self {
        Reader { text, at: 0, ahead: None, last: 0, scope: HashMap::new(), claims: vec![], items: vec![] }
    }

    /// The next token, left where it is; looking moves the last token found.
    fn look(&mut self) -> Read<Option<Token>> {
        if self.ahead.is_none() {
            match next_token(self.text, self.at) {
                Lexed::Found(token) => {
                    self.at = token.past;
                    self.last = token.first;
                    self.ahead = Some(token);
                }
                Lexed::End => {}
                Lexed::Refused(place) => return Err((LEXER, place)),
            }
        }
        Ok(self.ahead)
    }

    /// The next token, taken; none left is refused at the text's last byte.
    fn demand(&mut self) -> Read<Token> {
        self.look()?;
        self.ahead.take().ok_or((WRONG_TOKEN, self.text.len().saturating_sub(1)))
    }

    fn letters(&self, token: Token) -> &'t [u8] {
        &self.text[token.first..token.past]
    }

    fn demand_kind(&mut self, kind: Kind) -> Read<&'t [u8]> {
        let token = self.demand()?;
        if token.kind == kind {
            Ok(self.letters(token))
        } else {
            Err((WRONG_TOKEN, token.first))
        }
    }

    fn demand_word(&mut self, word: &[u8]) -> Read<()> {
        let token = self.demand()?;
        if token.kind == Kind::Identifier && self.letters(token) == word {
            Ok(())
        } else {
            Err((WRONG_TOKEN, token.first))
        }
    }

    fn look_kind(&mut self, kind: Kind) -> Read<bool> {
        Ok(self.look()?.is_some_and(|token| token.kind == kind))
    }

    /// The letters of the identifier that is next; nothing where another token or none is.
    fn look_word(&mut self) -> Read<&'t [u8]> {
        Ok(match self.look()? {
            Some(token) if token.kind == Kind::Identifier => self.letters(token),
            _ => b"",
        })
    }

    fn claim(&mut self, table: usize) {
        self.claims.push((table, self.last));
    }
}

/// Integers, types and names.
impl<'t> Reader<'t> {
    /// An integer from -2^127 to 2^127-1.
    fn integer(&mut self) -> Read<i128> {
        let letters = self.demand_kind(Kind::Integer)?;
        signed(letters).ok_or((BAD_INTEGER, self.last))
    }

    /// An integer that fits so many bits, unsigned.
    fn unsigned(&mut self, bits: u32) -> Read<u64> {
        match self.integer()? {
            number if 0 <= number && number < 1 << bits => Ok(number as u64),
            _ => Err((BAD_INTEGER, self.last)),
        }
    }

    /// A type behind `:`, where `:` is next.
    fn optional_type(&mut self) -> Read<Option<u64>> {
        if !self.look_kind(Kind::Colon)? {
            return Ok(None);
        }
        self.demand()?;
        let letters = self.demand_kind(Kind::Identifier)?;
        let digits = letters.strip_prefix(b"i").unwrap_or(b"");
        match magnitude(digits) {
            Some(width @ 1..=65535) => Ok(Some(width as u64)),
            _ => Err((WRONG_TOKEN, self.last)),
        }
    }

    /// A name in scope.
    fn known_name(&mut self) -> Read<&'t [u8]> {
        let name = self.demand_kind(Kind::ValueName)?;
        if self.scope.contains_key(name) {
            Ok(name)
        } else {
            Err((BAD_NAME, self.last))
        }
    }

    /// A block's name in scope, and the block's number.
    fn block_name(&mut self) -> Read<(&'t [u8], u64)> {
        let name = self.demand_kind(Kind::ValueName)?;
        match self.scope.get(name) {
            Some(Some(number)) => Ok((name, *number)),
            _ => Err((BAD_NAME, self.last)),
        }
    }
}

/// Items.
impl<'t> Reader<'t> {
    /// Reads a whole list; the items and claims before a refusal stay.
    pub fn list(&mut self, entry: Entry) -> Read<()> {
        if self.text.len() > LONGEST {
            return Err((TOO_LONG, LONGEST));
        }
        if let Some(place) = first_bad_sequence(self.text) {
            return Err((NOT_UTF8, place));
        }
        while self.look()?.is_some() {
            let item = self.item(entry)?;
            self.claim(ITEMS);
            self.items.push(item);
            self.scope.clear();
        }
        Ok(())
    }

    fn item(&mut self, entry: Entry) -> Read<Item<'t>> {
        let mut statements = vec![];
        self.statements(&mut statements)?;
        let middle = statements.len();
        let closing = match entry {
            Entry::LeftHandSides => Closing::Infer(self.infer()?),
            Entry::RightHandSides => Closing::Result(self.result()?),
            Entry::Replacements if self.look_word()? == b"infer" => {
                let infer = self.infer()?;
                self.statements(&mut statements)?;
                Closing::Replaced(infer, self.result()?)
            }
            Entry::Replacements => self.cand()?,
        };
        Ok(Item { statements, middle, closing })
    }

    fn infer(&mut self) -> Read<Infer<'t>> {
        self.demand_word(b"infer")?;
        let name = self.known_name()?;
        Ok(Infer { name, attributes: self.attributes(Self::root_attribute)? })
    }

    fn result(&mut self) -> Read<Operand<'t>> {
        self.demand_word(b"result")?;
        self.operand()
    }

    fn cand(&mut self) -> Read<Closing<'t>> {
        self.demand_word(b"cand")?;
        let left = self.operand()?;
        let right = self.operand()?;
        Ok(Closing::Cand(left, right, self.attributes(Self::root_attribute)?))
    }
}

/// Statements.
impl<'t> Reader<'t> {
    fn statements(&mut self, read: &mut Vec<Statement<'t>>) -> Read<()> {
        loop {
            let statement = if self.look_kind(Kind::ValueName)? {
                self.assignment()?
            } else if self.look_word()? == b"pc" {
                self.pc()?
            } else if self.look_word()? == b"blockpc" {
                self.blockpc()?
            } else {
                return Ok(());
            };
            self.claim(STATEMENTS);
            if let Statement::Assignment { name, value, .. } = &statement {
                let block = if let Value::Block(number) = value { Some(*number) } else { None };
                self.scope.insert(name, block);
            }
            read.push(statement);
        }
    }

    fn assignment(&mut self) -> Read<Statement<'t>> {
        let name = self.demand_kind(Kind::ValueName)?;
        if self.scope.contains_key(name) {
            return Err((BAD_NAME, self.last));
        }
        let width = self.optional_type()?;
        self.demand_kind(Kind::Equals)?;
        let value = self.right_side()?;
        let attributes = self.attributes(Self::attribute)?;
        Ok(Statement::Assignment { name, width, value, attributes })
    }

    fn right_side(&mut self) -> Read<Value<'t>> {
        let word = self.look_word()?;
        let arity = INSTRUCTIONS.iter().position(|names| names.iter().any(|name| name.as_bytes() == word));
        match (word, arity) {
            (b"var" | b"reservedinst" | b"reservedconst", _) => {
                self.demand()?;
                Ok(Value::Word(word))
            }
            (b"block", _) => {
                self.demand()?;
                Ok(Value::Block(self.unsigned(32)?))
            }
            (b"phi", _) => {
                self.demand()?;
                self.phi()
            }
            (_, Some(arity)) => {
                self.demand()?;
                self.instruction(word, arity)
            }
            _ => Err((WRONG_TOKEN, self.last)),
        }
    }

    fn phi(&mut self) -> Read<Value<'t>> {
        let (name, number) = self.block_name()?;
        let mut operands = vec![];
        for _ in 0..number {
            self.demand_kind(Kind::Comma)?;
            operands.push(self.operand()?);
        }
        Ok(Value::Phi(name, operands))
    }

    fn instruction(&mut self, name: &'t [u8], arity: usize) -> Read<Value<'t>> {
        let mut operands = vec![];
        for index in 0..arity {
            if index > 0 {
                self.demand_kind(Kind::Comma)?;
            }
            operands.push(self.operand()?);
        }
        Ok(Value::Instruction(name, operands))
    }

    fn pc(&mut self) -> Read<Statement<'t>> {
        self.demand_word(b"pc")?;
        Ok(Statement::Pc([self.operand()?, self.operand()?]))
    }

    fn blockpc(&mut self) -> Read<Statement<'t>> {
        self.demand_word(b"blockpc")?;
        let (name, _) = self.block_name()?;
        let number = self.unsigned(32)?;
        Ok(Statement::BlockPc(name, number, [self.operand()?, self.operand()?]))
    }

    fn operand(&mut self) -> Read<Operand<'t>> {
        let operand = if self.look_kind(Kind::ValueName)? {
            Operand::Value(self.known_name()?)
        } else {
            let number = self.integer()?;
            Operand::Constant(number, self.optional_type()?)
        };
        self.claim(OPERANDS);
        Ok(operand)
    }
}

/// Attributes.
impl<'t> Reader<'t> {
    fn attributes(&mut self, one: fn(&mut Self) -> Read<Attribute<'t>>) -> Read<Vec<Attribute<'t>>> {
        let mut read = vec![];
        while self.look_kind(Kind::OpenParen)? {
            self.demand()?;
            read.push(one(self)?);
            self.demand_kind(Kind::CloseParen)?;
            self.claim(ATTRIBUTES);
        }
        Ok(read)
    }

    fn attribute(&mut self) -> Read<Attribute<'t>> {
        let token = self.demand()?;
        let letters = self.letters(token);
        match (token.kind, letters) {
            (Kind::KnownBits, _) => Ok(Attribute::KnownBits(&letters[10..])),
            (Kind::Identifier, b"powerOfTwo" | b"negative" | b"nonNegative" | b"nonZero" | b"hasExternalUses") => {
                Ok(Attribute::Word(letters))
            }
            (Kind::Identifier, b"signBits") => {
                self.demand_kind(Kind::Equals)?;
                Ok(Attribute::SignBits(self.unsigned(8)?))
            }
            (Kind::Identifier, b"range") => self.range(),
            _ => Err((WRONG_TOKEN, token.first)),
        }
    }

    /// A range's `=[min,max)`.
    fn range(&mut self) -> Read<Attribute<'t>> {
        self.demand_kind(Kind::Equals)?;
        self.demand_kind(Kind::OpenBracket)?;
        let min = self.integer()?;
        self.demand_kind(Kind::Comma)?;
        let max = self.integer()?;
        self.demand_kind(Kind::CloseParen)?;
        Ok(Attribute::Range(min, max))
    }

    fn root_attribute(&mut self) -> Read<Attribute<'t>> {
        let token = self.demand()?;
        match (token.kind, self.letters(token)) {
            (Kind::Identifier, b"harvestedFromUse") => Ok(Attribute::Word(self.letters(token))),
            (Kind::Identifier, b"demandedBits") => {
                self.demand_kind(Kind::Equals)?;
                let pattern = self.demand_kind(Kind::Integer)?;
                if pattern.iter().all(|letter| b"01".contains(letter)) {
                    Ok(Attribute::DemandedBits(pattern))
                } else {
                    Err((WRONG_TOKEN, self.last))
                }
            }
            _ => Err((WRONG_TOKEN, token.first)),
        }
    }
}

/// The number of one or more digits, where it is at most 2^127.
fn magnitude(digits: &[u8]) -> Option<u128> {
    if digits.is_empty() || !digits.iter().all(|digit| digit.is_ascii_digit()) {
        return None;
    }
    let longer = |number: u128, digit: &u8| number.checked_mul(10)?.checked_add((digit - b'0') as u128);
    digits.iter().try_fold(0, longer).filter(|number| *number <= 1 << 127)
}

/// The number of an integer's letters, where it fits 128 bits.
fn signed(letters: &[u8]) -> Option<i128> {
    match letters.strip_prefix(b"-") {
        Some(digits) => magnitude(digits).map(|number| (number as i128).wrapping_neg()),
        None => magnitude(letters).filter(|number| *number < 1 << 127).map(|number| number as i128),
    }
}

#[cfg(test)]
mod tests {
    use super::*;

    #[test]
    fn integers_run_to_both_ends() {
        assert_eq!(signed(b"-170141183460469231731687303715884105728"), Some(i128::MIN));
        assert_eq!(signed(b"0170141183460469231731687303715884105727"), Some(i128::MAX));
        assert_eq!(signed(b"170141183460469231731687303715884105728"), None);
        assert_eq!(signed(b"-170141183460469231731687303715884105729"), None);
        assert_eq!(signed(b"340282366920938463463374607431768211456"), None);
        assert_eq!((signed(b"-0"), signed(b"-007"), signed(b"-")), (Some(0), Some(-7), None));
    }

    #[test]
    fn there_are_59_instructions() {
        assert_eq!(INSTRUCTIONS.map(|names| names.len()), [1, 9, 46, 3]);
    }
}
