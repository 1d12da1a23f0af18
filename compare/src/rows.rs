//! The rows of the four tables as docs/LAYOUT.md has them: fields from words, and words from fields.

/// What the codes of statements stand for, from code 1 on: the instructions in the order of the crate's grammar comment, the
/// other right sides, the two conditions.
#[rustfmt::skip]
pub const STATEMENT_CODES: [&str; 66] = [
    "add", "addnsw", "addnuw", "addnw", "sub", "subnsw", "subnuw", "subnw", "mul", "mulnsw", "mulnuw", "mulnw", "udiv",
    "sdiv", "udivexact", "sdivexact", "urem", "srem", "and", "or", "xor", "shl", "shlnsw", "shlnuw", "shlnw", "lshr",
    "lshrexact", "ashr", "ashrexact", "select", "zext", "sext", "trunc", "eq", "ne", "ult", "slt", "ule", "sle",
    "ctpop", "bswap", "bitreverse", "cttz", "ctlz", "fshl", "fshr", "sadd.with.overflow", "uadd.with.overflow",
    "ssub.with.overflow", "usub.with.overflow", "smul.with.overflow", "umul.with.overflow", "sadd.sat", "uadd.sat",
    "ssub.sat", "usub.sat", "extractvalue", "hole", "freeze", "var", "block", "phi", "reservedinst", "reservedconst",
    "pc", "blockpc",
];
pub const LAST_INSTRUCTION: u32 = 59;
pub const BLOCK: u32 = 61;
pub const PHI: u32 = 62;
pub const LAST_ASSIGNMENT: u32 = 64;
pub const PC: u32 = 65;
pub const BLOCK_PC: u32 = 66;

/// What the codes of attributes stand for, from code 1 on: eight of statements, two of closing lines.
#[rustfmt::skip]
pub const ATTRIBUTE_CODES: [&str; 10] = [
    "knownBits", "powerOfTwo", "negative", "nonNegative", "nonZero", "hasExternalUses", "signBits", "range",
    "demandedBits", "harvestedFromUse",
];
pub const KNOWN_BITS: u32 = 1;
pub const SIGN_BITS: u32 = 7;
pub const RANGE: u32 = 8;
pub const DEMANDED_BITS: u32 = 9;
pub const HARVESTED_FROM_USE: u32 = 10;

/// The kinds of items, and the codes of operands.
pub const INFER_RESULT: u32 = 1;
pub const CAND: u32 = 2;
pub const LEFT_HAND_SIDE: u32 = 3;
pub const RIGHT_HAND_SIDE: u32 = 4;
pub const VALUE: u32 = 1;
pub const CONSTANT: u32 = 2;

/// The code of a word of one of the lists above.
pub fn code_of(codes: &[&str], word: &[u8]) -> u32 {
    1 + codes.iter().position(|code| code.as_bytes() == word).expect("a word of the list") as u32
}

/// Two words: the first row or byte, and the one past the last.
#[derive(Clone, Copy, Debug, PartialEq, Eq)]
pub struct Span {
    pub first: u32,
    pub past: u32,
}

pub const NO_SPAN: Span = Span { first: 0, past: 0 };

impl Span {
    fn of(words: &[u32]) -> Self {
        Span { first: words[0], past: words[1] }
    }

    /// How many rows or bytes a span has whose end is not before its beginning.
    pub fn long(self) -> usize {
        (self.past - self.first) as usize
    }

    pub fn range(self) -> std::ops::Range<usize> {
        self.first as usize..self.past as usize
    }
}

#[derive(Clone, Copy, Debug)]
pub struct ItemRow {
    pub kind: u32,
    pub statements: Span,
    pub middle: u32,
    pub infer: u32,
    pub operands: Span,
    pub attributes: Span,
}

impl ItemRow {
    pub fn of(words: &[u32]) -> Self {
        ItemRow {
            kind: words[0],
            statements: Span::of(&words[1..]),
            middle: words[3],
            infer: words[4],
            operands: Span::of(&words[5..]),
            attributes: Span::of(&words[7..]),
        }
    }

    pub fn words(&self) -> [u32; 9] {
        let (statements, operands, attributes) = (self.statements, self.operands, self.attributes);
        [
            self.kind,
            statements.first,
            statements.past,
            self.middle,
            self.infer,
            operands.first,
            operands.past,
            attributes.first,
            attributes.past,
        ]
    }
}

#[derive(Clone, Copy, Debug)]
pub struct StatementRow {
    pub code: u32,
    pub name: Span,
    pub width: u32,
    pub number: u32,
    pub block: u32,
    pub operands: Span,
    pub attributes: Span,
}

impl StatementRow {
    pub fn of(words: &[u32]) -> Self {
        StatementRow {
            code: words[0],
            name: Span::of(&words[1..]),
            width: words[3],
            number: words[4],
            block: words[5],
            operands: Span::of(&words[6..]),
            attributes: Span::of(&words[8..]),
        }
    }

    pub fn words(&self) -> [u32; 10] {
        let (operands, attributes) = (self.operands, self.attributes);
        [
            self.code,
            self.name.first,
            self.name.past,
            self.width,
            self.number,
            self.block,
            operands.first,
            operands.past,
            attributes.first,
            attributes.past,
        ]
    }
}

#[derive(Clone, Copy, Debug)]
pub struct OperandRow {
    pub code: u32,
    pub row: u32,
    pub width: u32,
    pub bits: u128,
}

impl OperandRow {
    pub fn of(words: &[u32]) -> Self {
        OperandRow { code: words[0], row: words[1], width: words[2], bits: number_of(&words[3..]) }
    }

    pub fn words(&self) -> [u32; 7] {
        let [a, b, c, d] = words_of(self.bits);
        [self.code, self.row, self.width, a, b, c, d]
    }
}

#[derive(Clone, Copy, Debug)]
pub struct AttributeRow {
    pub code: u32,
    pub pattern: Span,
    pub low: u128,
    pub high: u128,
}

impl AttributeRow {
    pub fn of(words: &[u32]) -> Self {
        let (low, high) = (number_of(&words[3..]), number_of(&words[7..]));
        AttributeRow { code: words[0], pattern: Span::of(&words[1..]), low, high }
    }

    pub fn words(&self) -> [u32; 11] {
        let ([a, b, c, d], [e, f, g, h]) = (words_of(self.low), words_of(self.high));
        [self.code, self.pattern.first, self.pattern.past, a, b, c, d, e, f, g, h]
    }
}

/// The 128 bits of four words, the highest first.
fn number_of(words: &[u32]) -> u128 {
    words[..4].iter().fold(0, |number, word| number << 32 | *word as u128)
}

fn words_of(number: u128) -> [u32; 4] {
    [96, 64, 32, 0].map(|shift| (number >> shift) as u32)
}
