//! Texts written by the grammar: every rule, instruction, attribute and spacing, with a slip now and then.
use crate::answer::Entry;
use crate::lexer::is_name_byte;
use crate::random::Random;
use crate::reader::INSTRUCTIONS;
use crate::vocabulary::*;

/// How tokens are kept apart.
#[derive(Clone, Copy, PartialEq)]
enum Spacing {
    /// As the printer does, nearly: one space.
    Single,
    /// Only where two tokens would run together.
    Least,
    /// Any white space and comments.
    Any,
}

/// A text for an entry point: some items, with so many slips in a thousand choices.
pub fn text(random: &mut Random, entry: Entry, slips: usize) -> Vec<u8> {
    let spacing = random.one(&[Spacing::Single, Spacing::Single, Spacing::Least, Spacing::Any]);
    let mut author = Author { random, text: vec![], last: String::new(), spacing, slips, scope: vec![] };
    let items = author.random.one(&[0, 1, 1, 1, 1, 2, 2, 3]);
    (0..items).for_each(|_| author.item(entry));
    if author.spacing == Spacing::Any {
        author.gap();
    }
    author.text
}

/// One item of so many statements, or of as many as fit so many bytes.
pub fn one_item(random: &mut Random, bytes: usize, statements: usize) -> Vec<u8> {
    let mut author = plain_author(random);
    author.chained_item(statements, bytes);
    author.text
}

/// Items of some statements each, with no slips and single spaces, until a text has nearly so many bytes.
pub fn long_text(random: &mut Random, bytes: usize, statements: std::ops::Range<usize>) -> Vec<u8> {
    let mut author = plain_author(random);
    while author.text.len() < bytes {
        let before = author.text.len();
        let count = statements.start + author.random.below(statements.len());
        author.chained_item(count, bytes);
        if author.text.len() > bytes {
            author.text.truncate(before);
            break;
        }
    }
    author.text
}

/// One item of as many statements as fit so many bytes, each of which refers to the one before it.
pub fn short_statements(bytes: usize) -> Vec<u8> {
    let letter = |number: usize| (b'a' + (number % 26) as u8) as char;
    let name = |number: usize| format!("%{}{}{}", letter(number / 676), letter(number / 26), letter(number));
    let mut text = format!("{}=var", name(0));
    let mut last = 0;
    while text.len() + 30 < bytes {
        text += &format!("{}=zext{}", name(last + 1), name(last));
        last += 1;
    }
    text += &format!(" cand {} 1", name(last));
    text.into_bytes()
}

fn plain_author(random: &mut Random) -> Author<'_> {
    Author { random, text: vec![], last: String::new(), spacing: Spacing::Single, slips: 0, scope: vec![] }
}

struct Author<'r> {
    random: &'r mut Random,
    text: Vec<u8>,
    /// The token written last.
    last: String,
    spacing: Spacing,
    slips: usize,
    /// The names in scope, and the number of each that is a block.
    scope: Vec<(String, Option<usize>)>,
}

/// Spacing.
impl Author<'_> {
    /// Whether to make a slip here.
    fn slip(&mut self) -> bool {
        self.slips > 0 && self.random.chance(self.slips)
    }

    fn put(&mut self, token: &str) {
        if self.slip() {
            return;
        }
        let apart = runs_together(&self.last, token) && !self.slip();
        match self.spacing {
            Spacing::Single => self.text.push(b' '),
            Spacing::Any if self.random.chance(600) => self.gap(),
            Spacing::Any if apart => self.text.push(b'\n'),
            Spacing::Least if apart => self.text.push(b' '),
            _ => {}
        }
        self.text.extend_from_slice(token.as_bytes());
        self.last = token.to_string();
    }

    fn gap(&mut self) {
        for _ in 0..1 + self.random.below(3) {
            if self.random.chance(250) {
                self.comment();
                continue;
            }
            let space = self.random.one(&WHITE_SPACE);
            self.character(space);
        }
    }

    fn comment(&mut self) {
        self.text.push(b';');
        for _ in 0..self.random.below(6) {
            let letter = self.random.one(&['a', ';', '%', ' ', '\r', '\u{85}', '\u{2028}', 'é', '😀', '=', '0', '\0']);
            self.character(letter);
        }
        if !self.slip() {
            self.text.push(b'\n');
        }
    }

    fn character(&mut self, character: char) {
        self.text.extend_from_slice(character.encode_utf8(&mut [0; 4]).as_bytes());
    }
}

/// Whether two tokens with nothing between them would be read as something else.
fn runs_together(before: &str, after: &str) -> bool {
    let next = after.as_bytes()[0];
    match before.as_bytes().first() {
        _ if before.starts_with("knownBits=") => b"01x".contains(&next),
        Some(b'%' | b'a'..=b'z' | b'A'..=b'Z') => is_name_byte(next),
        Some(b'-' | b'0'..=b'9') => next.is_ascii_digit(),
        _ => false,
    }
}

/// Integers, types and names.
impl Author<'_> {
    fn integer(&mut self) -> &'static str {
        if self.slip() {
            return self.random.one(&INTEGERS);
        }
        let bound = self.random.one(&[6, 10, GOOD_INTEGERS]);
        self.random.one(&INTEGERS[..bound])
    }

    fn optional_type(&mut self) {
        if self.random.chance(400) {
            self.put(":");
            let of = if self.slip() { TYPES.len() } else { GOOD_TYPES };
            let width = self.random.one(&TYPES[..of]);
            self.put(width);
        }
    }

    fn new_name(&mut self) -> String {
        loop {
            let name = self.random.one(&NAMES).to_string();
            if self.scope.iter().all(|known| known.0 != name) || self.slip() {
                return name;
            }
            if self.scope.len() > NAMES.len() / 2 {
                return format!("%n{}", self.scope.len());
            }
        }
    }

    /// A name in scope; none where the scope is empty.
    fn known_name(&mut self) -> Option<String> {
        if self.slip() {
            return Some(self.random.one(&NAMES).to_string());
        }
        if self.scope.is_empty() {
            return None;
        }
        let index = self.random.below(self.scope.len());
        Some(self.scope[index].0.clone())
    }

    fn operand(&mut self) {
        if self.random.chance(600) {
            if let Some(name) = self.known_name() {
                return self.put(&name);
            }
        }
        let number = self.integer();
        self.put(number);
        self.optional_type();
    }
}

/// Items.
impl Author<'_> {
    fn item(&mut self, entry: Entry) {
        self.scope.clear();
        self.statements(entry == Entry::LeftHandSides);
        match entry {
            Entry::LeftHandSides => self.infer(),
            Entry::RightHandSides => self.result(),
            Entry::Replacements if self.random.chance(400) => {
                if self.scope.is_empty() {
                    self.assignment();
                }
                self.infer();
                self.statements(false);
                self.result();
            }
            Entry::Replacements => {
                self.put("cand");
                self.operand();
                self.operand();
                self.root_attributes();
            }
        }
        if self.spacing == Spacing::Single {
            self.text.push(b'\n');
        }
    }

    fn infer(&mut self) {
        self.put("infer");
        let name = self.known_name().unwrap_or("%0".to_string());
        self.put(&name);
        self.root_attributes();
    }

    fn result(&mut self) {
        self.put("result");
        self.operand();
    }

    fn root_attributes(&mut self) {
        while self.random.chance(250) {
            self.put("(");
            if self.random.chance(400) {
                self.put("harvestedFromUse");
            } else {
                self.put("demandedBits");
                self.put("=");
                let pattern = if self.slip() {
                    self.random.one(&["012", "-1", "-", "x", "01x", "2", "%0", "knownBits=1"])
                } else {
                    self.random.one(&["0", "1", "01", "10", "0110", "11111111", "00000000000000001"])
                };
                self.put(pattern);
            }
            self.put(")");
        }
    }

    /// An item of so many statements, each of which refers to the one before it, with values for most operands.
    fn chained_item(&mut self, statements: usize, bytes: usize) {
        self.scope.clear();
        self.scope.push(("%0".to_string(), None));
        self.text.extend_from_slice(b"%0:i32 = var\n");
        for number in 1..statements {
            if self.text.len() + 64 > bytes {
                break;
            }
            let arity = self.random.one(&[1, 2, 2, 2, 2, 3]);
            let mut line = format!("%{}:i32 = {} %{}", number, self.random.one(INSTRUCTIONS[arity]), number - 1);
            for _ in 1..arity {
                match self.random.chance(500) {
                    true => line += &format!(", %{}", self.random.below(number)),
                    false => line += &format!(", {}:i32", self.random.below(1000)),
                }
            }
            if self.random.chance(150) {
                line += &format!(" ({})", self.random.one(&WORD_ATTRIBUTES));
            }
            self.text.extend_from_slice(line.as_bytes());
            self.text.push(b'\n');
            self.scope.push((format!("%{}", number), None));
        }
        let last = self.scope.len() - 1;
        self.text.extend_from_slice(format!("cand %{} {}\n", last, self.random.below(100)).as_bytes());
    }
}

/// Statements.
impl Author<'_> {
    fn statements(&mut self, one_at_least: bool) {
        let count = match self.random.one(&[1, 1, 3, 3, 6, 6, 12]) {
            many if self.random.chance(20) => many * 4,
            few => self.random.below(few + 1),
        };
        (0..count).for_each(|_| self.statement());
        if one_at_least && self.scope.is_empty() {
            self.assignment();
        }
    }

    fn statement(&mut self) {
        if self.random.chance(850) {
            return self.assignment();
        }
        match self.block() {
            Some(block) if self.random.chance(700) => {
                self.put("blockpc");
                self.put(&block.0);
                let number = if self.slip() {
                    self.random.one(&INTEGERS)
                } else {
                    self.random.one(&["0", "1", "007", "4294967295"])
                };
                self.put(number);
            }
            _ => self.put("pc"),
        }
        self.operand();
        self.operand();
    }

    /// A block in scope, and its number; with a slip, any name.
    fn block(&mut self) -> Option<(String, usize)> {
        if self.slip() {
            let number = self.random.below(3);
            return self.known_name().map(|name| (name, number));
        }
        let blocks: Vec<_> = self.scope.iter().filter_map(|(name, number)| Some((name.clone(), (*number)?))).collect();
        match blocks.len() {
            0 => None,
            count => Some(blocks[self.random.below(count)].clone()),
        }
    }

    fn assignment(&mut self) {
        let name = self.new_name();
        self.put(&name);
        self.optional_type();
        self.put("=");
        let number = self.right_side();
        self.attributes();
        self.scope.push((name, number));
    }

    /// Writes a right side; answers the number of one that is a block.
    fn right_side(&mut self) -> Option<usize> {
        match self.random.below(20) {
            0..=2 => self.put("var"),
            3 => self.put("reservedinst"),
            4 => self.put("reservedconst"),
            5..=7 => {
                self.put("block");
                if self.slip() {
                    let number = self.integer();
                    self.put(number);
                    return Some(1);
                }
                let (letters, number) = self.random.one(&[
                    ("0", 0),
                    ("1", 1),
                    ("2", 2),
                    ("3", 3),
                    ("-0", 0),
                    ("002", 2),
                    ("4294967295", usize::MAX),
                ]);
                self.put(letters);
                return if number == usize::MAX { None } else { Some(number) };
            }
            8..=10 => match self.block() {
                Some((name, number)) => {
                    self.put("phi");
                    self.put(&name);
                    for _ in 0..number {
                        self.put(",");
                        self.operand();
                    }
                }
                None => self.put("hole"),
            },
            _ => self.instruction(),
        }
        None
    }

    fn instruction(&mut self) {
        let all: Vec<(usize, &str)> = INSTRUCTIONS
            .iter()
            .enumerate()
            .flat_map(|(arity, names)| names.iter().map(move |name| (arity, *name)))
            .collect();
        let (arity, name) = self.random.one(&all);
        let wrong = self.random.one(&["addn", "ad", "Add", "add.", "const", "i8", "knownBitsx", "sadd", "vars"]);
        let slip = self.slip();
        self.put(if slip { wrong } else { name });
        let operands = if self.slip() { self.random.below(4) } else { arity };
        for index in 0..operands {
            if index > 0 {
                self.put(",");
            }
            self.operand();
        }
    }

    fn attributes(&mut self) {
        while self.random.chance(200) {
            self.put("(");
            if self.slip() {
                let word = self.random.one(&["nonzero", "knownBits", "demandedBits", "x", "1", "%0", "(", "range"]);
                self.put(word);
            } else {
                self.attribute();
            }
            self.put(")");
        }
    }

    fn attribute(&mut self) {
        match self.random.below(8) {
            0 | 1 => {
                let pattern = self.random.one(&["0", "1", "x", "01x", "xxxxxxx1", "0000000000000000", "10x01x10x"]);
                self.put(&format!("knownBits={}", pattern));
            }
            2 => {
                self.put("signBits");
                self.put("=");
                let number =
                    if self.slip() { self.integer() } else { self.random.one(&["0", "1", "255", "-0", "008"]) };
                self.put(number);
            }
            3 | 4 => {
                self.put("range");
                self.put("=");
                self.put("[");
                let min = self.integer();
                self.put(min);
                self.put(",");
                let max = self.integer();
                self.put(max);
                self.put(")");
            }
            _ => {
                let word = self.random.one(&WORD_ATTRIBUTES);
                self.put(word);
            }
        }
    }
}

#[cfg(test)]
mod tests {
    use super::*;
    use crate::answer::{ACCEPTED, ENTRIES};
    use crate::model;

    /// Many texts without a slip, all read by their own entry point, joined.
    fn accepted() -> String {
        let mut random = Random::new(11);
        let mut all = String::new();
        for entry in ENTRIES.repeat(4000) {
            let text = text(&mut random, entry, 0);
            assert_eq!(model::read(entry, &text).end.number, ACCEPTED, "{}", String::from_utf8_lossy(&text));
            all += std::str::from_utf8(&text).unwrap();
            all += "\n";
        }
        all
    }

    #[test]
    fn texts_without_slips_are_accepted_and_have_every_word() {
        let all = accepted();
        let words =
            ["var", "block", "phi", "reservedinst", "reservedconst", "pc", "blockpc", "infer", "result", "cand"];
        let roots = ["harvestedFromUse", "demandedBits", "signBits", "range", "knownBits=01x"];
        let instructions = INSTRUCTIONS.iter().copied().flatten();
        for word in instructions.chain(&words).chain(&roots).chain(&WORD_ATTRIBUTES).chain(&NAMES) {
            assert!(all.contains(&format!(" {} ", word)), "{}", word);
        }
        for space in (0..=0x10FFFF).filter_map(char::from_u32).filter(|character| character.is_whitespace()) {
            assert!(all.contains(space), "{:?}", space);
        }
        INTEGERS[..GOOD_INTEGERS]
            .iter()
            .for_each(|number| assert!(all.contains(&format!(" {} ", number)), "{}", number));
        TYPES[..GOOD_TYPES].iter().for_each(|width| assert!(all.contains(&format!(" {} ", width)), "{}", width));
    }
}
