//! The text checks and the lexer of docs/RULES.md, section 1, written from the rules' words and not from the crate.

#[derive(Clone, Copy, Debug, PartialEq, Eq)]
pub enum Kind {
    Identifier,
    ValueName,
    KnownBits,
    Integer,
    Comma,
    Colon,
    Equals,
    OpenParen,
    CloseParen,
    OpenBracket,
}

/// A token: its kind, its first byte, and the byte past its last.
#[derive(Clone, Copy, Debug, PartialEq, Eq)]
pub struct Token {
    pub kind: Kind,
    pub first: usize,
    pub past: usize,
}

/// What stands at or after a place: a token, the end of the text, or a refusal at a place.
#[derive(Clone, Copy, Debug, PartialEq, Eq)]
pub enum Lexed {
    Found(Token),
    End,
    Refused(usize),
}

/// White_Space as ranges of characters.
pub const WHITE_SPACE: [(u32, u32); 10] = [
    (0x0009, 0x000D),
    (0x0020, 0x0020),
    (0x0085, 0x0085),
    (0x00A0, 0x00A0),
    (0x1680, 0x1680),
    (0x2000, 0x200A),
    (0x2028, 0x2029),
    (0x202F, 0x202F),
    (0x205F, 0x205F),
    (0x3000, 0x3000),
];

/// The rows of the Unicode Standard's table of well-formed sequences: the first byte's range, and each further byte's.
const WELL_FORMED: [&[(u8, u8)]; 9] = [
    &[(0x00, 0x7F)],
    &[(0xC2, 0xDF), (0x80, 0xBF)],
    &[(0xE0, 0xE0), (0xA0, 0xBF), (0x80, 0xBF)],
    &[(0xE1, 0xEC), (0x80, 0xBF), (0x80, 0xBF)],
    &[(0xED, 0xED), (0x80, 0x9F), (0x80, 0xBF)],
    &[(0xEE, 0xEF), (0x80, 0xBF), (0x80, 0xBF)],
    &[(0xF0, 0xF0), (0x90, 0xBF), (0x80, 0xBF), (0x80, 0xBF)],
    &[(0xF1, 0xF3), (0x80, 0xBF), (0x80, 0xBF), (0x80, 0xBF)],
    &[(0xF4, 0xF4), (0x80, 0x8F), (0x80, 0xBF), (0x80, 0xBF)],
];

/// The bytes of the well-formed sequence at the front of a text; 0 where there is none.
fn sequence_length(text: &[u8]) -> usize {
    let fits = |row: &&&[(u8, u8)]| {
        row.len() <= text.len() && row.iter().zip(text).all(|(range, byte)| range.0 <= *byte && *byte <= range.1)
    };
    WELL_FORMED.iter().find(fits).map_or(0, |row| row.len())
}

/// The first byte of the first bad sequence of a text.
pub fn first_bad_sequence(text: &[u8]) -> Option<usize> {
    let mut at = 0;
    while at < text.len() {
        match sequence_length(&text[at..]) {
            0 => return Some(at),
            length => at += length,
        }
    }
    None
}

/// The bytes of the white space character at the front of a well-formed text; 0 where another one stands there.
fn white_space_length(text: &[u8]) -> usize {
    let length = sequence_length(text);
    let lead = match length {
        1 => text[0] as u32,
        2 => text[0] as u32 & 0x1F,
        3 => text[0] as u32 & 0x0F,
        _ => return 0,
    };
    let character = text[1..length].iter().fold(lead, |sum, byte| sum << 6 | (*byte as u32 & 0x3F));
    if WHITE_SPACE.iter().any(|range| range.0 <= character && character <= range.1) {
        length
    } else {
        0
    }
}

/// How many bytes of white space and comments stand at the front of a text.
fn gap_length(text: &[u8]) -> usize {
    let mut at = 0;
    while at < text.len() {
        if text[at] == b';' {
            at += count(&text[at..], |byte| byte != b'\n');
            continue;
        }
        match white_space_length(&text[at..]) {
            0 => break,
            length => at += length,
        }
    }
    at
}

/// How many bytes at the front of a text pass a test.
fn count(text: &[u8], test: impl Fn(u8) -> bool) -> usize {
    text.iter().take_while(|byte| test(**byte)).count()
}

pub fn is_name_byte(byte: u8) -> bool {
    byte.is_ascii_alphanumeric() || byte == b'_' || byte == b'.'
}

fn is_pattern_byte(byte: u8) -> bool {
    b"01x".contains(&byte)
}

/// The next token of a text at or after a place.
pub fn next_token(text: &[u8], at: usize) -> Lexed {
    let first = at + gap_length(&text[at..]);
    let rest = &text[first..];
    let found = |kind, length| Lexed::Found(Token { kind, first, past: first + length });
    match rest.first() {
        None => Lexed::End,
        Some(b',') => found(Kind::Comma, 1),
        Some(b'=') => found(Kind::Equals, 1),
        Some(b':') => found(Kind::Colon, 1),
        Some(b'(') => found(Kind::OpenParen, 1),
        Some(b')') => found(Kind::CloseParen, 1),
        Some(b'[') => found(Kind::OpenBracket, 1),
        Some(b'%') => match count(&rest[1..], is_name_byte) {
            0 => Lexed::Refused(first),
            length => found(Kind::ValueName, 1 + length),
        },
        Some(b'-' | b'0'..=b'9') => found(Kind::Integer, 1 + count(&rest[1..], |byte| byte.is_ascii_digit())),
        Some(b'a'..=b'z' | b'A'..=b'Z') => match count(rest, is_name_byte) {
            9 if rest.starts_with(b"knownBits") => pattern(text, first),
            length => found(Kind::Identifier, length),
        },
        Some(_) => Lexed::Refused(first),
    }
}

/// The token of a `knownBits` that stands at a place: at once `=`, and one or more of `0 1 x`.
fn pattern(text: &[u8], first: usize) -> Lexed {
    let equals = first + 9;
    match text.get(equals) {
        None => Lexed::Refused(text.len() - 1),
        Some(b'=') => match count(&text[equals + 1..], is_pattern_byte) {
            0 => Lexed::Refused(equals + 1),
            length => Lexed::Found(Token { kind: Kind::KnownBits, first, past: equals + 1 + length }),
        },
        Some(_) => Lexed::Refused(equals),
    }
}

/// Every token of a text, and the place of the lexer's refusal where there is one.
pub fn tokens(text: &[u8]) -> (Vec<Token>, Option<usize>) {
    let mut found = vec![];
    let mut at = 0;
    loop {
        match next_token(text, at) {
            Lexed::Found(token) => {
                found.push(token);
                at = token.past;
            }
            Lexed::End => return (found, None),
            Lexed::Refused(place) => return (found, Some(place)),
        }
    }
}

#[cfg(test)]
mod tests {
    use super::*;

    #[test]
    fn white_space_is_that_of_unicode() {
        for character in (0..=0x10FFFF).filter_map(char::from_u32) {
            let mut room = [0; 4];
            let text = character.encode_utf8(&mut room).as_bytes();
            assert_eq!(white_space_length(text) > 0, character.is_whitespace(), "{:?}", character);
            assert_eq!(sequence_length(text), text.len());
        }
    }

    #[test]
    fn tokens_need_no_space_between_them() {
        let kinds = |text: &[u8]| tokens(text).0.iter().map(|token| token.kind).collect::<Vec<_>>();
        use Kind::*;
        assert_eq!(kinds(b"%a=var%b"), [ValueName, Equals, Identifier, ValueName]);
        assert_eq!(kinds(b"12knownBits=0"), [Integer, KnownBits]);
        assert_eq!(kinds(b"12add--1"), [Integer, Identifier, Integer, Integer]);
        assert_eq!(kinds(b"knownBits=0x1y"), [KnownBits, Identifier]);
        assert_eq!(kinds(b"knownBitsx knownBits. a"), [Identifier, Identifier, Identifier]);
    }
}
