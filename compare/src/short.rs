//! Every short text: all sequences of a few tokens behind each of some beginnings, and of a few bytes.

#[rustfmt::skip]
const WORDS: [&str; 26] = [
    "%a", "%b", "=", ":", ",", "(", ")", "i8", "0", "1", "-", "var", "add", "hole", "zext", "block", "phi", "pc",
    "blockpc", "infer", "result", "cand", "knownBits=0", "knownBits", "nonZero", "%",
];

#[rustfmt::skip]
const OF_ATTRIBUTES: [&str; 24] = [
    "(", ")", "[", "=", ",", "0", "1", "-1", "-", "256", "170141183460469231731687303715884105728", "knownBits=1",
    "knownBits", "knownBits=", "nonZero", "signBits", "range", "demandedBits", "harvestedFromUse", "x", "%a", "infer",
    ";", "%",
];

/// A beginning, and the tokens that sequences behind it are made of.
const BEGINNINGS: [(&str, &[&str]); 16] = [
    ("", &WORDS),
    ("%a = var ", &WORDS),
    ("%a = block 1 ", &WORDS),
    ("%a = block 2 %b = phi %a, ", &WORDS),
    ("%a = block 0 %b = phi %a ", &WORDS),
    ("%a = ", &WORDS),
    ("%a = add 1 ", &WORDS),
    ("%a = var infer %a ", &WORDS),
    ("%a = block 1 blockpc %a ", &WORDS),
    ("pc ", &WORDS),
    ("result ", &WORDS),
    ("cand 1 ", &WORDS),
    ("%a = var ( ", &OF_ATTRIBUTES),
    ("%a = var (range=[0 ", &OF_ATTRIBUTES),
    ("%a = var infer %a ( ", &OF_ATTRIBUTES),
    ("cand 1 2 (demandedBits ", &OF_ATTRIBUTES),
];

/// Bytes at the edges of the ranges that well-formed sequences are told by, and of white space.
#[rustfmt::skip]
const EDGES: [u8; 26] = [
    0x00, 0x20, b'%', b'a', 0x7F, 0x80, 0x85, 0x8F, 0x90, 0x9A, 0x9F, 0xA0, 0xBF, 0xC0, 0xC1, 0xC2, 0xDF, 0xE0, 0xE1,
    0xE2, 0xED, 0xEF, 0xF0, 0xF4, 0xF5, 0xFF,
];

/// Gives every sequence of up to so many tokens behind each beginning, once with a space between them and once without;
/// behind the empty beginning one token more.
pub fn token_texts(tokens: usize, give: &mut impl FnMut(&[u8])) {
    for (beginning, alphabet) in BEGINNINGS {
        let length = if beginning.is_empty() { tokens + 1 } else { tokens };
        for space in ["", " "] {
            let mut sequences = Sequences { text: beginning.as_bytes().to_vec(), alphabet, space, give };
            sequences.longer(length, true);
        }
    }
}

struct Sequences<'a, F: FnMut(&[u8])> {
    text: Vec<u8>,
    alphabet: &'a [&'a str],
    space: &'a str,
    give: &'a mut F,
}

impl<F: FnMut(&[u8])> Sequences<'_, F> {
    /// Gives the text and every one with up to so many tokens more.
    fn longer(&mut self, tokens: usize, first: bool) {
        (self.give)(&self.text);
        if tokens == 0 {
            return;
        }
        let before = self.text.len();
        for token in self.alphabet {
            if !first {
                self.text.extend_from_slice(self.space.as_bytes());
            }
            self.text.extend_from_slice(token.as_bytes());
            self.longer(tokens - 1, false);
            self.text.truncate(before);
        }
    }
}

/// Gives a text and every one with up to so many bytes of `EDGES` more.
pub fn byte_texts(text: &mut Vec<u8>, bytes: usize, give: &mut impl FnMut(&[u8])) {
    give(text);
    if bytes == 0 {
        return;
    }
    for byte in EDGES {
        text.push(byte);
        byte_texts(text, bytes - 1, give);
        text.pop();
    }
}
