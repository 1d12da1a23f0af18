//! Texts damaged: bytes dropped, doubled, swapped, cut off, put in from a list of nasty pieces.
use crate::random::Random;

/// Pieces that a careless reader trips over.
#[rustfmt::skip]
pub const NASTY: [&[u8]; 76] = [
    b"%", b"%%", b"%.", b"-", b"--", b"-0", b"+1", b"0x10", b"1e5", b"=", b"==", b":", b"::", b",", b",,", b"(", b")",
    b"[", b"]", b"{", b"'", b"\"", b";", b";\n", b";;", b"\n", b"\r", b"\r\n", b"\t", b"\x0b", b"\x0c", b" ", b"\0",
    b"\x1c", b"\x7f", b".", b"_", b"a", b"x", b"i", b"i0", b"i8", b":i0", b":i65535", b":i65536", b":i00000008",
    b"knownBits", b"knownBits=", b"knownBits=x", b"knownBits =0", b"knownBits=2", b"knownBitsx", b"knownBits.",
    b"(knownBits=01x)", b"(demandedBits=01)", b"(demandedBits=012)", b"(range=[0,4))", b"(range=[0,4)",
    b"(signBits=256)", b"170141183460469231731687303715884105727", b"170141183460469231731687303715884105728",
    b"-170141183460469231731687303715884105728", b"\xC2\x85", b"\xC2\xA0", b"\xE1\x9A\x80", b"\xE2\x80\x8B",
    b"\xE3\x80\x80", b"\xEF\xBB\xBF", b"\xF0\x9F\x98\x80", b"infer %0", b" result 1 ", b" cand 1 2 ", b" pc 1 1 ",
    b" blockpc %bb 0 1 1 ", b" block 2 ", b" phi %bb, 1, 2 ",
];

/// Bytes and sequences that are not well-formed UTF-8.
#[rustfmt::skip]
pub const BAD_SEQUENCES: [&[u8]; 14] = [
    b"\x80", b"\xBF", b"\xC0\x80", b"\xC1\xBF", b"\xC2", b"\xE0\x80\x80", b"\xE0\x9F\xBF", b"\xE2\x80",
    b"\xED\xA0\x80", b"\xF0\x80\x80\x80", b"\xF0\x9F\x98", b"\xF4\x90\x80\x80", b"\xF5\x80\x80\x80", b"\xFF",
];

/// Damages a text in one place.
pub fn damage(random: &mut Random, text: &mut Vec<u8>) {
    let at = random.below(text.len() + 1);
    let near = (at + 1 + random.below(8)).min(text.len());
    match random.below(12) {
        0 if at < text.len() => drop(text.remove(at)),
        1 if at < text.len() => text.insert(at, text[at]),
        2 if at + 1 < text.len() => text.swap(at, at + 1),
        3 => text.truncate(at),
        4 => drop(text.drain(..at)),
        5 if at < text.len() => text[at] = random.below(128) as u8,
        6 => drop(text.drain(at..near)),
        7 => {
            let part = text[at..near].to_vec();
            text.splice(at..at, part);
        }
        8 if random.chance(500) => insert(text, at, random.one(&BAD_SEQUENCES)),
        _ => insert(text, at, random.one(&NASTY)),
    }
}

fn insert(text: &mut Vec<u8>, at: usize, piece: &[u8]) {
    text.splice(at..at, piece.iter().copied());
}
