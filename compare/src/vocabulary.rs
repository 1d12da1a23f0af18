//! The integers, types, names, attributes and spaces that generated texts are made of.

/// Integers of every field, at its limits, past them, and malformed.
#[rustfmt::skip]
pub const INTEGERS: [&str; 30] = [
    "0", "1", "-1", "2", "7", "10", "-0", "00", "007", "-007", "127", "128", "255", "256", "65535", "65536",
    "4294967295", "4294967296", "18446744073709551615", "18446744073709551616",
    "170141183460469231731687303715884105727", "-170141183460469231731687303715884105728",
    "00000000170141183460469231731687303715884105727", "-00000000170141183460469231731687303715884105728",
    "170141183460469231731687303715884105728", "-170141183460469231731687303715884105729",
    "340282366920938463463374607431768211456", "99999999999999999999999999999999999999999", "-", "-00",
];

/// How many of `INTEGERS`, from the first on, are read where 128 bits are asked for.
pub const GOOD_INTEGERS: usize = 24;

/// Types at their limits, past them, and malformed.
#[rustfmt::skip]
pub const TYPES: [&str; 20] = [
    "i1", "i8", "i32", "i64", "i128", "i65535", "i08", "i0000000008", "i065535", "i0", "i00", "i65536", "i99999",
    "i340282366920938463463374607431768211457", "i", "I8", "ix", "i8x", "i8.", "i_",
];

/// How many of `TYPES`, from the first on, are types.
pub const GOOD_TYPES: usize = 9;

/// Names of all letters, some of them spelt like words.
#[rustfmt::skip]
pub const NAMES: [&str; 40] = [
    "%0", "%1", "%2", "%3", "%4", "%5", "%6", "%7", "%8", "%9", "%00", "%01", "%10", "%a", "%b", "%c", "%x", "%y",
    "%A", "%Z", "%_", "%.", "%..", "%a.b", "%a.", "%.a", "%a_b", "%var", "%infer", "%cand", "%knownBits", "%i8",
    "%block", "%phi", "%add", "%12lx", "%bb", "%p", "%q", "%averyverylongname.with_all.0123456789",
];

/// The attributes that are a word alone.
pub const WORD_ATTRIBUTES: [&str; 5] = ["powerOfTwo", "negative", "nonNegative", "nonZero", "hasExternalUses"];

/// Every character that Rust takes for white space.
#[rustfmt::skip]
pub const WHITE_SPACE: [char; 25] = [
    '\t', '\n', '\u{B}', '\u{C}', '\r', ' ', '\u{85}', '\u{A0}', '\u{1680}', '\u{2000}', '\u{2001}', '\u{2002}',
    '\u{2003}', '\u{2004}', '\u{2005}', '\u{2006}', '\u{2007}', '\u{2008}', '\u{2009}', '\u{200A}', '\u{2028}',
    '\u{2029}', '\u{202F}', '\u{205F}', '\u{3000}',
];
