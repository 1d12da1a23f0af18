//! Files damaged: each byte of the trailer and each word of the rows in turn, cut and lengthened anywhere, borders of parts moved; and
//! by chance several of these at once.
use crate::random::Random;
use crate::stored::TRAILER;

/// Gives files with one change each.
pub fn one_change(file: &[u8], letters: usize, give: &mut impl FnMut(&[u8])) {
    each_byte(file, file.len() - TRAILER..file.len(), give);
    each_word(file, letters, give);
    lengths(file, give);
    borders(file, give);
}

/// Every byte of a range, at the edges of a byte and at its neighbours.
fn each_byte(file: &[u8], range: std::ops::Range<usize>, give: &mut impl FnMut(&[u8])) {
    let mut changed = file.to_vec();
    for at in range {
        let old = file[at];
        for value in [0, 1, 4, 0x80, 0xFF, old.wrapping_add(1), old.wrapping_sub(1), old.wrapping_add(4), old ^ 0x80] {
            changed[at] = value;
            give(&changed);
        }
        changed[at] = old;
    }
}

/// Every word of the rows and of the trailer, at the edges of fields and at its neighbours.
fn each_word(file: &[u8], letters: usize, give: &mut impl FnMut(&[u8])) {
    let mut changed = file.to_vec();
    for at in (letters..file.len() - 3).step_by(4) {
        let bytes: [u8; 4] = file[at..at + 4].try_into().unwrap();
        let old = u32::from_le_bytes(bytes);
        let near = [old.wrapping_add(1), old.wrapping_sub(1), old.swap_bytes(), old ^ 0x8000_0000];
        for value in [0, 1, 2, 65_535, 65_536, u32::MAX, file.len() as u32].into_iter().chain(near) {
            changed[at..at + 4].copy_from_slice(&value.to_le_bytes());
            give(&changed);
        }
        changed[at..at + 4].copy_from_slice(&bytes);
    }
}

/// The file cut at every place, from either end, and with a byte or a row more at every place.
fn lengths(file: &[u8], give: &mut impl FnMut(&[u8])) {
    for at in 0..=file.len() {
        give(&file[..at]);
        give(&file[at..]);
        for more in [1, 4, 28, 36, 40, 44] {
            give(&[&file[..at], &vec![0; more], &file[at..]].concat());
        }
    }
}

/// Words of the trailer moved together: a part longer by some bytes and another shorter, its neighbours' starts with it or not.
fn borders(file: &[u8], give: &mut impl FnMut(&[u8])) {
    let trailer = file.len() - TRAILER;
    for by in [1, 4, 28, 36, 40, 44, 252, 360] {
        for part in 0..5 {
            for other in 0..5 {
                let mut changed = file.to_vec();
                add(&mut changed, trailer + 8 * part + 4, by);
                add(&mut changed, trailer + 8 * other + 4, 0u32.wrapping_sub(by));
                give(&changed);
                for moved in part.min(other) + 1..=part.max(other) {
                    let change = if part < other { by } else { 0u32.wrapping_sub(by) };
                    add(&mut changed, trailer + 8 * moved, change);
                }
                give(&changed);
            }
        }
    }
}

/// Adds to the word at a place, wrapping.
fn add(file: &mut [u8], at: usize, by: u32) {
    let word: &mut [u8] = &mut file[at..at + 4];
    let old = u32::from_le_bytes((&*word).try_into().unwrap());
    word.copy_from_slice(&old.wrapping_add(by).to_le_bytes());
}

/// Damages a file by chance.
pub fn damage(random: &mut Random, file: &mut Vec<u8>) {
    let at = random.below(file.len() + 1);
    match random.below(6) {
        0 => file.truncate(at),
        1 => file.insert(at, random.below(256) as u8),
        2 if at + 4 <= file.len() => add(file, at, random.one(&[1, u32::MAX, 256, 65_536])),
        3 if file.len() >= TRAILER => {
            let word = file.len() - TRAILER + 4 * random.below(11);
            add(file, word, random.one(&[1, 4, u32::MAX, 36, 40, 28, 44, 1 << 31]))
        }
        _ if at < file.len() => file[at] = random.one(&[0, 1, 2, 0x7F, 0xFF, at as u8]),
        _ => file.push(0),
    }
}
