//! Texts that are lexed as they arrive: the library in many cuts, held against the model and, where no token is too long, against
//! the crate's own lexer.
use crate::answer::*;
use crate::library::{self, lex, LexCall, LexReport};
use crate::memory::{Edge, Guarded, CASE};
use crate::{damage, generate, lexer, random::Random, settled};
use souper_ir::parse::lexed;
use std::sync::atomic::Ordering;

/// How many words the state has. include/peldarox.h says so.
pub const LEXER_WORDS: usize = 14;

/// The longest token, in bytes.
pub const LONGEST_TOKEN: usize = 4096;

/// The number of a token that is too long.
const TOO_LONG_TOKEN: u64 = 16;

/// How many differences are shown.
const SHOWN: u64 = 10;

/// Up to so many bytes, a text is cut in two at every place.
const EVERY_CUT: usize = 48;

/// What stands in the state's words before a start, and behind them always.
const RUBBISH: u64 = 0xA5C3_0FF1_5EED_1E55;

/// Number, place and tokens, as eight words.
fn report(number: u64, place: usize, tokens: u64) -> LexReport {
    [number, place as u64, tokens, 0, 0, 0, 0, 0]
}

/// What a text comes to, from documents 01 and 02.
pub fn model(text: &[u8]) -> LexReport {
    if text.len() > LONGEST {
        return report(TOO_LONG, LONGEST, 0);
    }
    if let Some(place) = lexer::first_bad_sequence(text) {
        return report(NOT_UTF8, place, 0);
    }
    let (found, refusal) = lexer::tokens(text);
    match (found.iter().position(|token| token.past - token.first > LONGEST_TOKEN), refusal) {
        (Some(long), _) => report(TOO_LONG_TOKEN, found[long].first, long as u64),
        (None, Some(place)) => report(LEXER, place, found.len() as u64),
        (None, None) => report(ACCEPTED, 0, found.len() as u64),
    }
}

/// What the crate's lexer finds in a text, after the two tests that come before it is asked.
fn crates(text: &[u8]) -> LexReport {
    if text.len() > LONGEST {
        return report(TOO_LONG, LONGEST, 0);
    }
    match std::str::from_utf8(text) {
        Err(fault) => report(NOT_UTF8, fault.valid_up_to(), 0),
        Ok(text) => match lexed(text) {
            (tokens, Some(place)) => report(LEXER, place, tokens),
            (tokens, None) => report(ACCEPTED, 0, tokens),
        },
    }
}

/// Guarded memory for the state and a part, and what was compared.
struct Lent {
    state: Guarded,
    part: Guarded,
    edge: Edge,
    texts: u64,
    cuts: u64,
    differences: u64,
}

/// Compares texts in many cuts; answers how many differ.
pub fn run(texts: u64, seed: u64) -> u64 {
    let (state, part) = (Guarded::new((LEXER_WORDS + 4) * 8), Guarded::new(LONGEST + 1));
    let mut lent = Lent { state, part, edge: Edge::Back, texts: 0, cuts: 0, differences: 0 };
    let mut random = Random::new(seed);
    for (_, text, _, _) in settled::EXAMPLES.iter().chain(&settled::TRAPS) {
        lent.compare(text.as_bytes(), &mut random);
    }
    long_texts().iter().for_each(|text| lent.compare(text, &mut random));
    for _ in 0..texts {
        let entry = random.one(&ENTRIES);
        let mut text = generate::text(&mut random, entry, 3);
        for _ in 0..random.below(4) {
            damage::damage(&mut random, &mut text);
        }
        lent.compare(&text, &mut random);
    }
    if library::LEXES {
        lent.any_state(&mut random);
    }
    let linked =
        if library::LEXES { "crate, model and the library" } else { "crate and model; the library is not linked" };
    println!("\n{} texts lexed as they arrive, in {} cuts", lent.texts, lent.cuts);
    println!("compared: {}\ndifferences: {}", linked, lent.differences);
    lent.differences
}

/// Tokens of every kind and texts, all about as long as they may be.
fn long_texts() -> Vec<Vec<u8>> {
    let mut texts = vec![];
    for bytes in [LONGEST_TOKEN - 1, LONGEST_TOKEN, LONGEST_TOKEN + 1] {
        for (front, filler) in
            [("", b'a'), ("%", b'.'), ("-", b'1'), ("", b'9'), ("knownBits=", b'x'), ("knownBits", b'_')]
        {
            let token = [front.as_bytes(), &vec![filler; bytes - front.len()]].concat();
            texts.extend([token.clone(), [b"x ", &token[..], b",%"].concat(), [&token[..], b"\xFF"].concat()]);
        }
    }
    for bytes in [LONGEST - 1, LONGEST, LONGEST + 1] {
        for (filler, end) in
            [(&b" "[..], &b"%"[..]), (b",", b"knownBits"), (b"; ", b"\xE2\x80"), (b"\xE2\x80\x83", b"a")]
        {
            let mut text = filler.repeat(bytes / filler.len() + 1);
            text.truncate(bytes - end.len());
            texts.push([&text[..], end].concat());
        }
    }
    texts
}

impl Lent {
    /// Compares a text whole, byte by byte, at random places and, where it is short, in two at every place.
    fn compare(&mut self, text: &[u8], random: &mut Random) {
        self.texts += 1;
        CASE.store(self.texts, Ordering::Relaxed);
        self.edge = if self.edge == Edge::Back { Edge::Front } else { Edge::Back };
        let expected = model(text);
        if expected[0] != TOO_LONG_TOKEN && crates(text) != expected {
            self.differs(text, &format!("crate {:?}, model {:?}", crates(text), expected));
        }
        if !library::LEXES {
            return;
        }
        let places = |random: &mut Random, cuts: usize| {
            let mut places: Vec<usize> = (0..cuts).map(|_| random.below(text.len() + 1)).collect();
            places.sort();
            places
        };
        let mut cuts =
            vec![vec![], (1..text.len()).collect(), places(random, 2), places(random, 5), places(random, 40)];
        if text.len() <= EVERY_CUT {
            cuts.extend((0..=text.len()).map(|at| vec![at]));
        }
        for cut in cuts {
            let words = LEXER_WORDS + random.below(4);
            let said = self.library(text, &cut, words);
            if said != Ok(expected) {
                self.differs(text, &format!("{} cuts: {:?}, model {:?}", cut.len(), said, expected));
            }
        }
    }

    /// What the library reports of a text that is cut at these places; or what is wrong with what it leaves.
    fn library(&mut self, text: &[u8], cut: &[usize], words: usize) -> Result<LexReport, String> {
        self.cuts += 1;
        self.state.long_words(words, self.edge).fill(RUBBISH);
        self.call(words, LexCall::Start)?;
        let mut from = 0;
        for at in cut.iter().copied().chain([text.len()]) {
            self.call(words, LexCall::Part(&text[from..at]))?;
            from = at;
        }
        let before = self.state.long_words(words, self.edge).to_vec();
        let told = self.call(words, LexCall::End)?;
        if self.state.long_words(words, self.edge) != before {
            return Err("an end changes the state".to_string());
        }
        Ok(told)
    }

    /// One call, with the part in guarded memory; the words behind the state's must stay, and all that is beside what is lent.
    fn call(&mut self, words: usize, call: LexCall) -> Result<LexReport, String> {
        let (edge, mut bytes) = (self.edge, 0);
        let call = match call {
            LexCall::Part(part) => {
                bytes = part.len();
                self.part.bytes(bytes, edge).copy_from_slice(part);
                LexCall::Part(self.part.read_bytes(bytes, edge))
            }
            other => other,
        };
        let told = lex(self.state.long_words(words, edge), call);
        let ends = matches!(call, LexCall::End);
        if !self.state.is_whole(words * 8, edge) || (bytes > 0 && !self.part.is_whole(bytes, edge)) {
            return Err("memory beside what is lent is changed".to_string());
        }
        if words > LEXER_WORDS && self.state.long_words(words, edge)[LEXER_WORDS..].iter().any(|word| *word != RUBBISH)
        {
            return Err("words behind the state are changed".to_string());
        }
        if !ends && told != report(ACCEPTED, 0, 0) {
            return Err(format!("told before the end: {:?}", told));
        }
        Ok(told)
    }

    /// States of too few words, and states of any words.
    fn any_state(&mut self, random: &mut Random) {
        for words in 0..LEXER_WORDS {
            for call in [LexCall::Start, LexCall::Part(b"%a"), LexCall::End] {
                self.state.long_words(words, self.edge).fill(RUBBISH);
                let told = lex(self.state.long_words(words, self.edge), call);
                let same = self.state.long_words(words, self.edge).iter().all(|word| *word == RUBBISH);
                if told != report(WORK_TOO_SHORT, LEXER_WORDS, 0) || !same {
                    self.differs(b"", &format!("{} words: {:?}", words, told));
                }
            }
        }
        let words = LEXER_WORDS + 1;
        for _ in 0..100_000 {
            for word in self.state.long_words(words, self.edge)[..LEXER_WORDS].iter_mut() {
                *word = match random.below(4) {
                    0 => random.below(12) as u64,
                    1 => random.below(70_000) as u64,
                    2 => random.bits(),
                    _ => u64::MAX - random.below(12) as u64,
                };
            }
            self.state.long_words(words, self.edge)[LEXER_WORDS] = RUBBISH;
            let text: Vec<u8> = (0..random.below(6)).map(|_| random.one(b"k%=0a ;,\xE2\x80\x83")).collect();
            let said = self.call(words, LexCall::Part(&text)).and_then(|_| self.call(words, LexCall::End));
            if let Err(fault) = said {
                self.differs(&text, &fault);
            }
        }
    }

    fn differs(&mut self, text: &[u8], how: &str) {
        self.differences += 1;
        if self.differences <= SHOWN {
            println!("lexed {:?}: {}", String::from_utf8_lossy(&text[..text.len().min(200)]), how);
        }
    }
}
