//! Lexing a text as it arrives.
use crate::raw;
use crate::refusal::Refusal;

/// What the lexing of a text came to.
#[derive(Clone, Copy, Debug, PartialEq, Eq, Hash)]
pub struct Lexed {
    /// How many tokens stand before the refusal, or in all; 0 for a refusal of 1 or 2.
    pub tokens: u64,
    /// Why the text is refused, if it is: 1, then 2, then the earlier of 3 and 16.
    pub refusal: Option<Refusal>,
}

/// A lexer that is fed a text in parts of any length and at the end says what it came to. It holds a few words, whatever the text;
/// however the text is cut, the answer is the same.
///
/// ```
/// use peldarox::{LexStream, Lexed, Refusal};
///
/// let mut stream = LexStream::new();
/// for byte in b"%a knownBits =0" {
///     stream.feed(&[*byte]);
/// }
/// assert_eq!(stream.finish(), Lexed { tokens: 1, refusal: Some(Refusal { number: 3, place: 12 }) });
/// ```
///
/// With the feature `std` it is a [`std::io::Write`], so that what a reader brings can be copied into it; it never fails.
#[derive(Clone, Debug)]
pub struct LexStream {
    state: [u64; raw::LEXER_WORDS],
}

impl LexStream {
    /// A lexer before the first byte of a text.
    pub fn new() -> Self {
        let mut state = [0; raw::LEXER_WORDS];
        raw::lex_start(&mut state).expect("the state has its words");
        LexStream { state }
    }

    /// Feeds the next part of the text.
    pub fn feed(&mut self, part: &[u8]) {
        raw::lex_part(&mut self.state, part).expect("the state has its words");
    }

    /// What the text comes to where it ends here.
    pub fn finish(self) -> Lexed {
        raw::lex_end(&self.state).expect("the state has its words")
    }
}

impl Default for LexStream {
    fn default() -> Self {
        LexStream::new()
    }
}

/// Every part is taken whole.
#[cfg(feature = "std")]
impl std::io::Write for LexStream {
    fn write(&mut self, part: &[u8]) -> std::io::Result<usize> {
        self.feed(part);
        Ok(part.len())
    }

    fn flush(&mut self) -> std::io::Result<()> {
        Ok(())
    }
}
