//! Texts that are lexed as they arrive: in every two parts, byte by byte and whole.
use peldarox::{raw, LexStream, Lexed, Refusal};
use std::io::Write;

fn lexed(tokens: u64, number: u32, place: u64) -> Lexed {
    Lexed { tokens, refusal: (number != 0).then_some(Refusal { number, place }) }
}

fn in_parts<'a>(parts: impl IntoIterator<Item = &'a [u8]>) -> Lexed {
    let mut stream = LexStream::new();
    parts.into_iter().for_each(|part| stream.feed(part));
    stream.finish()
}

/// Texts and what they come to: the worked examples, and tokens and texts about the limits.
fn examples() -> Vec<(Vec<u8>, Lexed)> {
    let letters = |n: usize| vec![b'a'; n];
    let join = |parts: &[&[u8]]| parts.concat();
    vec![
        (vec![], lexed(0, 0, 0)),
        (b"%a = var".to_vec(), lexed(3, 0, 0)),
        (b"%".to_vec(), lexed(0, 3, 0)),
        (b"-1".to_vec(), lexed(1, 0, 0)),
        (b"knownBits".to_vec(), lexed(0, 3, 8)),
        (b"knownBitsx".to_vec(), lexed(1, 0, 0)),
        (b"knownBits =0".to_vec(), lexed(0, 3, 9)),
        (b"knownBits=".to_vec(), lexed(0, 3, 10)),
        (b"\xE2\x80\x83".to_vec(), lexed(0, 0, 0)),
        (b"\xE2\x80".to_vec(), lexed(0, 2, 0)),
        (b"\xC3\xA9".to_vec(), lexed(0, 3, 0)),
        (b"; \xC3".to_vec(), lexed(0, 2, 2)),
        (b"%1=var %0 = var pc %0 1 %2:i08=add %1, -0 cand %2 007".to_vec(), lexed(20, 0, 0)),
        (letters(4096), lexed(1, 0, 0)),
        (letters(4097), lexed(0, 16, 0)),
        (join(&[b"x ", &letters(4097)]), lexed(1, 16, 2)),
        (join(&[b"knownBits=", &[b'0'; 4087]]), lexed(0, 16, 0)),
        (join(&[&letters(4097), b"\xFF"]), lexed(0, 2, 4097)),
    ]
}

#[test]
fn every_two_parts() {
    for (text, answer) in examples() {
        for at in 0..=text.len() {
            assert_eq!(in_parts([&text[..at], &text[at..]]), answer, "cut at {} of {:?}", at, text);
        }
    }
}

#[test]
fn byte_by_byte() {
    for (text, answer) in examples() {
        assert_eq!(in_parts(text.chunks(1)), answer, "{:?}", text);
    }
}

#[test]
fn about_the_longest_text() {
    let spaces = vec![b' '; 65_537];
    assert_eq!(in_parts([&spaces[..65_536]]), lexed(0, 0, 0));
    assert_eq!(in_parts([&spaces[..]]), lexed(0, 1, 65_536));
    assert_eq!(in_parts(spaces.chunks(1000)), lexed(0, 1, 65_536));
    assert_eq!(in_parts([&b"\xFF"[..], &spaces[..65_536]]), lexed(0, 1, 65_536));
}

#[test]
fn is_written_to() {
    let mut stream = LexStream::default();
    std::io::copy(&mut &b"%a = var\ninfer %a\n"[..], &mut stream).unwrap();
    write!(stream, "cand {} {}", 1, 2).unwrap();
    assert_eq!(stream.finish(), lexed(8, 0, 0));
}

#[test]
fn a_copy_goes_its_own_way() {
    let mut stream = LexStream::new();
    stream.feed(b"knownBits");
    let copy = stream.clone();
    stream.feed(b"=1");
    assert_eq!(copy.finish(), lexed(0, 3, 8));
    assert_eq!(stream.finish(), lexed(1, 0, 0));
}

#[test]
fn words_of_the_state() {
    let few = Refusal { number: 9, place: raw::LEXER_WORDS as u64 };
    let mut state = [7; raw::LEXER_WORDS + 2];
    let short = raw::LEXER_WORDS - 1;
    assert_eq!(raw::lex_start(&mut state[..short]), Err(few));
    assert_eq!(raw::lex_part(&mut state[..short], b"%a"), Err(few));
    assert_eq!(raw::lex_end(&state[..short]), Err(few));
    assert_eq!(state, [7; raw::LEXER_WORDS + 2]);
    raw::lex_start(&mut state).unwrap();
    raw::lex_part(&mut state, b"%a, 1").unwrap();
    let before = state;
    assert_eq!(raw::lex_end(&state), Ok(lexed(3, 0, 0)));
    assert_eq!((state, &state[raw::LEXER_WORDS..]), (before, &[7, 7][..]));
}
