//! Times the lexing of a text that arrives in parts, beside the crate's lexer on the whole text: nanoseconds a byte, least of many rounds.
use crate::lexing::{model, LEXER_WORDS};
use crate::library::{self, lex, LexCall, LexReport};
use crate::speed::{a_byte, least, File};
use souper_ir::parse::lexed;
use std::hint::black_box;

/// The parts that a text comes in, in bytes; the first is the whole.
const PARTS: [usize; 4] = [usize::MAX, 4096, 16, 1];

/// Times every file and shows the table.
pub(crate) fn speed(files: &[File], rounds: impl Fn(&File) -> usize) {
    if !library::LEXES {
        return println!("\nThe library's calls that lex are not linked.");
    }
    println!(
        "\n| lex                                   |  bytes |  crate, whole |  whole | by 4,096 |  by 16 |   by 1 |"
    );
    println!(
        "|---------------------------------------|-------:|--------------:|-------:|---------:|-------:|-------:|"
    );
    for file in files {
        let (text, rounds) = (&file.text[..], rounds(file));
        let whole = least(rounds, || lexed(std::str::from_utf8(black_box(text)).unwrap()));
        let ours = PARTS.map(|bytes| least(rounds, || in_parts(black_box(text), bytes)));
        PARTS.iter().for_each(|bytes| assert_eq!(in_parts(text, *bytes), model(text)));
        let [one, page, few, single] = ours.map(|time| a_byte(time, text.len()));
        println!(
            "| {:<37} | {:>6} | {:>13} | {:>6} | {:>8} | {:>6} | {:>6} |",
            file.name,
            text.len(),
            a_byte(whole, text.len()),
            one,
            page,
            few,
            single
        );
    }
}

/// The report of a text that comes in parts of so many bytes.
fn in_parts(text: &[u8], bytes: usize) -> LexReport {
    let mut state = [0; LEXER_WORDS];
    lex(&mut state, LexCall::Start);
    text.chunks(bytes).for_each(|part| {
        lex(&mut state, LexCall::Part(part));
    });
    lex(&mut state, LexCall::End)
}
