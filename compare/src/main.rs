//! The command line: run, sample, tokens, speed.
use compare::counting::Counting;
use compare::{lexer, run, sample, speed};
use std::io::Read;
use std::{env, path::Path, process::exit};

#[global_allocator]
static ALLOCATOR: Counting = Counting;

const USAGE: &str = "\
compare run [--texts N] [--tables M] [--files F] [--seed S] [--tokens K]
                                                               compare many texts, damaged tables and damaged files; status 1
                                                               where any differ
compare sample [FOLDER]                                        write the fixed sample to FOLDER/stdin and FOLDER/stdout
compare tokens                                                 show the tokens of standard input, KIND FIRST PAST
compare speed [--rounds N]                                     time reading and printing";

fn main() {
    let words: Vec<String> = env::args().skip(1).collect();
    match words.first().map(String::as_str) {
        Some("run") => {
            let plan = run::Plan {
                texts: option(&words, "--texts", 200_000),
                seed: option(&words, "--seed", 1),
                tokens: option(&words, "--tokens", 2) as usize,
                tables: option(&words, "--tables", 200_000),
                files: option(&words, "--files", 200_000),
            };
            exit(if run::run(&plan) == 0 { 0 } else { 1 })
        }
        Some("sample") => {
            let folder = words.get(1).map_or("sample", String::as_str);
            if let Err(fault) = sample::write(Path::new(folder)) {
                eprintln!("{}: {}", folder, fault);
                exit(1)
            }
        }
        Some("tokens") => tokens(),
        Some("speed") => speed::speed(option(&words, "--rounds", 100) as usize),
        _ => {
            eprintln!("{}", USAGE);
            exit(2)
        }
    }
}

/// The number behind an option, or what it is without.
fn option(words: &[String], name: &str, without: u64) -> u64 {
    let Some(at) = words.iter().position(|word| word == name) else { return without };
    words.get(at + 1).and_then(|word| word.parse().ok()).unwrap_or_else(|| {
        eprintln!("{}", USAGE);
        exit(2)
    })
}

fn tokens() {
    let mut text = vec![];
    std::io::stdin().read_to_end(&mut text).unwrap();
    if let Some(place) = lexer::first_bad_sequence(&text) {
        return println!("not well-formed UTF-8 at {}", place);
    }
    let (found, refusal) = lexer::tokens(&text);
    found.iter().for_each(|token| println!("{:?} {} {}", token.kind, token.first, token.past));
    if let Some(place) = refusal {
        println!("refused at {}", place);
    }
}
