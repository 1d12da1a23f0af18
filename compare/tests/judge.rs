//! The judge of prints and names passes a printer that does as the rules say, and fails each of some that slip.
use compare::answer::*;
use compare::judge::{Calls, Case, Name, Print};
use compare::library::Report;
use compare::memory::{Edge, Memory};
use compare::rows::LAST_ASSIGNMENT;
use compare::table_run;
use compare::tables::Tables;

/// How many damaged tables each is tried on.
const TRIED: u64 = 30_000;

fn tables_of(text: &[u8], tables: [&[u32]; 4], counts: Rows) -> Tables {
    Tables { text: text.to_vec(), words: tables.map(|words| words.to_vec()), counts }
}

/// A print by the model.
fn print(text: &[u8], tables: [&[u32]; 4], counts: Rows, work: &mut [u32], output: &mut [u8]) -> Report {
    let tables = tables_of(text, tables, counts);
    let Some(print) = Case::of(&tables).print else { return [NOT_WELL_FORMED, 0, 0, 0, 0, 0] };
    if work.len() < tables.work_words() {
        return [WORK_TOO_SHORT, tables.work_words() as u64, 0, 0, 0, 0];
    }
    work.fill(0);
    if output.len() < print.len() {
        return [OUTPUT_TOO_SHORT, print.len() as u64, 0, 0, 0, 0];
    }
    output[..print.len()].copy_from_slice(&print);
    [ACCEPTED, print.len() as u64, 0, 0, 0, 0]
}

/// A name by the model.
fn name(text: &[u8], tables: [&[u32]; 4], counts: Rows, row: u64) -> Report {
    let tables = tables_of(text, tables, counts);
    if Case::of(&tables).print.is_none() || row >= counts[STATEMENTS] {
        return [0; 6];
    }
    let statement = tables.statement(row as usize);
    if statement.code > LAST_ASSIGNMENT {
        return [0; 6];
    }
    [0, statement.name.first as u64, statement.name.long() as u64, 0, 0, 0]
}

fn differences(calls: Calls) -> u64 {
    table_run::run(TRIED, 5, Some(calls), &mut Memory::new()).differences
}

#[test]
fn the_model_passes() {
    assert_eq!(differences(Calls { print, name }), 0);
}

#[test]
fn a_word_of_the_work_area_left_is_seen() {
    let print: Print = |text, tables, counts, work, output| {
        let report = print(text, tables, counts, work, output);
        if report[0] == OUTPUT_TOO_SHORT {
            *work.last_mut().unwrap() = 1;
        }
        report
    };
    assert!(differences(Calls { print, name }) > 0);
}

#[test]
fn a_work_area_cleared_too_early_is_seen() {
    let print: Print = |text, tables, counts, work, output| {
        work.fill(0);
        print(text, tables, counts, work, output)
    };
    assert!(differences(Calls { print, name }) > 0);
}

#[test]
fn a_byte_past_the_print_is_seen() {
    let print: Print = |text, tables, counts, work, output| {
        let report = print(text, tables, counts, work, output);
        if report[0] == ACCEPTED {
            output.iter_mut().skip(report[1] as usize).for_each(|byte| *byte = 0);
        }
        report
    };
    assert!(differences(Calls { print, name }) > 0);
}

#[test]
fn counts_cut_to_32_bits_are_seen() {
    let print: Print =
        |text, tables, counts, work, output| print(text, tables, counts.map(|count| count as u32 as u64), work, output);
    assert!(differences(Calls { print, name }) > 0);
}

#[test]
fn an_unused_word_passed_over_is_seen() {
    let print: Print = |text, tables, counts, work, output| {
        let counted = |table: usize| (counts[table] as usize).saturating_mul(ROW_WORDS[table]);
        let whole = std::array::from_fn(|table| &tables[table][..tables[table].len().min(counted(table))]);
        print(text, whole, counts, work, output)
    };
    assert!(differences(Calls { print, name }) > 0);
}

#[test]
fn a_name_of_malformed_tables_is_seen() {
    let name: Name = |text, tables, counts, row| {
        let tables = tables_of(text, tables, counts);
        if row >= counts[STATEMENTS] || (row as usize + 1) * ROW_WORDS[STATEMENTS] > tables.words[STATEMENTS].len() {
            return [0; 6];
        }
        let name = tables.statement(row as usize).name;
        [0, name.first as u64, name.past.saturating_sub(name.first) as u64, 0, 0, 0]
    };
    assert!(differences(Calls { print, name }) > 0);
}

/// Reads the byte behind a lent part.
#[test]
#[ignore = "ends the program; run by the test below"]
fn touches_the_byte_behind() {
    let mut memory = Memory::new();
    let part = memory.text.bytes(3, Edge::Back);
    // SAFETY: none; the page behind cannot be touched, and the handler ends the program.
    println!("{}", unsafe { part.as_ptr().add(3).read_volatile() });
}

#[test]
fn a_touch_of_what_is_not_lent_ends_the_program() {
    let mut program = std::process::Command::new(std::env::current_exe().unwrap());
    let ended = program.args(["--exact", "touches_the_byte_behind", "--ignored"]).output().unwrap();
    assert_eq!(ended.status.code(), Some(1));
    assert!(String::from_utf8_lossy(&ended.stderr).contains("memory was touched that was not lent"));
}
