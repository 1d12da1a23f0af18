//! The proved library, where it is linked, on one text: its readings at any capacities, its store and load, its print with any
//! room, its names, and its print read back.
use crate::answer::*;
use crate::judge::Case;
use crate::library::{PRINTS, READS};
use crate::memory::Memory;
use crate::model::Reading;
use crate::our_prints::wrong_printing;
use crate::our_reads::{wrong_at_smaller, wrong_read};
use crate::our_stores::wrong_storing;
use crate::store_library::STORES;
use crate::tables::Tables;

/// What is wrong with the library's readings and prints of a text, against the model's reading and the crate's print.
pub fn wrong(entry: Entry, text: &[u8], reading: &Reading, print: &[u8], memory: &mut Memory) -> Option<String> {
    memory.turn();
    let tables = accepted_tables(text, reading);
    if let Some(tables) = &tables {
        let fault = wrong_model(tables, print);
        if fault.is_some() {
            return fault;
        }
    }
    if !READS {
        return None;
    }
    let enough = if text.len() > LONGEST { [3; 4] } else { [text.len() as u64; 4] };
    wrong_read(entry, text, reading, tables.as_ref(), enough, memory)
        .or_else(|| wrong_at_smaller(entry, text, reading, tables.as_ref(), memory))
        .or_else(|| match &tables {
            Some(tables) if STORES => wrong_storing(tables, memory),
            _ => None,
        })
        .or_else(|| match tables {
            Some(tables) if PRINTS => wrong_printing(entry, tables, memory),
            _ => None,
        })
}

/// The tables that a reading leaves where it is accepted.
fn accepted_tables(text: &[u8], reading: &Reading) -> Option<Tables> {
    (reading.end.number == ACCEPTED).then(|| Tables::of(text, reading))
}

/// What is wrong with the model's tables: they are well formed, and their print is the crate's.
fn wrong_model(tables: &Tables, print: &[u8]) -> Option<String> {
    match Case::of(tables).print {
        None => Some("the model takes what it has read for not well formed".to_string()),
        Some(said) if said != print => Some(format!("the model's tables print {:?}", String::from_utf8_lossy(&said))),
        _ => None,
    }
}
