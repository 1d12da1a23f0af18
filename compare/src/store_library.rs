//! The proved library's calls for rules on disk, where they are linked. include/peldarox.h has their promises.
use crate::answer::*;
#[cfg(ours_store)]
use crate::library::{told, UNTOLD};

/// Whether a store and a load are linked.
pub const STORES: bool = cfg!(ours_store);

/// What a store and a load report.
pub type StoreReport = [u64; 8];

#[cfg(ours_store)]
#[rustfmt::skip]
extern "C" {
    fn peldarox_store(
        text: *const u8, text_bytes: usize, items: *const u32, item_words: usize, statements: *const u32,
        statement_words: usize, operands: *const u32, operand_words: usize, attributes: *const u32,
        attribute_words: usize, item_count: u64, statement_count: u64, operand_count: u64, attribute_count: u64,
        output: *mut u8, output_bytes: usize, report: *mut u64,
    );
    fn peldarox_load(
        file: *const u8, file_bytes: usize, text: *mut u8, text_bytes: usize, items: *mut u32, item_words: usize,
        statements: *mut u32, statement_words: usize, operands: *mut u32, operand_words: usize, attributes: *mut u32,
        attribute_words: usize, report: *mut u64,
    );
}

/// The library's report of storing a text and tables of these counts.
#[cfg(ours_store)]
#[rustfmt::skip]
pub fn store(text: &[u8], tables: [&[u32]; 4], counts: Rows, output: &mut [u8]) -> StoreReport {
    let mut report = [UNTOLD; 10];
    let [items, statements, operands, attributes] = tables;
    // SAFETY: every pointer is to as many words or bytes as the length behind it says; report is to nine words.
    unsafe {
        peldarox_store(
            text.as_ptr(), text.len(), items.as_ptr(), items.len(), statements.as_ptr(), statements.len(),
            operands.as_ptr(), operands.len(), attributes.as_ptr(), attributes.len(), counts[ITEMS],
            counts[STATEMENTS], counts[OPERANDS], counts[ATTRIBUTES], output.as_mut_ptr(), output.len(),
            report[1..].as_mut_ptr(),
        )
    }
    told(report)
}

/// The library's report of loading a file into a lent text and lent tables.
#[cfg(ours_store)]
#[rustfmt::skip]
pub fn load(file: &[u8], text: &mut [u8], tables: [&mut [u32]; 4]) -> StoreReport {
    let mut report = [UNTOLD; 10];
    let [items, statements, operands, attributes] = tables;
    // SAFETY: every pointer is to as many words or bytes as the length behind it says; report is to nine words.
    unsafe {
        peldarox_load(
            file.as_ptr(), file.len(), text.as_mut_ptr(), text.len(), items.as_mut_ptr(), items.len(),
            statements.as_mut_ptr(), statements.len(), operands.as_mut_ptr(), operands.len(), attributes.as_mut_ptr(),
            attributes.len(), report[1..].as_mut_ptr(),
        )
    }
    told(report)
}

#[cfg(not(ours_store))]
pub fn store(_: &[u8], _: [&[u32]; 4], _: Rows, _: &mut [u8]) -> StoreReport {
    unreachable!("the library's store is not linked")
}

#[cfg(not(ours_store))]
pub fn load(_: &[u8], _: &mut [u8], _: [&mut [u32]; 4]) -> StoreReport {
    unreachable!("the library's load is not linked")
}
