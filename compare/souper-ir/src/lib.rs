//! The crate souper-ir 2.1.0, built from a copy of its published source. Its own text is not kept here: build.rs fetches
//! the three modules, and adds to `parse` a way to read a fault's byte offset, `ParseError::fault_offset`, and one to count
//! the tokens that its lexer finds, `lexed`.
#![allow(warnings)]

include!(concat!(env!("OUT_DIR"), "/modules.rs"));
