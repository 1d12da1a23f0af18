//! Reads and prints [Souper IR](https://github.com/google/souper) by a library that is proved: whatever text it is lent, a call
//! ends with an answer from a fixed table, and reading and printing equal a definition written from the rules. This crate is the
//! thin, unproved layer over that library's C calls.
//!
//! ```
//! use peldarox::parse_replacements_str;
//!
//! let rules = parse_replacements_str(
//!     "%local = var   ; minutes, as the clock shows them
//!      %back = add %local, -1
//!      cand %back -1",
//! )?;
//! assert_eq!(rules.to_string(), "%local = var\n%back = add %local, -1\ncand %back -1\n");
//! # Ok::<(), peldarox::Refusal>(())
//! ```
//!
//! A text that is refused names the fault by a number and the byte where it is:
//!
//! ```
//! use peldarox::{parse_replacements_str, Refusal};
//!
//! let refusal = parse_replacements_str("%0 = add %0, 1").unwrap_err();
//! assert_eq!(refusal, Refusal { number: 6, place: 9 });
//! assert_eq!(refusal.to_string(), "refused 6 at 9: a name is unknown, defined twice, or no block where one is needed");
//! ```
//!
//! Two lists are equal when they mean the same, however they are spaced and whatever else stands in them:
//!
//! ```
//! use peldarox::parse_left_hand_sides_str;
//!
//! let one = parse_left_hand_sides_str("%a:i08=var infer %a")?;
//! let other = parse_left_hand_sides_str("%unused = var\n%a:i8 = var\npc %unused 1\ninfer %a\n")?;
//! assert_eq!(one, other);
//! # Ok::<(), peldarox::Refusal>(())
//! ```
//!
//! A text that arrives in parts is lexed by a [`LexStream`], in memory of a fixed size and however it is cut:
//!
//! ```
//! use peldarox::{LexStream, Lexed};
//! use std::io::Write;
//!
//! let mut stream = LexStream::new();
//! stream.write_all(b"%a = va")?;
//! stream.write_all(b"r")?;
//! assert_eq!(stream.finish(), Lexed { tokens: 3, refusal: None });
//! # Ok::<(), std::io::Error>(())
//! ```
//!
//! A list that was read is kept as a file, and loaded from it without reading the text again:
//!
//! ```
//! use peldarox::{parse_replacements_str, LeftHandSides, Replacements, StoredError};
//!
//! let rules = parse_replacements_str("%a = var cand %a 1")?;
//! let file = rules.to_stored();
//! assert_eq!(Replacements::from_stored(&file), Ok(rules));
//! assert_eq!(LeftHandSides::from_stored(&file), Err(StoredError::OtherKind { item: 0 }));
//! # Ok::<(), peldarox::Refusal>(())
//! ```
//!
//! Where there is no heap, [`raw`] has the same calls over memory that the caller lends, and the feature `std` is left out.
#![cfg_attr(not(feature = "std"), no_std)]
#![warn(missing_docs)]

mod lexing;
#[cfg(feature = "std")]
mod lists;
pub mod raw;
mod refusal;
#[cfg(feature = "std")]
mod stored;

pub use lexing::{LexStream, Lexed};
#[cfg(feature = "std")]
pub use lists::{
    parse_left_hand_sides_str, parse_replacements_str, parse_right_hand_sides_str, LeftHandSides, Replacements,
    RightHandSides,
};
pub use refusal::Refusal;
#[cfg(feature = "std")]
pub use stored::StoredError;
