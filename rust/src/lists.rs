//! Lists that own their text and their rows.
use crate::raw::{self, Counts, Entry, Tables, TablesMut};
use crate::refusal::Refusal;
use crate::stored::StoredError;
use std::{fmt, ops::RangeInclusive, str::FromStr};

/// A text that was accepted, and its rows: each table has the counted ones and no more.
#[derive(Clone, Debug)]
struct List {
    text: String,
    items: Vec<u32>,
    statements: Vec<u32>,
    operands: Vec<u32>,
    attributes: Vec<u32>,
    counts: Counts,
}

impl List {
    /// Reads a text with rows that are enough for any text of its length: an item for two bytes, a statement or an attribute for
    /// three, an operand for each.
    fn read(entry: Entry, text: &str) -> Result<Self, Refusal> {
        let bytes = if text.len() > raw::MOST_BYTES { 0 } else { text.len() };
        let mut list = List {
            text: String::new(),
            items: vec![0; bytes.div_ceil(2) * raw::ITEM_WORDS],
            statements: vec![0; bytes.div_ceil(3) * raw::STATEMENT_WORDS],
            operands: vec![0; bytes * raw::OPERAND_WORDS],
            attributes: vec![0; bytes.div_ceil(3) * raw::ATTRIBUTE_WORDS],
            counts: Counts::default(),
        };
        let mut tables = TablesMut {
            items: &mut list.items,
            statements: &mut list.statements,
            operands: &mut list.operands,
            attributes: &mut list.attributes,
        };
        list.counts = raw::read(entry, text.as_bytes(), &mut tables)?;
        list.text = text.to_string();
        keep(&mut list.items, list.counts.items, raw::ITEM_WORDS);
        keep(&mut list.statements, list.counts.statements, raw::STATEMENT_WORDS);
        keep(&mut list.operands, list.counts.operands, raw::OPERAND_WORDS);
        keep(&mut list.attributes, list.counts.attributes, raw::ATTRIBUTE_WORDS);
        Ok(list)
    }

    /// Loads a file into as much memory as its trailer asks for. The kinds that an item may have are those of the list that is wanted.
    fn load(kinds: RangeInclusive<u32>, file: &[u8]) -> Result<Self, StoredError> {
        let [letters, tables @ ..] = raw::part_bytes(file);
        let [items, statements, operands, attributes] = tables.map(|bytes| vec![0; bytes / 4]);
        let mut list = List { text: String::new(), items, statements, operands, attributes, counts: Counts::default() };
        let mut text = vec![0; letters];
        let mut tables = TablesMut {
            items: &mut list.items,
            statements: &mut list.statements,
            operands: &mut list.operands,
            attributes: &mut list.attributes,
        };
        list.counts = raw::load(file, &mut text, &mut tables)?.1;
        match list.items.chunks(raw::ITEM_WORDS).position(|row| !kinds.contains(&row[0])) {
            Some(item) => return Err(StoredError::OtherKind { item }),
            None => list.text = String::from_utf8(text).map_err(|_| StoredError::NoText)?,
        }
        Ok(list)
    }

    /// The list's file.
    fn stored(&self) -> Vec<u8> {
        let mut file = vec![0; self.counts.stored_bytes(self.text.len()) as usize];
        raw::store(self.text.as_bytes(), self.tables(), self.counts, &mut file)
            .expect("what was read or loaded is well formed, and the file has as many bytes as its counts tell");
        file
    }

    fn tables(&self) -> Tables<'_> {
        Tables {
            items: &self.items,
            statements: &self.statements,
            operands: &self.operands,
            attributes: &self.attributes,
        }
    }

    /// The list's print: the first call says how long it is, the second writes it.
    fn printed(&self) -> String {
        let mut work = vec![0; self.counts.work_words() as usize];
        let mut print =
            |output: &mut [u8]| raw::print(self.text.as_bytes(), self.tables(), self.counts, &mut work, output);
        let bytes = match print(&mut []) {
            Ok(bytes) => bytes,
            Err(refusal) => refusal.place as usize,
        };
        let mut output = vec![0; bytes];
        print(&mut output).expect("what was read is well formed, and the print said how long it is");
        String::from_utf8(output).expect("a print has letters of ASCII alone")
    }

    fn name(&self, row: usize) -> &str {
        let name = raw::name(self.text.as_bytes(), self.tables(), self.counts, row as u64);
        std::str::from_utf8(name).expect("a name has letters of ASCII alone")
    }
}

/// Keeps so many rows of a table.
fn keep(table: &mut Vec<u32>, rows: u64, row_words: usize) {
    table.truncate(rows as usize * row_words);
    table.shrink_to_fit();
}

/// Declares the list of an entry point, the kinds that its items' rows may have (docs/LAYOUT.md), and the call that reads it.
macro_rules! list {
    ($(#[$about:meta])* $Name:ident, $kinds:expr, $(#[$about_call:meta])* $parse:ident) => {
        $(#[$about])*
        #[derive(Clone, Debug)]
        pub struct $Name(List);

        $(#[$about_call])*
        pub fn $parse(text: &str) -> Result<$Name, Refusal> {
            List::read(Entry::$Name, text).map($Name)
        }

        impl $Name {
            /// How many items the list has.
            pub fn len(&self) -> usize {
                self.0.counts.items as usize
            }

            /// Whether the list has no item.
            pub fn is_empty(&self) -> bool {
                self.len() == 0
            }

            /// The text that was read.
            pub fn text(&self) -> &str {
                &self.0.text
            }

            /// How many rows each table has.
            pub fn counts(&self) -> Counts {
                self.0.counts
            }

            /// The rows of all four tables.
            pub fn tables(&self) -> Tables<'_> {
                self.0.tables()
            }

            /// The name of a statement's row, with its `%`; empty for `pc`, `blockpc` and a row that is not there.
            pub fn name(&self, row: usize) -> &str {
                self.0.name(row)
            }

            /// The list as a file: its text, its rows and a trailer.
            pub fn to_stored(&self) -> Vec<u8> {
                self.0.stored()
            }

            /// Loads a list from a file, without reading its text again. A file with an item of another kind is an error.
            pub fn from_stored(file: &[u8]) -> Result<Self, StoredError> {
                List::load($kinds, file).map($Name)
            }
        }

        /// Reads as the call of the entry point does.
        impl FromStr for $Name {
            type Err = Refusal;

            fn from_str(text: &str) -> Result<Self, Refusal> {
                $parse(text)
            }
        }

        /// Prints the list: each assignment that its items need, and their closing lines, a line feed after each line.
        impl fmt::Display for $Name {
            fn fmt(&self, f: &mut fmt::Formatter<'_>) -> fmt::Result {
                f.write_str(&self.0.printed())
            }
        }

        /// Lists are equal when they mean the same, which is when they print the same bytes.
        impl PartialEq for $Name {
            fn eq(&self, other: &Self) -> bool {
                self.0.printed() == other.0.printed()
            }
        }

        impl Eq for $Name {}
    };
}

list! {
    /// Replacements: each has statements, then `infer` and `result`, or `cand`.
    ///
    /// ```
    /// let rules: peldarox::Replacements = "%a = var cand %a 007".parse()?;
    /// assert_eq!(rules.len(), 1);
    /// assert_eq!(rules.name(0), "%a");
    /// assert_eq!(rules.to_string(), "%a = var\ncand %a 7\n");
    /// # Ok::<(), peldarox::Refusal>(())
    /// ```
    Replacements,
    1..=2,
    /// Reads replacements, up to the end of the text.
    parse_replacements_str
}

list! {
    /// Left-hand sides: each has statements, then `infer`.
    LeftHandSides,
    3..=3,
    /// Reads left-hand sides, up to the end of the text.
    parse_left_hand_sides_str
}

list! {
    /// Right-hand sides: each has statements, then `result`.
    RightHandSides,
    4..=4,
    /// Reads right-hand sides, up to the end of the text.
    parse_right_hand_sides_str
}
