//! Why a file does not load as a list.
use crate::refusal::Refusal;
use core::fmt;

/// Why a file does not load as a list of the kind that was asked for.
#[derive(Clone, Copy, Debug, PartialEq, Eq, Hash)]
pub enum StoredError {
    /// The library refuses the file.
    Refused(Refusal),
    /// The file holds an item of another kind of list: the first one, counted from 0.
    OtherKind {
        /// Which item it is.
        item: usize,
    },
    /// The file's text is not UTF-8. Only a file that was not stored from a list has such a text.
    NoText,
}

impl From<Refusal> for StoredError {
    fn from(refusal: Refusal) -> Self {
        StoredError::Refused(refusal)
    }
}

impl fmt::Display for StoredError {
    fn fmt(&self, f: &mut fmt::Formatter<'_>) -> fmt::Result {
        match self {
            StoredError::Refused(refusal) => refusal.fmt(f),
            StoredError::OtherKind { item } => write!(f, "item {item} is of another kind of list"),
            StoredError::NoText => f.write_str("the file's text is not UTF-8"),
        }
    }
}

impl core::error::Error for StoredError {}
