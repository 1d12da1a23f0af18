//! Why a call was refused.
use core::fmt;

/// The number and the place of a refusal.
///
/// ```
/// use peldarox::{parse_right_hand_sides_str, Refusal};
///
/// assert_eq!(parse_right_hand_sides_str("result 1 result %x"), Err(Refusal { number: 6, place: 16 }));
/// ```
#[derive(Clone, Copy, Debug, PartialEq, Eq, Hash)]
pub struct Refusal {
    /// What is wrong, from 1 to 10 or from 13 to 16; [`Refusal::meaning`] says it in words.
    pub number: u32,
    /// Of 1 to 7 and 16 the byte of the text, counted from 0; of 9 the words and of 10 the bytes that are needed; of 8 and
    /// 13 to 15 nothing.
    pub place: u64,
}

impl Refusal {
    /// What the number says, in words.
    pub fn meaning(&self) -> &'static str {
        match self.number {
            1 => "the text is longer than 65,536 bytes",
            2 => "the text is not well-formed UTF-8",
            3 => "no token can be made of what stands there",
            4 => "another token is needed there, or a type or a pattern is bad",
            5 => "an integer is malformed or does not fit its field",
            6 => "a name is unknown, defined twice, or no block where one is needed",
            7 => "a table has no row left",
            8 => "the tables are not well formed",
            9 => "the work area has too few words",
            10 => "the output has too few bytes",
            13 => "the file has a version that is not known",
            14 => "the file's parts are not one after another, or it has no trailer",
            15 => "the lent memory is too small",
            16 => "a token is longer than 4,096 bytes",
            _ => "no number of the table",
        }
    }
}

impl fmt::Display for Refusal {
    fn fmt(&self, f: &mut fmt::Formatter<'_>) -> fmt::Result {
        write!(f, "refused {} at {}: {}", self.number, self.place, self.meaning())
    }
}

impl core::error::Error for Refusal {}
