//! The numbers by which calls are refused, and what they mean.

use crate::header;
use std::error::Error;
use std::fmt;

/// Why a call was refused: a number of the rules, with its meaning in words. A refused call has changed nothing.
///
/// ```
/// use bitbus::{Refusal, Slave};
/// let refusal = Slave::make(251).unwrap_err();
/// assert_eq!(refusal, Refusal::ADDRESS);
/// assert_eq!(refusal.to_string(), "refused by 8: address outside 1 to 250");
/// ```
#[derive(Clone, Copy, Debug, PartialEq, Eq, Hash)]
pub struct Refusal(u32);

/// The constants of the numbers, and the words for each: the words are its documentation too.
macro_rules! numbers {
    ($($name:ident = $number:literal: $words:literal,)*) => {
        $(const _: () = assert!($number == header::$name, "the header has another number");)*

        impl Refusal {
            $(#[doc = concat!($number, ": ", $words, ".")]
            pub const $name: Refusal = Refusal($number);)*

            /// What the number means.
            pub fn words(self) -> &'static str {
                match self {
                    $(Refusal::$name => $words,)*
                    _ => "a number without words here",
                }
            }
        }
    };
}

numbers! {
    NO_CONTENT = 1: "no non-empty content between two flags",
    BIT_COUNT = 2: "more bits stated than 8,192 or than the buffer has",
    FIVE_ONES_AT_END = 3: "five ones at the content's very end and no inserted zero after them",
    NOT_WHOLE_BYTES = 4: "not whole bytes after removing inserted zeros",
    TOO_FEW_BYTES = 5: "fewer than 4 bytes",
    TOO_MANY_BYTES = 6: "more than 257 bytes",
    CHECK_WORD = 7: "check word wrong",
    ADDRESS = 8: "address outside 1 to 250",
    CONTROL = 9: "control byte not in the table, or a count above 7",
    INFORMATION = 10: "a message that is not 5 to 253 bytes, or information with a frame that carries none",
    OUTPUT = 11: "lent output too small",
    LENGTH_BYTE = 12: "first information byte is not the information's size plus 2",
    STILL_HELD = 13: "a message is still held",
    SLOT_EMPTY = 14: "incoming slot empty",
    LIMIT = 15: "answer limit outside 1 to 65,535 ticks",
    NO_ORDER_WAITS = 16: "response or silence reported while no order waits",
    ORDER_WAITS = 17: "order asked for while one waits",
    RECORD = 18: "capture record with a wrong length, kind or body size",
    OTHER_ADDRESS = 19: "frame for another address",
    END = 30: "bytes that are no end, or an end that is not right",
}

impl Refusal {
    /// The number.
    pub fn number(self) -> u32 {
        self.0
    }

    /// A call's result as the C surface gives it: 0 where nothing is refused.
    pub(crate) fn judge(number: u32) -> Result<(), Refusal> {
        match number {
            0 => Ok(()),
            _ => Err(Refusal(number)),
        }
    }
}

impl fmt::Display for Refusal {
    fn fmt(&self, f: &mut fmt::Formatter<'_>) -> fmt::Result {
        write!(f, "refused by {}: {}", self.0, self.words())
    }
}

impl Error for Refusal {}
