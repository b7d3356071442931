//! Why a call is refused.

use std::error::Error;
use std::fmt;

/// Document 01's refusals of a note's calls, with its numbers. Where several apply, the lowest is given.
#[derive(Clone, Copy, Debug, PartialEq, Eq, Hash)]
pub enum Refusal {
    /// Opening: n outside 17 to 4,096, or lent memory shorter than the need for n.
    Opening = 1,
    /// Any other call: the lent memory is too short or not well formed.
    Memory = 2,
    /// A place or index past its end (for lines, above the number of lines), or start above end.
    Place = 3,
    /// Piece of a note edit longer than 256 bytes.
    Piece = 4,
    /// Text not well-formed UTF-8.
    Text = 5,
    /// The note would exceed 64 × (n − 16) bytes.
    Room = 6,
    /// Mark number not live.
    Mark = 7,
    /// 256 marks live already.
    Marks = 8,
    /// Output memory shorter than the bytes to copy.
    Output = 9,
}

impl Refusal {
    /// Document 01's number of it.
    pub fn number(self) -> u8 {
        self as u8
    }

    /// What a call's returned number says.
    pub(crate) fn told(number: u8) -> Result<(), Refusal> {
        Err(match number {
            0 => return Ok(()),
            1 => Refusal::Opening,
            2 => Refusal::Memory,
            3 => Refusal::Place,
            4 => Refusal::Piece,
            5 => Refusal::Text,
            6 => Refusal::Room,
            7 => Refusal::Mark,
            8 => Refusal::Marks,
            9 => Refusal::Output,
            _ => unreachable!("no call of a note is refused by {number}"),
        })
    }
}

impl fmt::Display for Refusal {
    fn fmt(&self, f: &mut fmt::Formatter) -> fmt::Result {
        let why = match self {
            Refusal::Opening => "n outside 17 to 4,096, or memory shorter than its need",
            Refusal::Memory => "the memory is too short or not well formed",
            Refusal::Place => "a place or index past its end, or start above end",
            Refusal::Piece => "the piece is longer than 256 bytes",
            Refusal::Text => "the text is not well-formed UTF-8",
            Refusal::Room => "the note would exceed its size",
            Refusal::Mark => "the mark is not live",
            Refusal::Marks => "256 marks are live already",
            Refusal::Output => "the output is shorter than the bytes to copy",
        };
        write!(f, "refusal {}: {why}", self.number())
    }
}

impl Error for Refusal {}

#[cfg(test)]
mod tests {
    use super::Refusal;

    #[test]
    fn each_number_is_its_own() {
        assert_eq!(Refusal::told(0), Ok(()));
        for number in 1..=9 {
            assert_eq!(Refusal::told(number).map_err(Refusal::number), Err(number));
        }
    }
}
