//! The calls that read a note, what they are asked, and what is due by document 01.

use std::fmt;

use crate::formed::Note;
use crate::memory;
use crate::places::Measure::{self, Byte, Char, Line, Unit};

/// The calls that answer a number.
#[derive(Clone, Copy, Debug, PartialEq, Eq)]
pub enum Call {
    LenBytes,
    LenChars,
    LenUtf16Cu,
    LenLines,
    Slots,
    EditNumber,
    ByteToChar,
    CharToByte,
    ByteToLine,
    LineToByte,
    CharToLine,
    LineToChar,
    CharToUtf16Cu,
    Utf16CuToChar,
    MarkPlace,
    MarkLine,
}

pub const TOTALS: [Call; 6] = [
    Call::LenBytes,
    Call::LenChars,
    Call::LenUtf16Cu,
    Call::LenLines,
    Call::Slots,
    Call::EditNumber,
];

pub const CONVERSIONS: [Call; 8] = [
    Call::ByteToChar,
    Call::CharToByte,
    Call::ByteToLine,
    Call::LineToByte,
    Call::CharToLine,
    Call::LineToChar,
    Call::CharToUtf16Cu,
    Call::Utf16CuToChar,
];

pub const OF_MARKS: [Call; 2] = [Call::MarkPlace, Call::MarkLine];

impl Call {
    /// What a conversion is from and to.
    pub fn measures(self) -> Option<(Measure, Measure)> {
        Some(match self {
            Call::ByteToChar => (Byte, Char),
            Call::CharToByte => (Char, Byte),
            Call::ByteToLine => (Byte, Line),
            Call::LineToByte => (Line, Byte),
            Call::CharToLine => (Char, Line),
            Call::LineToChar => (Line, Char),
            Call::CharToUtf16Cu => (Char, Unit),
            Call::Utf16CuToChar => (Unit, Char),
            _ => return None,
        })
    }
}

#[derive(Clone)]
pub enum Ask<'a> {
    Check,
    Read(Call, usize),
    Copy {
        start: usize,
        end: usize,
        out: &'a [u8],
    },
    Run(usize),
    Preview {
        piece: &'a [u8],
        place: usize,
        from: usize,
    },
}

impl fmt::Debug for Ask<'_> {
    fn fmt(&self, f: &mut fmt::Formatter) -> fmt::Result {
        match self {
            Ask::Check => write!(f, "check"),
            Ask::Read(call, index) => write!(f, "{call:?} of {index}"),
            Ask::Copy { start, end, out } => {
                write!(f, "copy {start}..{end} to {} bytes", out.len())
            }
            Ask::Run(place) => write!(f, "run from {place}"),
            Ask::Preview { piece, place, from } => {
                write!(f, "preview of {piece:02X?} at {place}, from {from}")
            }
        }
    }
}

/// A part that was handed out: where it begins and how long it is.
#[derive(Clone, Copy, Debug, PartialEq, Eq)]
pub enum Part {
    Empty,
    OfMemory(usize, usize),
    OfPiece(usize, usize),
    Elsewhere,
}

/// What is in the number if none is written.
pub const UNTOUCHED: u64 = 0xA5A5_A5A5_A5A5_A5A5;

#[derive(PartialEq, Eq)]
pub struct Answer {
    pub refusal: u8,
    pub number: u64,
    pub out: Vec<u8>,
    pub part: Part,
}

impl Answer {
    pub const REFUSED: Answer = Answer {
        refusal: 2,
        number: UNTOUCHED,
        out: Vec::new(),
        part: Part::Empty,
    };

    fn number(number: usize) -> Answer {
        Answer {
            refusal: 0,
            number: number as u64,
            ..Answer::REFUSED
        }
    }

    fn part(part: Part) -> Answer {
        Answer {
            refusal: 0,
            part,
            ..Answer::REFUSED
        }
    }
}

impl fmt::Debug for Answer {
    fn fmt(&self, f: &mut fmt::Formatter) -> fmt::Result {
        match (self.refusal, self.number) {
            (0, UNTOUCHED) => write!(f, "{:?}", self.part),
            (0, number) => write!(f, "{number} {:02X?}", self.out),
            (refusal, UNTOUCHED) => {
                write!(f, "refused {refusal} {:?} {:02X?}", self.part, self.out)
            }
            (refusal, number) => write!(f, "refused {refusal}, and yet {number}"),
        }
    }
}

/// What is due of a memory that is this note, or none.
pub fn due(note: Option<&Note>, ask: &Ask) -> Answer {
    let answer = match (ask, note) {
        (Ask::Check, note) => Ok(Answer::number(usize::from(note.is_some()))),
        (_, None) => Err(2),
        (&Ask::Read(call, index), Some(note)) => read(note, call, index).map(Answer::number),
        (&Ask::Copy { start, end, out }, Some(note)) => copied(note, start, end, out),
        (&Ask::Run(place), Some(note)) => run(note, place).map(Answer::part),
        (&Ask::Preview { piece, place, from }, Some(note)) => {
            previewed(note, piece, place, from).map(Answer::part)
        }
    };
    answer.unwrap_or_else(|refusal| Answer {
        refusal,
        out: match ask {
            Ask::Copy { out, .. } => out.to_vec(),
            _ => Vec::new(),
        },
        ..Answer::REFUSED
    })
}

fn read(note: &Note, call: Call, index: usize) -> Result<usize, u8> {
    match (call, call.measures()) {
        (_, Some((from, to))) => note.places.converted(from, to, index),
        (Call::LenBytes, _) => Ok(note.places.bytes()),
        (Call::LenChars, _) => Ok(note.places.chars()),
        (Call::LenUtf16Cu, _) => Ok(note.places.units()),
        (Call::LenLines, _) => Ok(note.places.lines()),
        (Call::Slots, _) => Ok(note.n),
        (Call::MarkPlace, _) => note.marks.place(index),
        (Call::MarkLine, _) => note.places.converted(Char, Line, note.marks.place(index)?),
        _ => Ok(note.marks.edits as usize),
    }
}

fn copied(note: &Note, start: usize, end: usize, out: &[u8]) -> Result<Answer, u8> {
    if start > end || end > note.places.chars() {
        return Err(3);
    }
    let bytes = &note.text.as_bytes()[note.places.byte_of(start)..note.places.byte_of(end)];
    if bytes.len() > out.len() {
        return Err(9);
    }
    let mut out = out.to_vec();
    out[..bytes.len()].copy_from_slice(bytes);
    Ok(Answer {
        out,
        ..Answer::number(bytes.len())
    })
}

fn run(note: &Note, place: usize) -> Result<Part, u8> {
    if place > note.places.chars() {
        return Err(3);
    }
    Ok(from_place(note, place, None))
}

/// From a place to the end of its leaf, or to another place behind it if that is nearer.
fn from_place(note: &Note, place: usize, end: Option<usize>) -> Part {
    let byte = note.places.byte_of(place);
    let k = note.leaves.partition_point(|leaf| leaf.end <= byte);
    match note.leaves.get(k) {
        None => Part::Empty,
        Some(leaf) => {
            let end = end.map_or(leaf.end, |end| leaf.end.min(note.places.byte_of(end)));
            let at = memory::slot_start(leaf.slot) + memory::REGION + byte - leaf.start;
            Part::OfMemory(at, end - byte)
        }
    }
}

fn previewed(note: &Note, piece: &[u8], place: usize, from: usize) -> Result<Part, u8> {
    let chars = note.places.chars();
    if place > chars {
        return Err(3);
    }
    if piece.len() > 256 {
        return Err(4);
    }
    let text = std::str::from_utf8(piece).map_err(|_| 5)?;
    if note.places.bytes() + piece.len() > memory::limit(note.n) {
        return Err(6);
    }
    let added = text.chars().count();
    if from > chars + added {
        return Err(3);
    }
    if from < place {
        return Ok(from_place(note, from, Some(place)));
    }
    Ok(match text.char_indices().nth(from - place) {
        Some((at, _)) => Part::OfPiece(at, piece.len() - at),
        None => from_place(note, from - added, None),
    })
}
