//! The same counts as plain Rust loops over the bytes: what the proved library is measured against.

pub fn count_chars(text: &[u8]) -> usize {
    let mut chars = 0;
    for &byte in text {
        if byte & 0xC0 != 0x80 {
            chars += 1;
        }
    }
    chars
}

pub fn count_surrogates(text: &[u8]) -> usize {
    let mut surrogates = 0;
    for &byte in text {
        if byte >= 0xF0 {
            surrogates += 1;
        }
    }
    surrogates
}

pub fn count_breaks(text: &[u8]) -> usize {
    let mut breaks = 0;
    let mut after_cr = false;
    for &byte in text {
        if byte == b'\r' || byte == b'\n' && !after_cr {
            breaks += 1;
        }
        after_cr = byte == b'\r';
    }
    breaks
}

/// Where in a char the check stands: what the next byte must be.
#[derive(Clone, Copy, PartialEq)]
enum Next {
    Start,
    /// The last continuation byte, the last two, the last three.
    Last,
    LastTwo,
    LastThree,
    /// The second byte after the lead byte named, which narrows it.
    AfterE0,
    AfterEd,
    AfterF0,
    AfterF4,
}

impl Next {
    /// By the rows of the Unicode Standard's table 3-7; nothing where the byte is not allowed.
    fn step(self, byte: u8) -> Option<Next> {
        match (self, byte) {
            (Next::Start, 0x00..=0x7F) => Some(Next::Start),
            (Next::Start, 0xC2..=0xDF) => Some(Next::Last),
            (Next::Start, 0xE0) => Some(Next::AfterE0),
            (Next::Start, 0xED) => Some(Next::AfterEd),
            (Next::Start, 0xE1..=0xEF) => Some(Next::LastTwo),
            (Next::Start, 0xF0) => Some(Next::AfterF0),
            (Next::Start, 0xF1..=0xF3) => Some(Next::LastThree),
            (Next::Start, 0xF4) => Some(Next::AfterF4),
            (Next::Last, 0x80..=0xBF) => Some(Next::Start),
            (Next::LastTwo, 0x80..=0xBF) => Some(Next::Last),
            (Next::LastThree, 0x80..=0xBF) => Some(Next::LastTwo),
            (Next::AfterE0, 0xA0..=0xBF) => Some(Next::Last),
            (Next::AfterEd, 0x80..=0x9F) => Some(Next::Last),
            (Next::AfterF0, 0x90..=0xBF) => Some(Next::LastTwo),
            (Next::AfterF4, 0x80..=0x8F) => Some(Next::LastTwo),
            _ => None,
        }
    }
}

/// The chars of a well-formed text, counted in the same pass that checks it.
pub fn checked_chars(text: &[u8]) -> Option<usize> {
    let mut next = Next::Start;
    let mut chars = 0;
    for &byte in text {
        next = next.step(byte)?;
        if byte & 0xC0 != 0x80 {
            chars += 1;
        }
    }
    (next == Next::Start).then_some(chars)
}

pub fn checked_surrogates(text: &[u8]) -> Option<usize> {
    let mut next = Next::Start;
    let mut surrogates = 0;
    for &byte in text {
        next = next.step(byte)?;
        if byte >= 0xF0 {
            surrogates += 1;
        }
    }
    (next == Next::Start).then_some(surrogates)
}

pub fn checked_breaks(text: &[u8]) -> Option<usize> {
    let mut next = Next::Start;
    let mut breaks = 0;
    let mut after_cr = false;
    for &byte in text {
        next = next.step(byte)?;
        if byte == b'\r' || byte == b'\n' && !after_cr {
            breaks += 1;
        }
        after_cr = byte == b'\r';
    }
    (next == Next::Start).then_some(breaks)
}

/// What a note's check counts.
pub struct Counts {
    pub chars: usize,
    pub units: usize,
    pub breaks: usize,
}

/// The text checked by the standard library, and then its chars, units and breaks counted in one
/// pass over its chars.
pub fn counts(text: &[u8]) -> Option<Counts> {
    let text = std::str::from_utf8(text).ok()?;
    let mut counts = Counts {
        chars: 0,
        units: 0,
        breaks: 0,
    };
    let mut after_cr = false;
    for c in text.chars() {
        counts.chars += 1;
        counts.units += c.len_utf16();
        counts.breaks += usize::from(c == '\r' || c == '\n' && !after_cr);
        after_cr = c == '\r';
    }
    Some(counts)
}
