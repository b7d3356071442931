//! The texts that are asked about: every short string of an alphabet, and random ones.

/// CR, LF, a letter, and the bytes of é, あ and U+1F600. Most strings of them are damaged.
pub const BYTES: [u8; 12] = [
    0x0D, 0x0A, 0x61, 0xC3, 0xA9, 0xE3, 0x81, 0x82, 0xF0, 0x9F, 0x98, 0x80,
];

/// One char of each length, and the two of a line break.
pub const CHARS: [&str; 6] = ["\r", "\n", "a", "é", "あ", "😀"];

/// The ends of the byte ranges of the Unicode Standard's table 3-7 with their neighbours, and the
/// two bytes of line breaks.
pub const RANGE_ENDS: [u8; 41] = [
    0x00, 0x01, 0x0A, 0x0D, 0x7E, 0x7F, 0x80, 0x81, 0x8E, 0x8F, 0x90, 0x91, 0x9E, 0x9F, 0xA0, 0xA1,
    0xBE, 0xBF, 0xC0, 0xC1, 0xC2, 0xC3, 0xDE, 0xDF, 0xE0, 0xE1, 0xE2, 0xEB, 0xEC, 0xED, 0xEE, 0xEF,
    0xF0, 0xF1, 0xF2, 0xF3, 0xF4, 0xF5, 0xF6, 0xFE, 0xFF,
];

/// Refused by 5, one for each way in which the table shuts bytes out.
pub const DAMAGED: [&[u8]; 14] = [
    b"\x80",
    b"a\xBF",
    b"\xC0\x80",
    b"\xC1\xBF",
    b"\xC3",
    b"\xE0\x9F\xBF",
    b"\xE3\x81",
    b"\xED\xA0\x80",
    b"\xF0\x8F\xBF\xBF",
    b"\xF0\x9F\x98",
    b"\xF4\x90\x80\x80",
    b"\xF5\x80\x80\x80",
    b"a\r\n\xFF",
    b"\xC3a",
];

/// An alphabet of single bytes.
pub fn singles(bytes: &[u8]) -> Vec<&[u8]> {
    bytes.chunks(1).collect()
}

/// Visits every string of 0 to `most` symbols of the alphabet.
pub fn every_string(alphabet: &[&[u8]], most: usize, visit: &mut impl FnMut(&[u8])) {
    extend(alphabet, most, &mut Vec::new(), visit);
}

fn extend(alphabet: &[&[u8]], left: usize, string: &mut Vec<u8>, visit: &mut impl FnMut(&[u8])) {
    visit(string);
    if left > 0 {
        for symbol in alphabet {
            let len = string.len();
            string.extend_from_slice(symbol);
            extend(alphabet, left - 1, string, visit);
            string.truncate(len);
        }
    }
}

/// Line breaks (CR and LF often, so that pairs arise), the ends of each length's range of chars,
/// and chars that break lines under other rules than the one here.
const EDGE_CHARS: [char; 24] = [
    '\r',
    '\n',
    '\r',
    '\n',
    '\r',
    '\n',
    'a',
    ' ',
    '\0',
    '\u{B}',
    '\u{C}',
    '\u{7F}',
    '\u{80}',
    '\u{85}',
    'é',
    '\u{7FF}',
    '\u{800}',
    'あ',
    '\u{2028}',
    '\u{D7FF}',
    '\u{FFFF}',
    '\u{10000}',
    '😀',
    '\u{10FFFF}',
];

/// A xorshift generator (Marsaglia's, 64 bits): the same texts in each run.
pub struct Random(u64);

impl Random {
    pub const SEED: u64 = 0x0123_4567_89AB_CDEF;

    pub fn new() -> Self {
        Random(Self::SEED)
    }

    /// Another row of numbers for each k.
    pub fn row(k: u64) -> Self {
        Random(Self::SEED ^ k.wrapping_mul(0x9E37_79B9_7F4A_7C15))
    }

    fn next(&mut self) -> u64 {
        self.0 ^= self.0 << 13;
        self.0 ^= self.0 >> 7;
        self.0 ^= self.0 << 17;
        self.0
    }

    /// A number below `end`. The upper half is used, as the lower bits are the weaker ones.
    pub fn below(&mut self, end: usize) -> usize {
        (self.next() >> 32) as usize % end
    }

    pub fn pick<T: Copy>(&mut self, from: &[T]) -> T {
        from[self.below(from.len())]
    }

    fn char(&mut self) -> char {
        if self.below(4) > 0 {
            return self.pick(&EDGE_CHARS);
        }
        let end = self.pick(&[0x80, 0x800, 0x1_0000, 0x11_0000]);
        // A surrogate's number is no char.
        char::from_u32(self.below(end) as u32).unwrap_or('\u{E000}')
    }

    /// A well-formed text of at most `most` bytes.
    pub fn text(&mut self, most: usize) -> String {
        let aim = self.below(most + 1);
        let mut text = String::new();
        loop {
            let next = self.char();
            if text.len() + next.len_utf8() > aim {
                return text;
            }
            text.push(next);
        }
    }

    /// A well-formed text of exactly this many bytes.
    pub fn text_of(&mut self, len: usize) -> Vec<u8> {
        let mut text = self.text(len).into_bytes();
        while text.len() < len {
            let next = self.char();
            if text.len() + next.len_utf8() <= len {
                text.extend_from_slice(next.encode_utf8(&mut [0; 4]).as_bytes());
            }
        }
        text
    }

    /// The text of a note, of this many bytes or up to three less: of any chars, of one kind alone,
    /// or of breaks alone.
    pub fn note_text(&mut self, len: usize) -> String {
        let kind = self.below(7);
        let mut text = String::with_capacity(len);
        loop {
            let next = match kind {
                0 | 1 => self.char(),
                2 => self.pick(&['a', 'b', ' ', '.', 'z', '\n', '~']),
                3 => self.pick(&['あ', '漢', '字', '。', 'ー', '\n']),
                4 => self.pick(&['😀', '\u{10000}', '\u{10FFFF}']),
                5 => self.pick(&['\r', '\n', '\r', '\n', 'x']),
                _ if text.ends_with('\r') => '\n',
                _ => '\r',
            };
            if text.len() + next.len_utf8() > len {
                return text;
            }
            text.push(next);
        }
    }

    /// An index of a text or just past it: one in four any, else one that starts a char.
    pub fn index_of(&mut self, text: &[u8]) -> usize {
        let mut index = self.below(text.len() + 2);
        if self.below(4) > 0 {
            while index > 0 && text.get(index).map_or(false, |b| b & 0xC0 == 0x80) {
                index -= 1;
            }
        }
        index
    }

    /// At most `most` bytes: of one string in three any, of one line breaks and continuation
    /// bytes alone (so that breaks lie far apart), of one the table's range ends.
    pub fn bytes(&mut self, most: usize) -> Vec<u8> {
        let len = self.below(most + 1);
        let kind = self.below(3);
        (0..len)
            .map(|_| match kind {
                0 => self.below(256) as u8,
                1 => self.pick(&[0x0D, 0x0A, 0x0A, 0x80, 0x81, 0x9F, 0xBF, 0xBF]),
                _ => self.pick(&RANGE_ENDS),
            })
            .collect()
    }

    /// A copy with one byte changed, left out or doubled, or with an end cut off at any byte.
    /// Now and then it is well-formed all the same.
    pub fn damaged(&mut self, text: &[u8]) -> Vec<u8> {
        let mut copy = text.to_vec();
        if copy.is_empty() {
            return vec![0x80];
        }
        let at = self.below(copy.len());
        match self.below(5) {
            0 => copy[at] = self.below(256) as u8,
            1 => drop(copy.remove(at)),
            2 => copy.insert(at, copy[at]),
            3 => copy.truncate(at),
            _ => drop(copy.drain(..at)),
        }
        copy
    }
}
