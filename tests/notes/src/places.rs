//! The places of a text and what is counted up to each, by document 01's rules under Counting.

#[derive(Clone, Copy, Debug, PartialEq, Eq)]
pub enum Measure {
    Byte,
    Char,
    Unit,
    Line,
}

/// For each place, from 0 to the number of chars: the bytes, the UTF-16 units and the breaks before
/// it.
pub struct Places {
    bytes: Vec<usize>,
    units: Vec<usize>,
    breaks: Vec<usize>,
}

impl Places {
    pub fn of(text: &str) -> Places {
        let mut places = Places {
            bytes: vec![0],
            units: vec![0],
            breaks: vec![0],
        };
        let (mut bytes, mut units, mut breaks) = (0, 0, 0);
        let mut chars = text.chars().peekable();
        while let Some(c) = chars.next() {
            bytes += c.len_utf8();
            units += c.len_utf16();
            // A break ends after its last char, so CR before LF ends none.
            breaks += usize::from(c == '\n' || c == '\r' && chars.peek() != Some(&'\n'));
            places.bytes.push(bytes);
            places.units.push(units);
            places.breaks.push(breaks);
        }
        places
    }

    pub fn chars(&self) -> usize {
        self.bytes.len() - 1
    }

    pub fn bytes(&self) -> usize {
        self.bytes[self.chars()]
    }

    pub fn units(&self) -> usize {
        self.units[self.chars()]
    }

    pub fn lines(&self) -> usize {
        self.breaks[self.chars()] + 1
    }

    /// The highest index of a count.
    pub fn most(&self, by: Measure) -> usize {
        match by {
            Measure::Byte => self.bytes(),
            Measure::Char => self.chars(),
            Measure::Unit => self.units(),
            Measure::Line => self.lines(),
        }
    }

    /// The place that an index means.
    fn place(&self, by: Measure, index: usize) -> usize {
        match by {
            Measure::Byte => self.bytes.partition_point(|&bytes| bytes <= index) - 1,
            Measure::Char => index,
            Measure::Unit => self.units.partition_point(|&units| units <= index) - 1,
            Measure::Line if index == self.lines() => self.chars(),
            Measure::Line => self.breaks.partition_point(|&breaks| breaks < index),
        }
    }

    pub fn byte_of(&self, place: usize) -> usize {
        self.bytes[place]
    }

    /// An index of one count turned into another, or refusal 3.
    pub fn converted(&self, from: Measure, to: Measure, index: usize) -> Result<usize, u8> {
        if index > self.most(from) {
            return Err(3);
        }
        let place = self.place(from, index);
        Ok(match to {
            Measure::Byte => self.bytes[place],
            Measure::Char => place,
            Measure::Unit => self.units[place],
            Measure::Line => self.breaks[place],
        })
    }
}
