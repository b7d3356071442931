//! Writes samples of the source's answers, to be replayed where the source cannot be run: one of
//! the functions of the text layer, then the leaf's calls; and one of the calls on child lists.
//!
//! A record of the text layer, numbers big-endian: function 1, index 4, bias_left 1, text length 2, text,
//! refusal 1 (0: accepted), value 4 (0 where refused).

use std::collections::BTreeMap;
use std::io;

use crate::calls::{Answer, Case, Func, BREAK_FUNCS, INDEX_FUNCS, WHOLE_FUNCS};
use crate::texts::{Random, DAMAGED};
use crate::{leaf, list, oracle};

/// Records of the text layer, and the most bytes that a sample may have.
const RECORDS: usize = 4_000;
const MOST_BYTES: usize = 400 * 1024;

/// The largest index that a record can hold.
const FARTHEST: usize = u32::MAX as usize;

/// Asked at every index: the text with a char of each length but 3, and the short ones where the
/// rules meet an end.
const TEXTS: [&str; 17] = [
    "a\r\né\u{1F600}b",
    "",
    "a",
    "\r",
    "\n",
    "\r\n",
    "\n\r",
    "\r\r\n",
    "\r\n\n",
    "a\r\n",
    "\r\nb",
    "é",
    "あ",
    "\u{1F600}",
    "あ\r\n\u{1F600}",
    "\u{85}\u{2028}\u{B}",
    "\r\n\r\n",
];

/// Asked of the break functions at every index: bytes that are no text.
const NO_TEXTS: [&[u8]; 5] = [
    b"\x80",
    b"\x80\x80\x80",
    b"\r\x80\n",
    b"\xFF\r\n\x80",
    b"a\x80\x80\x80\x80\r\nb",
];

#[derive(Default)]
pub struct Sample {
    bytes: Vec<u8>,
    /// Accepted and refused calls of each function.
    counts: BTreeMap<u8, (usize, usize)>,
    pub records: usize,
}

/// The sample of the text layer and the leaf's calls.
pub fn write(path: &str) -> io::Result<()> {
    let mut sample = Sample::default();
    for text in TEXTS {
        let text = text.as_bytes();
        sample.breaks(text);
        sample.helpers(text);
        sample.add(&Case::whole(Func::Valid, text));
    }
    for text in NO_TEXTS {
        sample.breaks(text);
    }
    for text in DAMAGED {
        sample.add(&Case::whole(Func::Valid, text));
        for func in WHOLE_FUNCS {
            sample.add(&Case::whole(func, text));
        }
        for func in INDEX_FUNCS {
            sample.add(&Case::at(func, text, text.len()));
        }
    }
    let mut random = Random::new();
    while sample.records < RECORDS {
        sample.add_random(&mut random);
    }
    leaf::record::write(&mut sample);
    sample.close(path)
}

/// The sample of the calls on child lists.
pub fn write_lists(path: &str) -> io::Result<()> {
    let mut sample = Sample::default();
    list::record::write(&mut sample);
    sample.close(path)
}

impl Sample {
    fn close(&self, path: &str) -> io::Result<()> {
        assert!(
            self.bytes.len() <= MOST_BYTES,
            "the sample has {} bytes",
            self.bytes.len()
        );
        std::fs::write(path, &self.bytes)?;
        for (func, (accepted, refused)) in &self.counts {
            println!("function {func}: {accepted} accepted, {refused} refused");
        }
        println!("{} records, {} bytes", self.records, self.bytes.len());
        Ok(())
    }

    fn breaks(&mut self, text: &[u8]) {
        for index in (0..=text.len() + 1).chain([FARTHEST]) {
            for func in BREAK_FUNCS {
                self.add(&Case::biased(func, text, index));
            }
        }
        for cut in 0..=text.len() {
            self.add(&Case::at(Func::SeamIsBreak, text, cut));
        }
    }

    fn helpers(&mut self, text: &[u8]) {
        for func in WHOLE_FUNCS {
            self.add(&Case::whole(func, text));
        }
        for index in (0..=text.len() + 2).chain([FARTHEST]) {
            for func in INDEX_FUNCS {
                self.add(&Case::at(func, text, index));
            }
        }
    }

    /// A call or two of any function, on a text that is seldom longer than 24 bytes.
    fn add_random(&mut self, random: &mut Random) {
        let most = if random.below(30) == 0 { 200 } else { 24 };
        let text = random.text(most).into_bytes();
        let index = random.below(text.len() + 3);
        match random.below(10) {
            0..=1 => {
                let func = random.pick(&BREAK_FUNCS);
                self.add(&Case::biased(func, &text, index));
                let bytes = random.bytes(most);
                let index = random.below(bytes.len() + 2);
                self.add(&Case::biased(func, &bytes, index));
            }
            2 => {
                let cut = random.below(text.len() + 1);
                self.add(&Case::at(Func::SeamIsBreak, &text, cut));
            }
            3..=4 => {
                let text = random.damaged(&text);
                self.add(&Case::whole(Func::Valid, &text));
                self.add(&Case::at(random.pick(&INDEX_FUNCS), &text, index));
            }
            5..=6 => self.add(&Case::whole(random.pick(&WHOLE_FUNCS), &text)),
            _ => self.add(&Case::at(random.pick(&INDEX_FUNCS), &text, index)),
        }
    }

    fn add(&mut self, case: &Case) {
        let (refusal, value) = match oracle::answer(case) {
            Answer::Value(value) => (0, value),
            Answer::Refused(number) | Answer::RefusedAndWrote(number, _) => (number, 0),
        };
        let index = u32::try_from(case.index).expect("the index fits 4 bytes");
        let len = u16::try_from(case.text.len()).expect("the length fits 2 bytes");
        let value = u32::try_from(value).expect("the value fits 4 bytes");
        let mut bytes = index.to_be_bytes().to_vec();
        bytes.push(u8::from(case.bias_left));
        bytes.extend_from_slice(&len.to_be_bytes());
        bytes.extend_from_slice(case.text);
        bytes.push(refusal);
        bytes.extend_from_slice(&value.to_be_bytes());
        self.push(case.func as u8, refusal != 0, &bytes);
    }

    /// A record of a function, which stands first in it.
    pub fn push(&mut self, func: u8, is_refused: bool, bytes: &[u8]) {
        let (accepted, refused) = self.counts.entry(func).or_default();
        *(if is_refused { refused } else { accepted }) += 1;
        self.records += 1;
        self.bytes.push(func);
        self.bytes.extend_from_slice(bytes);
    }
}
