//! What is asked of each text, and the groups of texts.

use std::panic;

use crate::calls::{Case, Func, BREAK_FUNCS, INDEX_FUNCS, RAW_FUNCS, WHOLE_FUNCS};
use crate::tally::{Group, Totals};
use crate::texts::{every_string, singles, Random, BYTES, CHARS, RANGE_ENDS};

/// How much a run asks.
pub struct Extent {
    /// Most bytes of the strings of all bytes of the alphabet.
    pub byte_string: usize,
    /// Most chars of the texts of all chars of the alphabet.
    pub char_string: usize,
    /// Most bytes of the strings that the source is made to panic on.
    pub panic_string: usize,
    /// Most bytes of the strings of any bytes whose validity is asked.
    pub any_string: usize,
    pub random_texts: usize,
    pub random_strings: usize,
}

/// Most bytes of a random text.
const LONGEST: usize = 600;

/// Damaged copies of each random text.
const COPIES: usize = 8;

pub fn run(extent: &Extent, totals: &mut Totals) {
    let bytes = singles(&BYTES);
    let chars = CHARS.map(str::as_bytes);

    let most = extent.byte_string;
    totals.group(&format!("breaks, strings to {most} bytes"), |group| {
        every_string(&bytes, most, &mut |text| breaks(group, text));
    });
    totals.group(&format!("helpers, strings to {most} bytes"), |group| {
        every_string(&bytes, most, &mut |text| helpers(group, text));
    });
    totals.group("helpers, strings to 3 bytes of range ends", |group| {
        every_string(&singles(&RANGE_ENDS), 3, &mut |text| helpers(group, text));
    });

    let most = extent.char_string;
    totals.group(&format!("breaks, texts to {most} chars"), |group| {
        every_string(&chars, most, &mut |text| breaks(group, text));
    });
    totals.group(&format!("helpers, texts to {most} chars"), |group| {
        every_string(&chars, most, &mut |text| helpers(group, text));
    });

    random(extent, totals);
    validity(extent, totals);

    let most = extent.panic_string;
    let hook = panic::take_hook();
    panic::set_hook(Box::new(|_| ()));
    totals.group(&format!("panics, strings to {most} bytes"), |group| {
        every_string(&bytes, most, &mut |text| break_panics(group, text));
    });
    panic::set_hook(hook);
}

fn random(extent: &Extent, totals: &mut Totals) {
    let mut random = Random::new();
    println!("random texts from seed {:#018x}", Random::SEED);
    let texts: Vec<String> = (0..extent.random_texts)
        .map(|_| random.text(LONGEST))
        .collect();
    totals.group("breaks, random texts", |group| {
        for text in &texts {
            breaks(group, text.as_bytes());
        }
    });
    totals.group("helpers, random texts", |group| {
        for text in &texts {
            helpers(group, text.as_bytes());
        }
    });
    totals.group("helpers, damaged copies", |group| {
        for text in &texts {
            for _ in 0..COPIES {
                sparse_helpers(group, &random.damaged(text.as_bytes()));
            }
        }
    });
    totals.group("breaks, random bytes", |group| {
        for _ in 0..extent.random_strings {
            breaks(group, &random.bytes(LONGEST));
        }
    });
    totals.group("helpers, random bytes", |group| {
        for _ in 0..extent.random_strings {
            sparse_helpers(group, &random.bytes(LONGEST));
        }
    });
}

fn validity(extent: &Extent, totals: &mut Totals) {
    let most = extent.any_string;
    let any_byte: Vec<u8> = (0..=u8::MAX).collect();
    totals.group(&format!("validity, any string to {most} bytes"), |group| {
        every_string(&singles(&any_byte), most, &mut |text| valid(group, text));
    });
    totals.group("validity, strings to 4 bytes of range ends", |group| {
        every_string(&singles(&RANGE_ENDS), 4, &mut |text| valid(group, text));
    });
    totals.group("validity, every char", |group| {
        for char in '\0'..=char::MAX {
            valid(group, char.encode_utf8(&mut [0; 4]).as_bytes());
        }
    });
}

fn valid(group: &mut Group, text: &[u8]) {
    group.compare(&Case::whole(Func::Valid, text));
}

/// Every break function at every index, at three that are refused, and at every seam.
fn breaks(group: &mut Group, text: &[u8]) {
    for_breaks(text, |case| group.compare(case));
}

fn break_panics(group: &mut Group, text: &[u8]) {
    for_breaks(text, |case| group.compare_panic(case));
}

fn for_breaks(text: &[u8], mut visit: impl FnMut(&Case)) {
    let len = text.len();
    for index in (0..=len).chain([len + 1, len + 7, usize::MAX]) {
        for func in BREAK_FUNCS {
            visit(&Case::biased(func, text, index));
        }
    }
    for cut in 0..=len {
        visit(&Case::at(Func::SeamIsBreak, text, cut));
    }
}

/// Every helper, at every index if the text is well-formed.
fn helpers(group: &mut Group, text: &[u8]) {
    if std::str::from_utf8(text).is_err() {
        return sparse_helpers(group, text);
    }
    for func in WHOLE_FUNCS.into_iter().chain(RAW_FUNCS) {
        group.compare(&Case::whole(func, text));
    }
    for index in (0..=text.len() + 2).chain([usize::MAX]) {
        for func in INDEX_FUNCS {
            group.compare(&Case::at(func, text, index));
        }
    }
}

/// Every helper at three indices: enough where the text alone decides for a refusal.
fn sparse_helpers(group: &mut Group, text: &[u8]) {
    for func in WHOLE_FUNCS {
        group.compare(&Case::whole(func, text));
    }
    for index in [0, text.len(), usize::MAX] {
        for func in INDEX_FUNCS {
            group.compare(&Case::at(func, text, index));
        }
    }
}
