//! The counts that are stored for a leaf, and their sums. The source has them of a child list.

use ropey::probe::Leaves;

use super::ours::{self, Counts, UNCOUNTED};
use super::rules::MAX_BYTES;
use crate::tally::{hex, Totals};
use crate::texts::{every_string, Random, CHARS, DAMAGED};

/// Most leaves of a child list.
const MOST_LEAVES: usize = 16;

#[derive(Default)]
struct Group {
    cases: u64,
    refused: u64,
    differences: u64,
}

/// Texts of all chars to this many, and this many random texts and lists of them.
pub fn run(chars: usize, random_texts: usize, random: &mut Random, totals: &mut Totals) {
    let mut group = Group::default();
    every_string(&CHARS.map(str::as_bytes), chars, &mut |text| {
        group.info(text)
    });
    for _ in 0..random_texts {
        let text = random.text(MAX_BYTES + 8).into_bytes();
        group.info(&text);
        group.info(&random.damaged(&text));
    }
    for text in DAMAGED {
        group.info(text);
    }
    for len in MAX_BYTES - 2..=MAX_BYTES + 2 {
        group.info(&random.text_of(len));
    }
    totals.add("text_info", group.cases, group.refused, group.differences);

    let mut group = Group::default();
    for _ in 0..random_texts {
        group.sums(random);
    }
    totals.add("text_sum", group.cases, group.refused, group.differences);
}

/// The source's counts of a list of texts, added up.
fn combined(texts: &[&str]) -> Counts<u64> {
    let (bytes, chars, surrogates, breaks) = Leaves::new(texts).combined();
    [bytes, chars, surrogates, breaks]
}

impl Group {
    fn info(&mut self, text: &[u8]) {
        let due = match std::str::from_utf8(text) {
            Err(_) => (5, UNCOUNTED.map(u64::from)),
            Ok(_) if text.len() > MAX_BYTES => (11, UNCOUNTED.map(u64::from)),
            Ok(text) => (0, combined(&[text])),
        };
        let (refusal, counts) = ours::text_info(text);
        self.refused += u64::from(refusal != 0);
        self.compare("text_info", text, &(refusal, counts.map(u64::from)), &due);
    }

    /// Counts added one by one are the list's, and taken away again they are the rest's. The sum
    /// may begin anywhere: beyond 64 bits it returns to 0.
    fn sums(&mut self, random: &mut Random) {
        let most = random.pick(&[8, 60, MAX_BYTES]);
        let texts: Vec<String> = (0..random.below(MOST_LEAVES + 1))
            .map(|_| random.text(most))
            .collect();
        let texts: Vec<&str> = texts.iter().map(String::as_str).collect();
        let from = random.pick(&[0, 7, u64::MAX - 3, u64::MAX]);
        let start: Counts<u64> = std::array::from_fn(|k| from.wrapping_sub(k as u64));
        let due = |texts: &[&str]| {
            let all = combined(texts);
            let sum: Counts<u64> = std::array::from_fn(|k| start[k].wrapping_add(all[k]));
            sum
        };
        let mut sum = start;
        for k in 0..texts.len() {
            sum = ours::text_sum(false, sum, ours::text_info(texts[k].as_bytes()).1);
            self.compare("sum", texts[k].as_bytes(), &sum, &due(&texts[..=k]));
        }
        for k in 0..texts.len() {
            sum = ours::text_sum(true, sum, ours::text_info(texts[k].as_bytes()).1);
            self.compare(
                "difference",
                texts[k].as_bytes(),
                &sum,
                &due(&texts[k + 1..]),
            );
        }
    }

    fn compare<T: PartialEq + std::fmt::Debug>(
        &mut self,
        what: &str,
        text: &[u8],
        ours: &T,
        due: &T,
    ) {
        self.cases += 1;
        if ours != due {
            self.differences += 1;
            if self.differences <= 5 {
                println!(
                    "  differs: {what} at [{}]: ours {ours:?}, due {due:?}",
                    hex(text)
                );
            }
        }
    }
}
