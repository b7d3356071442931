//! Counts cases and differences, and prints them.

use crate::calls::{Answer, Case};
use crate::{oracle, ours};

/// Differences of one group that are shown in full.
const SHOWN: u64 = 5;

#[derive(Default)]
pub struct Totals {
    cases: u64,
    differences: u64,
}

impl Totals {
    pub fn group(&mut self, name: &str, run: impl FnOnce(&mut Group)) {
        let mut group = Group::default();
        run(&mut group);
        self.add(name, group.cases, group.refused, group.differences);
    }

    /// Adds the counts of a group and prints them.
    pub fn add(&mut self, name: &str, cases: u64, refused: u64, differences: u64) {
        println!("{name}: {cases} cases, {refused} of them refused, {differences} differences");
        self.cases += cases;
        self.differences += differences;
    }

    /// Prints the total, and tells whether there was no difference.
    pub fn close(&self) -> bool {
        println!(
            "compared {} cases, {} differences",
            self.cases, self.differences
        );
        self.differences == 0
    }
}

#[derive(Default)]
pub struct Group {
    cases: u64,
    refused: u64,
    differences: u64,
}

impl Group {
    pub fn compare(&mut self, case: &Case) {
        let (ours, source) = (ours::answer(case), oracle::answer(case));
        self.count(case, ours, ours == source, || format!("source {source:?}"));
    }

    /// Holds our refusal to the source's panic: one where the other, and nowhere else.
    pub fn compare_panic(&mut self, case: &Case) {
        let (ours, panicked) = (ours::answer(case), oracle::panics(case));
        let same = matches!(ours, Answer::Refused(_)) == panicked;
        self.count(case, ours, same, || format!("source panicked: {panicked}"));
    }

    fn count(&mut self, case: &Case, ours: Answer, same: bool, source: impl FnOnce() -> String) {
        self.cases += 1;
        if !matches!(ours, Answer::Value(_)) {
            self.refused += 1;
        }
        if !same {
            self.differences += 1;
            if self.differences <= SHOWN {
                println!(
                    "  differs: {:?} of [{}] index {} bias_left {}: ours {ours:?}, {}",
                    case.func,
                    hex(case.text),
                    case.index,
                    case.bias_left,
                    source()
                );
            }
        }
    }
}

/// Bytes in hex, with a space between two.
pub fn hex(bytes: &[u8]) -> String {
    let bytes: Vec<String> = bytes.iter().map(|b| format!("{b:02X}")).collect();
    bytes.join(" ")
}
