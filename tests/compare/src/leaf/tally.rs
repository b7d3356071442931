//! Counts the calls and the differences, and prints them.

use super::calls::{After, Call, Case, CALLS};
use super::source::{self, Source};
use super::{ours, rules};
use crate::by_call::ByCall;
use crate::tally::{hex, Totals};

/// Differences of one group that are shown in full.
const SHOWN: u64 = 5;

/// The counts of the whole part.
#[derive(Default)]
pub struct Tally {
    by_call: ByCall<{ CALLS.len() }>,
}

impl Tally {
    pub fn group(&mut self, totals: &mut Totals, name: &str, run: impl FnOnce(&mut Group)) {
        let mut group = Group::default();
        run(&mut group);
        let all = self.by_call.add(&group.by_call);
        totals.add(name, all.calls, all.refused, all.differences);
    }

    pub fn close(&self) {
        self.by_call
            .print(CALLS.map(Call::name), "all calls of a leaf");
    }
}

#[derive(Default)]
pub struct Group {
    by_call: ByCall<{ CALLS.len() }>,
    shown: u64,
}

impl Group {
    pub fn compare(&mut self, case: &Case) {
        let source = source::ask(case);
        let due = rules::due(case, &source);
        let ours = ours::ask(case);
        let same = ours == due && rules::panic_is_due(case, &source);
        let panicked = matches!(source, Source::Panicked);

        let count = self.by_call.of(case.call as usize);
        count.calls += 1;
        count.compared += u64::from(due.refusal == 0);
        count.refused += u64::from(ours.refusal != 0);
        count.panicked += u64::from(panicked);
        if !same {
            count.differences += 1;
            self.show(case.call as u8, case, &ours, &due, panicked);
        }
    }

    /// A number that names no call is refused by 10.
    pub fn compare_unknown(&mut self, number: u8, case: &Case) {
        let due = rules::refused(case, 10);
        let ours = ours::ask_by(number, case);
        let count = self.by_call.of(0);
        count.calls += 1;
        count.refused += u64::from(ours.refusal != 0);
        if ours != due {
            count.differences += 1;
            self.show(number, case, &ours, &due, false);
        }
    }

    fn show(&mut self, number: u8, case: &Case, ours: &After, due: &After, panicked: bool) {
        self.shown += 1;
        if self.shown > SHOWN {
            return;
        }
        let other = match case.call {
            Call::FixSegmentSeam => format!("right [{}]", hex(case.right_leaf())),
            _ => format!("piece [{}], right", hex(case.taken_piece())),
        };
        println!(
            "  differs: call {number} of [{}], length {} in {} bytes, start {}, end {}, {other}, length {} in {} bytes",
            hex(case.leaf()),
            case.len,
            case.left.len(),
            case.start,
            case.end,
            case.right_len,
            case.right.len(),
        );
        println!("    ours {}", line(ours, due));
        println!("    due  {}; source panicked: {panicked}", line(due, ours));
    }
}

/// An outcome beside another: where the regions differ, the first byte that does.
fn line(after: &After, other: &After) -> String {
    let first = |a: &[u8], b: &[u8]| match a.iter().zip(b).position(|(x, y)| x != y) {
        Some(at) => format!("{:02X} at {at} with the margin", a[at]),
        None => "as the other".to_string(),
    };
    format!(
        "refusal {}, lengths {:?}, left {}, right {}",
        after.refusal,
        after.lengths,
        first(&after.left, &other.left),
        first(&after.right, &other.right)
    )
}
