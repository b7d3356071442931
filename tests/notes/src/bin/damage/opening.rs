//! Opening: refused by 1 or an empty note, and no other byte changed.

use notes::texts::Random;
use notes::{formed, memory, ours};

use crate::tally::Tally;
use crate::Extent;

pub fn run(extent: &Extent, tally: &mut Tally) {
    tally.group("opening", |group| {
        let mut random = Random::new();
        for k in 0..extent.opened {
            let any = random.below(200);
            let n = random.pick(&[
                0,
                1,
                16,
                17,
                18,
                80,
                any,
                any,
                any,
                4_096,
                4_097,
                1 << 32,
                usize::MAX,
            ]);
            let need = memory::need(n.min(4_100));
            let short = random.below(need);
            let len = random.pick(&[need, need - 1, need + 1, need + 640, short, 0]);
            let mut memory: Vec<u8> = (0..len).map(|_| random.below(256) as u8).collect();
            if k % 7 == 0 {
                memory.fill(0xFF);
            }
            open(&mut random, n, &memory, group);
        }
    });
}

fn open(random: &mut Random, n: usize, before: &[u8], group: &mut Tally) {
    let what = || format!("n {n} in {} bytes", before.len());
    let mut memory = before.to_vec();
    let refusal = ours::open(&mut memory, n);
    let accepted = (17..=4_096).contains(&n) && memory::need(n) <= memory.len();
    if !accepted {
        group.count(refusal == 1 && memory == before, &what);
        return;
    }
    let is_new = formed::note(&memory).map_or(false, |note| {
        note.text.is_empty() && note.marks.edits == 0 && note.marks.live() == 0 && note.n == n
    });
    let behind = memory::need(n);
    group.count(
        refusal == 0 && is_new && memory[behind..] == before[behind..],
        &what,
    );
    group.hold(random, &memory, &what);
}
