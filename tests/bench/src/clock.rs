//! Times. What is compared runs in turn, a moment each, many times over, so that a change in the
//! machine's pace meets all alike; the median of the turns counts.

use std::time::{Duration, Instant};

/// A moment is long enough that the clock's own time is little beside it.
const MOMENT: Duration = Duration::from_micros(40);
const MOST_CALLS: usize = 4_096;
const WARM_UPS: usize = 3;
const TURNS: usize = 61;

pub fn timed(run: impl FnOnce()) -> Duration {
    let start = Instant::now();
    run();
    start.elapsed()
}

pub fn median(mut times: Vec<f64>) -> f64 {
    times.sort_unstable_by(f64::total_cmp);
    times[times.len() / 2]
}

/// Something that is called again and again, with the number of the call.
pub type Caller<'a> = &'a mut dyn FnMut(usize);

/// The microseconds that a call of each takes.
pub fn calls<const N: usize>(mut callers: [Caller; N]) -> [f64; N] {
    let rounds = callers.each_mut().map(|caller| {
        let mut round = 1;
        while round < MOST_CALLS && timed(|| (0..round).for_each(&mut *caller)) < MOMENT {
            round *= 2;
        }
        round
    });
    let mut times = [(); N].map(|()| Vec::new());
    for turn in 0..WARM_UPS + TURNS {
        for ((caller, &round), times) in callers.iter_mut().zip(&rounds).zip(&mut times) {
            let took = timed(|| (turn * round..(turn + 1) * round).for_each(&mut *caller));
            if turn >= WARM_UPS {
                times.push(took.as_secs_f64() * 1e6 / round as f64);
            }
        }
    }
    times.map(median)
}

/// Which of two calls: one that changes something, or the one that undoes it.
#[derive(Clone, Copy, PartialEq)]
pub enum Way {
    There,
    Back,
}

/// Something that changes and is changed back, with the number of the change.
pub type Changer<'a> = &'a mut dyn FnMut(Way, usize);

/// How often each is changed in a turn, and in how many turns.
#[derive(Clone, Copy)]
pub struct Turns {
    pub changes: usize,
    pub turns: usize,
}

impl Turns {
    /// For changes that check the whole memory, in a note with little room.
    pub const FEW: Turns = Turns {
        changes: 8,
        turns: TURNS,
    };
}

/// The microseconds that a change of each takes, and those of changing it back. In a turn all
/// changes are made first and then undone from the last on, so that no clock runs in between.
pub fn changes<const N: usize>(mut changers: [Changer; N], turns: Turns) -> [[f64; 2]; N] {
    let mut times = [(); N].map(|()| [Vec::new(), Vec::new()]);
    for turn in 0..WARM_UPS + turns.turns {
        let first = turn * turns.changes;
        let numbers = first..first + turns.changes;
        for (changer, times) in changers.iter_mut().zip(&mut times) {
            let there = timed(|| numbers.clone().for_each(|k| changer(Way::There, k)));
            let back = timed(|| numbers.clone().rev().for_each(|k| changer(Way::Back, k)));
            if turn >= WARM_UPS {
                for (times, took) in times.iter_mut().zip([there, back]) {
                    times.push(took.as_secs_f64() * 1e6 / turns.changes as f64);
                }
            }
        }
    }
    times.map(|both| both.map(median))
}
