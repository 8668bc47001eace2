//! Steps of a machine's threads in turn, counted by what they came to.

use crate::machine::Outcome;

#[derive(Default)]
pub struct Steps {
    pub advances: u64,
    pub waits: u64,
    pub ended: u64,
    pub stuck: u64,
}

/// So many steps, of each of the threads 1, 2, … in turn.
pub fn in_turn(threads: usize, steps: u64, mut step: impl FnMut(usize) -> Outcome) -> Steps {
    let mut sums = Steps::default();
    let mut thread = 0;
    for _ in 0..steps {
        thread = if thread == threads { 1 } else { thread + 1 };
        match step(thread) {
            Outcome::Advanced => sums.advances += 1,
            Outcome::Waits(_) => sums.waits += 1,
            Outcome::Ended => sums.ended += 1,
            Outcome::Stuck => sums.stuck += 1,
        }
    }
    sums
}
