//! Many whole sweeps of a full bench, for a clock outside to time.

use std::array;
use std::fmt;
use std::hint::black_box;

use crate::field::{Bench, Hearing};
use crate::frame::Name;
use crate::list::List;
use crate::order::Serial;
use crate::random::Random;
use crate::speed::full_bench;
use crate::sweep::{self, Outcome, Slot, MOST_ROWS};

/// What the generator begins with.
const SEED: u64 = 1;

/// More commands and slots than 64 tags take.
const BUDGET: u16 = 2000;
const SLOTS: usize = 1000;

/// What came of all the sweeps.
#[derive(Debug, Default, PartialEq)]
pub struct Total {
    sweeps: u64,
    whole: u64,
    lone: u64,
    silent: u64,
    clash: u64,
    commands: u64,
}

impl Total {
    fn take(&mut self, outcome: Outcome) {
        self.sweeps += 1;
        self.whole += u64::from(outcome.end.is_ok());
        self.lone += outcome.lone as u64;
        self.silent += outcome.silent as u64;
        self.clash += outcome.clash as u64;
        self.commands += u64::from(outcome.commands);
    }
}

impl fmt::Display for Total {
    fn fmt(&self, out: &mut fmt::Formatter) -> fmt::Result {
        let Total {
            sweeps,
            whole,
            lone,
            silent,
            clash,
            commands,
        } = self;
        write!(
            out,
            "{sweeps} sweeps: {whole} whole, {lone} lone, {silent} silent, {clash} clash, {commands} commands"
        )
    }
}

/// What all sweeps fill anew.
struct Storage {
    slots: [Slot; SLOTS],
    serials: [Serial; 64],
}

impl Storage {
    fn new() -> Storage {
        let unused = Slot {
            name: Name::Select,
            hearing: Hearing::Silence,
            waiting: 0,
        };
        Storage {
            slots: [unused; SLOTS],
            serials: [[0; 8]; 64],
        }
    }

    fn sweep(&mut self, bench: &mut Bench, rows: &[u64]) -> Outcome {
        let mut slots = List::new(&mut self.slots);
        let mut serials = List::new(&mut self.serials);
        let outcome = sweep::run(bench, rows, BUDGET, &mut slots, &mut serials);
        outcome.expect("there are as many rows as there may be")
    }
}

/// Sweeps 64 new tags so many times, each time by the next 64 words of the generator.
pub fn run(sweeps: u64) -> Total {
    let mut random = Random::new(SEED);
    let mut storage = Storage::new();
    let mut total = Total::default();
    for _ in 0..sweeps {
        let rows: [u64; MOST_ROWS] = array::from_fn(|_| random.word());
        total.take(storage.sweep(&mut full_bench(), black_box(&rows)));
    }
    total
}

#[cfg(test)]
mod tests {
    use super::*;

    #[test]
    fn no_sweep() {
        let line = "0 sweeps: 0 whole, 0 lone, 0 silent, 0 clash, 0 commands";
        assert_eq!(run(0).to_string(), line);
    }

    #[test]
    fn every_tag_is_read_once() {
        let total = run(20);
        assert_eq!((total.sweeps, total.whole), (20, 20));
        assert_eq!(total.lone, 20 * 64);
        assert_eq!(total.lone + total.silent, total.clash + 20);
        assert_eq!(
            total.commands,
            total.lone + total.silent + total.clash + total.lone + 20
        );
    }

    #[test]
    fn rows_come_anew_for_each_sweep() {
        let (one, two) = (run(1), run(2));
        assert_ne!(2 * one.clash, two.clash);
    }
}
