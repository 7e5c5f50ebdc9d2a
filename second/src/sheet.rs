//! What is printed of a sweep.

use std::fmt;

use crate::order::Serial;
use crate::sweep::{Outcome, Slot};

/// A line for each slot, a line for each serial number, and a line that sums up.
pub struct Sheet<'a> {
    pub slots: &'a [Slot],
    pub serials: &'a [Serial],
    pub outcome: Outcome,
}

impl fmt::Display for Sheet<'_> {
    fn fmt(&self, out: &mut fmt::Formatter) -> fmt::Result {
        for (number, slot) in (1..).zip(self.slots) {
            write_slot(out, number, slot)?;
        }
        for serial in self.serials {
            write_serial(out, serial)?;
        }
        write_outcome(out, &self.outcome)
    }
}

fn write_slot(out: &mut fmt::Formatter, number: usize, slot: &Slot) -> fmt::Result {
    let (code, hearing) = (slot.name as u8, slot.hearing as u8);
    writeln!(out, "{number:6}{code:6}{hearing:6}{:6}", slot.waiting)
}

fn write_serial(out: &mut fmt::Formatter, serial: &Serial) -> fmt::Result {
    for byte in serial {
        write!(out, "{byte:4}")?;
    }
    writeln!(out)
}

fn write_outcome(out: &mut fmt::Formatter, outcome: &Outcome) -> fmt::Result {
    let end = outcome.number();
    let Outcome {
        lone,
        silent,
        clash,
        commands,
        ..
    } = outcome;
    writeln!(out, "{end:6}{lone:6}{silent:6}{clash:6}{commands:6}")
}

#[cfg(test)]
mod tests {
    use super::*;
    use crate::field::Hearing;
    use crate::frame::Name;
    use crate::sweep::Stop;

    fn slot(name: Name, hearing: Hearing, waiting: u8) -> Slot {
        Slot {
            name,
            hearing,
            waiting,
        }
    }

    fn printed(slots: &[Slot], serials: &[Serial], outcome: Outcome) -> String {
        let sheet = Sheet {
            slots,
            serials,
            outcome,
        };
        sheet.to_string()
    }

    #[test]
    fn nothing_but_the_last_line() {
        let outcome = Outcome {
            end: Err(Stop::Spent),
            lone: 0,
            silent: 0,
            clash: 0,
            commands: 0,
        };
        let line = "     8     0     0     0     0\n";
        assert_eq!(printed(&[], &[], outcome), line);
    }

    #[test]
    fn every_column() {
        let slots = [
            slot(Name::Select, Hearing::Clash, 0),
            slot(Name::Query, Hearing::Silence, 1),
            slot(Name::Scroll, Hearing::Lone, 0),
            slot(Name::Repeat, Hearing::Clash, 255),
        ];
        let serials = [[0, 1, 9, 10, 99, 100, 254, 255], [239, 4, 0, 0, 0, 0, 0, 7]];
        let outcome = Outcome {
            end: Err(Stop::TooDeep),
            lone: 1,
            silent: 23,
            clash: 456,
            commands: 65535,
        };
        let lines = "     1     0     2     0
     2     8     0     1
     3     9     1     0
     4    21     2   255
   0   1   9  10  99 100 254 255
 239   4   0   0   0   0   0   7
     7     1    23   456 65535
";
        assert_eq!(printed(&slots, &serials, outcome), lines);
    }

    #[test]
    fn long_numbers_are_whole() {
        let outcome = Outcome {
            end: Ok(()),
            lone: 123_456,
            silent: 1_234_567,
            clash: 0,
            commands: 1,
        };
        let line = "     01234561234567     0     1\n";
        assert_eq!(printed(&[], &[], outcome), line);
    }
}
