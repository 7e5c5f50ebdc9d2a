//! Questions about sweeps and their answers, as they are written down.

use std::fmt;

use crate::field::Hearing;
use crate::field_question;
use crate::fingerprint::Fingerprint;
use crate::frame::Name;
use crate::list::List;
use crate::order::{Serial, SERIAL_LENGTH};
use crate::sheet::Sheet;
use crate::sweep::{self, Slot};

/// How many rows there are to lend.
pub const SLOT_STORE: usize = 400;
pub const SERIAL_STORE: usize = 80;

const FILLING: u8 = 0xA5;

/// A row that no sweep writes.
const UNUSED: Slot = Slot {
    name: Name::Repeat,
    hearing: Hearing::Clash,
    waiting: FILLING,
};

/// What a sweep is given: commands, room in each list, and rows of coins.
#[derive(Clone, Debug, PartialEq)]
pub struct Plan {
    pub budget: u16,
    pub slots: usize,
    pub serials: usize,
    pub rows: Vec<u64>,
}

pub enum Question {
    /// What may be asked about a field too.
    Field(field_question::Question),
    Sweep(Plan),
}

/// The storage that is lent to every sweep of a play, always from its front.
pub struct Stores {
    pub slots: [Slot; SLOT_STORE],
    pub serials: [Serial; SERIAL_STORE],
}

impl Stores {
    pub fn new() -> Stores {
        Stores {
            slots: [UNUSED; SLOT_STORE],
            serials: [[FILLING; SERIAL_LENGTH]; SERIAL_STORE],
        }
    }

    /// Sweeps as planned, and tells the sheet and what there is afterwards.
    pub fn sweep(&mut self, plan: &Plan, play: &mut field_question::Play) -> String {
        let mut slots = List::new(&mut self.slots[..plan.slots]);
        let mut serials = List::new(&mut self.serials[..plan.serials]);
        let field = &mut *play.field;
        let swept = sweep::run(field, &plan.rows, plan.budget, &mut slots, &mut serials);
        let told = match swept {
            Ok(outcome) => {
                let (slots, serials) = (slots.rows(), serials.rows());
                let sheet = Sheet {
                    slots,
                    serials,
                    outcome,
                };
                format!("{sheet}swept")
            }
            Err(refusal) => format!("refused {}", refusal as u8),
        };
        let (slots, serials) = (self.slots_digest(), self.serials_digest());
        format!("{told} {} {slots} {serials}", play.digest())
    }

    fn slots_digest(&self) -> Fingerprint {
        let mut digest = Fingerprint::new();
        for slot in &self.slots {
            digest.take(&[slot.name as u8, slot.hearing as u8, slot.waiting]);
        }
        digest
    }

    fn serials_digest(&self) -> Fingerprint {
        Fingerprint::of(self.serials.as_flattened())
    }
}

/// What lasts from one question to the next, until the end.
pub struct Play {
    pub field: field_question::Play,
    pub stores: Stores,
}

impl Play {
    pub fn new() -> Play {
        Play {
            field: field_question::Play::new(),
            stores: Stores::new(),
        }
    }
}

impl Question {
    /// Does in the play what is asked and tells what came of it.
    pub fn answer(&self, play: &mut Play) -> String {
        match self {
            Question::Field(question) => {
                if matches!(question, field_question::Question::End) {
                    play.stores = Stores::new();
                }
                question.answer(&mut play.field)
            }
            Question::Sweep(plan) => play.stores.sweep(plan, &mut play.field),
        }
    }

    /// How many fingerprints end its answer.
    pub fn fingerprints(&self) -> usize {
        match self {
            Question::Field(question) => question.fingerprints(),
            Question::Sweep(_) => 3,
        }
    }
}

impl fmt::Display for Question {
    fn fmt(&self, out: &mut fmt::Formatter) -> fmt::Result {
        match self {
            Question::Field(question) => write!(out, "{question}"),
            Question::Sweep(plan) => write!(out, "{plan}"),
        }
    }
}

impl fmt::Display for Plan {
    fn fmt(&self, out: &mut fmt::Formatter) -> fmt::Result {
        write!(out, "sweep {} {} {}", self.budget, self.slots, self.serials)?;
        for row in &self.rows {
            write!(out, " {row:016X}")?;
        }
        Ok(())
    }
}

#[cfg(test)]
mod tests {
    use super::*;
    use crate::nesting::Nesting;
    use crate::tag::{State, Tag, MEMORY_LENGTH};

    const SHEET: &str = "     1     0     2     0
     2     8     1     1
     3     9     1     0
 239   4   2   0   0   0   0   1
 239   4   2   0   0   0   0   2
     0     2     0     1     6
";

    fn add(number: u8) -> Question {
        let mut memory = [0; MEMORY_LENGTH];
        memory[..8].copy_from_slice(&[0xEF, 0x04, 2, 0, 0, 0, 0, number]);
        let tag = Tag::new(memory);
        Question::Field(field_question::Question::Tag { tag, told: 8 })
    }

    fn field(text: &str) -> Question {
        let nesting = Nesting::read(text).expect("the words are right");
        Question::Field(field_question::Question::Field(nesting))
    }

    fn sweep(budget: u16, rooms: (usize, usize), rows: &[u64]) -> Question {
        Question::Sweep(Plan {
            budget,
            slots: rooms.0,
            serials: rooms.1,
            rows: rows.to_vec(),
        })
    }

    /// Two new tags in a field of this kind.
    fn two(text: &str) -> Play {
        let mut play = Play::new();
        for question in [add(1), add(2), field(text)] {
            question.answer(&mut play);
        }
        play
    }

    /// The fingerprints of stores whose first rows are these.
    fn stores(slots: &[(u8, u8, u8)], serials: &[Serial]) -> String {
        let mut bytes = [0x15, 2, 0xA5].repeat(400);
        for (row, &(code, hearing, waiting)) in bytes.chunks_mut(3).zip(slots) {
            row.copy_from_slice(&[code, hearing, waiting]);
        }
        let mut numbers = vec![0xA5; 640];
        numbers[..8 * serials.len()].copy_from_slice(serials.as_flattened());
        format!("{} {}", Fingerprint::of(&bytes), Fingerprint::of(&numbers))
    }

    #[test]
    fn the_lines_of_questions() {
        for (question, line) in [
            (
                sweep(100, (400, 80), &[2]),
                "sweep 100 400 80 0000000000000002",
            ),
            (sweep(0, (0, 0), &[]), "sweep 0 0 0"),
            (
                sweep(u16::MAX, (7, 8), &[u64::MAX, 0x1F]),
                "sweep 65535 7 8 FFFFFFFFFFFFFFFF 000000000000001F",
            ),
            (add(3), "tag READY 0 00 0 - C0000000000000 EF04020000000003"),
            (field("spoiler 2 bench 1"), "field spoiler 2 bench 1"),
        ] {
            assert_eq!(question.to_string(), line);
        }
    }

    #[test]
    fn a_sheet_and_what_there_is_afterwards() {
        let mut play = two("bench 2");
        let answer = sweep(100, (400, 80), &[2]).answer(&mut play);
        let tags = play.field.digest();
        let slots = [(0, 2, 0), (8, 1, 1), (9, 1, 0)];
        let serials = [[239, 4, 2, 0, 0, 0, 0, 1], [239, 4, 2, 0, 0, 0, 0, 2]];
        let stores = stores(&slots, &serials);
        assert_eq!(answer, format!("{SHEET}swept {tags} {stores}"));
        let mut places = (0..2).map(|place| play.field.field.tag(place));
        assert!(places.all(|tag| tag.state == State::Inventoried));
    }

    #[test]
    fn known_fingerprints() {
        let untouched = "43D388953EE66825 B3E5F654764A0EA5";
        assert_eq!(stores(&[], &[]), untouched);
        let mut play = two("bench 2");
        let answer = sweep(0, (400, 80), &[2]).answer(&mut play);
        let line = "     8     0     0     0     0\nswept";
        let tags = play.field.digest();
        assert_eq!(answer, format!("{line} {tags} {untouched}"));
    }

    #[test]
    fn rows_of_earlier_sweeps_stand_behind() {
        let mut play = two("bench 2");
        sweep(100, (400, 80), &[2]).answer(&mut play);
        let answer = sweep(100, (400, 80), &[2]).answer(&mut play);
        let slots = [(0, 0, 0), (8, 1, 1), (9, 1, 0)];
        let serials = [[239, 4, 2, 0, 0, 0, 0, 1], [239, 4, 2, 0, 0, 0, 0, 2]];
        let tags = play.field.digest();
        let stores = stores(&slots, &serials);
        let sheet = "     1     0     0     0\n     0     0     1     0     2\n";
        assert_eq!(answer, format!("{sheet}swept {tags} {stores}"));
    }

    #[test]
    fn only_what_is_lent_is_written() {
        let mut play = two("bench 2");
        let answer = sweep(100, (2, 1), &[2]).answer(&mut play);
        let slots = [(0, 2, 0), (8, 1, 1)];
        let stores = stores(&slots, &[[239, 4, 2, 0, 0, 0, 0, 1]]);
        assert!(answer.ends_with(&stores), "{answer}");
        assert!(answer.contains("\n     9     1     0     1     3\nswept "));
    }

    #[test]
    fn a_refused_sweep_changes_nothing() {
        for rows in [0, 65, 100] {
            let mut play = two("bench 2");
            sweep(2, (400, 80), &[2]).answer(&mut play);
            let tags = play.field.digest();
            let stores = stores(&[(0, 2, 0), (8, 1, 1)], &[[239, 4, 2, 0, 0, 0, 0, 1]]);
            let answer = sweep(100, (400, 80), &vec![2; rows]).answer(&mut play);
            assert_eq!(answer, format!("refused 10 {tags} {stores}"));
            assert_eq!(play.field.digest(), tags);
        }
    }

    #[test]
    fn sweeps_leave_the_buffer_of_sends_alone() {
        let mut play = two("bench 2");
        let send = |room| {
            let (row, frame) = (0, vec![]);
            Question::Field(field_question::Question::Send { row, room, frame })
        };
        let before = send(0).answer(&mut play);
        let last = |answer: &str| answer.split(' ').nth(2).map(str::to_string);
        sweep(100, (400, 80), &[2]).answer(&mut play);
        let after = send(0).answer(&mut play);
        assert_eq!(last(&before), last(&after));
    }

    #[test]
    fn after_the_end_everything_is_new() {
        let mut play = two("bench 2");
        sweep(100, (400, 80), &[2]).answer(&mut play);
        let end = Question::Field(field_question::Question::End);
        assert_eq!(
            (end.to_string(), end.answer(&mut play)),
            ("end".into(), "end".into())
        );
        let answer = sweep(0, (400, 80), &[2]).answer(&mut play);
        assert!(answer.ends_with(&stores(&[], &[])), "{answer}");
        assert_eq!(add(1).answer(&mut play), "1");
    }
}
