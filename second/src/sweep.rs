//! Sweeps: one tag after the other is told apart and read, until none is left.

use std::iter::Cycle;
use std::slice;

use crate::field::{Field, Hearing, REPLY_ROOM};
use crate::frame::{self, Name};
use crate::list::{Full, List};
use crate::order::{Serial, SERIAL_LENGTH};

/// How many rows of coins there may be.
pub const MOST_ROWS: usize = 64;

/// Selects the tags whose first two bytes are these.
const SELECTION: [u8; 10] = [0x00, 0xC0, 0xEF, 0x04, 0, 0, 0, 0, 0, 0];

/// Where each tag is read.
const ADDRESS: u8 = 0x00;

/// Why a sweep is not begun; the number is part of the answers.
#[derive(Clone, Copy, Debug, PartialEq, Eq, Hash)]
pub enum Refusal {
    WrongNumberOfRows = 10,
}

/// Why a sweep ends early; the numbers are part of the answers.
#[derive(Clone, Copy, Debug, PartialEq, Eq, Hash)]
pub enum Stop {
    TooDeep = 7,
    Spent = 8,
    Full = 9,
}

impl From<Full> for Stop {
    fn from(_: Full) -> Stop {
        Stop::Full
    }
}

/// A command after which any selected tag may reply.
#[derive(Clone, Copy, Debug, PartialEq, Eq, Hash)]
pub struct Slot {
    pub name: Name,
    pub hearing: Hearing,
    /// How many groups wait behind the one in turn.
    pub waiting: u8,
}

#[derive(Clone, Copy, Debug, PartialEq)]
pub struct Outcome {
    pub end: Result<(), Stop>,
    pub lone: usize,
    pub silent: usize,
    pub clash: usize,
    pub commands: u16,
}

impl Outcome {
    pub fn number(&self) -> u8 {
        self.end.map_or_else(|stop| stop as u8, |()| 0)
    }
}

/// Sweeps the field with these rows of coins and at most so many commands.
pub fn run<'a, F: Field + ?Sized>(
    field: &mut F,
    rows: &[u64],
    budget: u16,
    slots: &mut List<'a, Slot>,
    serials: &mut List<'a, Serial>,
) -> Result<Outcome, Refusal> {
    if !(1..=MOST_ROWS).contains(&rows.len()) {
        return Err(Refusal::WrongNumberOfRows);
    }
    slots.clear();
    serials.clear();
    let mut sweep = Sweep {
        field,
        coins: rows.iter().cycle(),
        left: budget,
        waiting: 0,
        slots,
        serials,
        buffer: [0; REPLY_ROOM],
    };
    let end = sweep.work();
    let commands = budget - sweep.left;
    let count = |hearing| {
        let rows = slots.rows().iter();
        rows.filter(|slot| slot.hearing == hearing).count()
    };
    Ok(Outcome {
        end,
        lone: count(Hearing::Lone),
        silent: count(Hearing::Silence),
        clash: count(Hearing::Clash),
        commands,
    })
}

struct Sweep<'a, 'b, F: ?Sized> {
    field: &'a mut F,
    coins: Cycle<slice::Iter<'a, u64>>,
    /// How many commands may still be sent.
    left: u16,
    waiting: u8,
    slots: &'a mut List<'b, Slot>,
    serials: &'a mut List<'b, Serial>,
    buffer: [u8; REPLY_ROOM],
}

impl<F: Field + ?Sized> Sweep<'_, '_, F> {
    fn work(&mut self) -> Result<(), Stop> {
        let mut heard = self.select()?;
        loop {
            if heard == Hearing::Lone {
                self.take_out()?;
            }
            if heard == Hearing::Clash {
                heard = self.split()?;
            } else if self.waiting > 0 {
                heard = self.move_up()?;
            } else {
                return self.close();
            }
        }
    }

    fn select(&mut self) -> Result<Hearing, Stop> {
        self.expect_slot()?;
        self.slot(Name::Select, &SELECTION, 0)
    }

    /// Lets the coins part the group in turn.
    fn split(&mut self) -> Result<Hearing, Stop> {
        let waiting = self.waiting.checked_add(1).ok_or(Stop::TooDeep)?;
        self.expect_slot()?;
        let row = *self.coins.next().expect("there is at least one row");
        self.waiting = waiting;
        self.slot(Name::Query, &[], row)
    }

    /// Lets the next group have its turn.
    fn move_up(&mut self) -> Result<Hearing, Stop> {
        self.expect_slot()?;
        self.waiting -= 1;
        self.slot(Name::Scroll, &[], 0)
    }

    /// Lists the tag that was heard alone, and reads it until that is heard alone too.
    fn take_out(&mut self) -> Result<(), Stop> {
        let serial: Serial = *self
            .buffer
            .first_chunk()
            .expect("the buffer is longer than a serial number");
        self.serials.push(serial)?;
        let mut target = [ADDRESS; SERIAL_LENGTH + 1];
        target[..SERIAL_LENGTH].copy_from_slice(&serial);
        while self.send(Name::Read, &target, 0)? != Hearing::Lone {}
        Ok(())
    }

    /// The last command, which opens no slot.
    fn close(&mut self) -> Result<(), Stop> {
        self.send(Name::Repeat, &[], 0).map(|_| ())
    }

    /// Whether a slot may be opened now; what is spent comes before what is full.
    fn expect_slot(&self) -> Result<(), Stop> {
        match (self.left, self.slots.is_full()) {
            (0, _) => Err(Stop::Spent),
            (_, true) => Err(Stop::Full),
            (_, false) => Ok(()),
        }
    }

    fn slot(&mut self, name: Name, parameters: &[u8], row: u64) -> Result<Hearing, Stop> {
        let hearing = self.send(name, parameters, row)?;
        self.slots.push(Slot {
            name,
            hearing,
            waiting: self.waiting,
        })?;
        Ok(hearing)
    }

    fn send(&mut self, name: Name, parameters: &[u8], row: u64) -> Result<Hearing, Stop> {
        self.left = self.left.checked_sub(1).ok_or(Stop::Spent)?;
        let mut frame = [0; frame::LONGEST];
        let length = frame::put(name as u8, parameters, &mut frame);
        let heard = self.field.send(&frame[..length], row, &mut self.buffer);
        Ok(heard.expect("the buffer has room for every reply"))
    }
}

#[cfg(test)]
mod tests {
    use super::*;
    use crate::field::{Bench, Single};
    use crate::frame::sealed_with;
    use crate::layers::{Pair, Spoiler};
    use crate::listener::{Listener, Sent};
    use crate::tag::{State, Tag, MEMORY_LENGTH};
    use crate::tag_asker::access_frame;

    const UNUSED: Slot = Slot {
        name: Name::Repeat,
        hearing: Hearing::Clash,
        waiting: 0xA5,
    };

    fn serial(number: u8) -> Serial {
        [0xEF, 0x04, 2, 0, 0, 0, 0, number]
    }

    fn tag(number: u8) -> Tag {
        let mut memory = [0; MEMORY_LENGTH];
        memory[..8].copy_from_slice(&serial(number));
        Tag::new(memory)
    }

    fn bench(numbers: &[u8]) -> Bench {
        let tags = numbers.iter().map(|&number| tag(number)).collect();
        Bench::new(tags).expect("there are not too many")
    }

    /// All that came of a sweep, the storage of its lists too.
    struct Swept {
        outcome: Result<Outcome, Refusal>,
        slots: Vec<Slot>,
        serials: Vec<Serial>,
        sent: Vec<Sent>,
    }

    impl Swept {
        fn outcome(&self) -> Outcome {
            self.outcome.expect("the sweep is not refused")
        }

        /// The end, and how many slots, serial numbers and commands there are.
        fn counts(&self) -> (u8, usize, usize, u16) {
            let used = self.slots.iter().filter(|&&slot| slot != UNUSED);
            let listed = self.serials.iter().filter(|&&serial| serial != [0xA5; 8]);
            let outcome = self.outcome();
            (
                outcome.number(),
                used.count(),
                listed.count(),
                outcome.commands,
            )
        }

        /// A slot's code, hearing number and groups that wait.
        fn slots(&self) -> Vec<(u8, u8, u8)> {
            let used = self.slots.iter().filter(|&&slot| slot != UNUSED);
            used.map(|slot| (slot.name as u8, slot.hearing as u8, slot.waiting))
                .collect()
        }

        fn codes(&self) -> Vec<u8> {
            self.sent.iter().map(|sent| sent.frame[0]).collect()
        }
    }

    fn sweep(field: &mut impl Field, rows: &[u64], budget: u16, rooms: (usize, usize)) -> Swept {
        let mut slots = vec![UNUSED; rooms.0];
        let mut serials = vec![[0xA5; 8]; rooms.1];
        let mut listener = Listener::new(field);
        let outcome = run(
            &mut listener,
            rows,
            budget,
            &mut List::new(&mut slots),
            &mut List::new(&mut serials),
        );
        Swept {
            outcome,
            slots,
            serials,
            sent: listener.sent,
        }
    }

    fn whole(lone: usize, silent: usize, clash: usize, commands: u16) -> Outcome {
        Outcome {
            end: Ok(()),
            lone,
            silent,
            clash,
            commands,
        }
    }

    #[test]
    fn two_tags() {
        let mut bench = bench(&[1, 2]);
        let swept = sweep(&mut bench, &[2], 100, (9, 9));
        assert_eq!(swept.slots(), [(0, 2, 0), (8, 1, 1), (9, 1, 0)]);
        assert_eq!(swept.serials[..3], [serial(1), serial(2), [0xA5; 8]]);
        assert_eq!(swept.outcome(), whole(2, 0, 1, 6));
        let sent = |frame: &[u8], row, heard| Sent {
            frame: frame.to_vec(),
            row,
            heard,
        };
        let read = |number| access_frame(Name::Read, &serial(number), 0, &[]);
        let select = sealed_with(0x00, &[0, 0xC0, 0xEF, 0x04, 0, 0, 0, 0, 0, 0]);
        let expected = [
            sent(&select, 0, Hearing::Clash),
            sent(&[0x08, 0x9F, 0x07], 2, Hearing::Lone),
            sent(&read(1), 0, Hearing::Lone),
            sent(&[0x09, 0x8F, 0x26], 0, Hearing::Lone),
            sent(&read(2), 0, Hearing::Lone),
            sent(&[0x15, 0x5C, 0x9B], 0, Hearing::Silence),
        ];
        assert_eq!(swept.sent, expected);
        assert!((0..2).all(|place| bench.tag(place).state == State::Inventoried));
    }

    #[test]
    fn no_tags() {
        let swept = sweep(&mut bench(&[]), &[0], 2, (1, 0));
        assert_eq!(swept.slots(), [(0, 0, 0)]);
        assert_eq!(swept.outcome(), whole(0, 1, 0, 2));
        assert_eq!(swept.codes(), [0x00, 0x15]);
    }

    #[test]
    fn only_what_is_selected_is_swept() {
        let mut other = tag(2);
        other.memory[1] = 0x05;
        let mut taken = tag(3);
        taken.state = State::Inventoried;
        let mut waiting = tag(4);
        (waiting.state, waiting.counter) = (State::Singulation, 9);
        let tags = vec![tag(1), other.clone(), taken.clone(), waiting];
        let mut bench = Bench::new(tags).expect("four are few");
        let swept = sweep(&mut bench, &[1], 100, (9, 9));
        assert_eq!(swept.outcome(), whole(2, 0, 1, 6));
        assert_eq!(swept.serials[..2], [serial(4), serial(1)]);
        assert_eq!((bench.tag(1), bench.tag(2)), (&other, &taken));
    }

    #[test]
    fn rows_are_drawn_in_turn_and_over_again() {
        let rows = [7, 0, 6];
        let swept = sweep(&mut bench(&[1, 2, 3]), &rows, 100, (20, 9));
        // All lose, come back, stay together, are parted, and two are parted anew.
        let tossed: Vec<u64> = swept
            .sent
            .iter()
            .filter(|sent| sent.frame[0] == 0x08)
            .map(|sent| sent.row)
            .collect();
        assert_eq!(tossed[..4], [7, 0, 6, 7]);
        assert!(swept
            .sent
            .iter()
            .all(|sent| sent.frame[0] == 0x08 || sent.row == 0));
        let first = [
            (0, 2, 0),
            (8, 0, 1),
            (9, 2, 0),
            (8, 2, 1),
            (8, 1, 2),
            (9, 2, 1),
        ];
        assert_eq!(swept.slots()[..6], first);
    }

    #[test]
    fn too_few_and_too_many_rows() {
        for rows in [0, 65, 66, 1000] {
            let mut bench = bench(&[1]);
            let mut slots = [UNUSED; 2];
            let mut serials = [[0xA5; 8]; 2];
            let mut slot_list = List::new(&mut slots);
            let mut serial_list = List::new(&mut serials);
            assert_eq!(slot_list.push(UNUSED), Ok(()));
            assert_eq!(serial_list.push([0xA5; 8]), Ok(()));
            let rows = vec![1; rows];
            let outcome = run(&mut bench, &rows, 9, &mut slot_list, &mut serial_list);
            assert_eq!(outcome, Err(Refusal::WrongNumberOfRows));
            assert_eq!((slot_list.rows().len(), serial_list.rows().len()), (1, 1));
            assert_eq!(bench.tag(0), &tag(1));
        }
        for rows in [1, 2, 63, 64] {
            let swept = sweep(&mut bench(&[1]), &vec![1; rows], 9, (9, 9));
            assert_eq!(swept.outcome(), whole(1, 0, 0, 3));
        }
        assert_eq!(Refusal::WrongNumberOfRows as u8, 10);
    }

    #[test]
    fn lists_are_started_anew() {
        let mut slots = [UNUSED; 3];
        let mut serials = [[0xA5; 8]; 3];
        let mut slot_list = List::new(&mut slots);
        let mut serial_list = List::new(&mut serials);
        for (numbers, lone) in [(&[1, 2][..], 2), (&[3], 1), (&[], 0)] {
            let mut bench = bench(numbers);
            let outcome = run(&mut bench, &[2], 100, &mut slot_list, &mut serial_list);
            assert_eq!(outcome.map(|outcome| outcome.lone), Ok(lone));
            assert_eq!(serial_list.rows().len(), lone);
            assert_eq!(slot_list.rows().len(), if lone == 2 { 3 } else { 1 });
        }
        let left: Vec<u8> = slots.iter().map(|slot| slot.name as u8).collect();
        assert_eq!(left, [0x00, 0x08, 0x09]);
        assert_eq!(serials, [serial(3), serial(2), [0xA5; 8]]);
    }

    #[test]
    fn every_budget() {
        for (budget, slots, serials) in [
            (0, 0, 0),
            (1, 1, 0),
            (2, 2, 1),
            (3, 2, 1),
            (4, 3, 2),
            (5, 3, 2),
        ] {
            let swept = sweep(&mut bench(&[1, 2]), &[2], budget, (9, 9));
            assert_eq!(swept.counts(), (8, slots, serials, budget));
            assert_eq!(swept.sent.len(), usize::from(budget));
        }
        for budget in [6, 7, u16::MAX] {
            let swept = sweep(&mut bench(&[1, 2]), &[2], budget, (9, 9));
            assert_eq!(swept.counts(), (0, 3, 2, 6));
        }
    }

    #[test]
    fn a_budget_of_no_tags() {
        for (budget, number, slots) in [(0, 8, 0), (1, 8, 1), (2, 0, 1), (3, 0, 1)] {
            let swept = sweep(&mut bench(&[]), &[2], budget, (9, 9));
            assert_eq!(swept.counts(), (number, slots, 0, budget.min(2)));
        }
    }

    #[test]
    fn every_room_of_slots() {
        for (room, serials, commands) in [(0, 0, 0), (1, 0, 1), (2, 1, 3)] {
            let swept = sweep(&mut bench(&[1, 2]), &[2], 100, (room, 9));
            assert_eq!(swept.counts(), (9, room, serials, commands));
        }
        let swept = sweep(&mut bench(&[1, 2]), &[2], 100, (3, 9));
        assert_eq!(swept.counts(), (0, 3, 2, 6));
    }

    #[test]
    fn every_room_of_serial_numbers() {
        for (room, slots, commands) in [(0, 2, 2), (1, 3, 4)] {
            let swept = sweep(&mut bench(&[1, 2]), &[2], 100, (9, room));
            assert_eq!(swept.counts(), (9, slots, room, commands));
        }
        let swept = sweep(&mut bench(&[1, 2]), &[2], 100, (9, 2));
        assert_eq!(swept.counts(), (0, 3, 2, 6));
    }

    #[test]
    fn spent_comes_before_full_slots_and_after_full_serial_numbers() {
        for (budget, rooms, expected) in [
            (0, (0, 0), (8, 0, 0, 0)),
            (1, (0, 0), (9, 0, 0, 0)),
            (1, (1, 0), (8, 1, 0, 1)),
            (2, (1, 0), (9, 1, 0, 1)),
            (2, (2, 0), (9, 2, 0, 2)),
            (2, (2, 1), (8, 2, 1, 2)),
            (3, (2, 1), (8, 2, 1, 3)),
            (4, (2, 1), (9, 2, 1, 3)),
            (4, (3, 1), (9, 3, 1, 4)),
            (4, (3, 2), (8, 3, 2, 4)),
            (5, (3, 2), (8, 3, 2, 5)),
            (6, (3, 2), (0, 3, 2, 6)),
        ] {
            let swept = sweep(&mut bench(&[1, 2]), &[2], budget, rooms);
            assert_eq!(swept.counts(), expected, "{budget} {rooms:?}");
        }
    }

    #[test]
    fn two_that_never_part() {
        let deep = |budget, room| sweep(&mut bench(&[1, 2]), &[0], budget, (room, 9)).counts();
        for (budget, room) in [(u16::MAX, 400), (256, 400), (u16::MAX, 256), (256, 256)] {
            assert_eq!(deep(budget, room), (7, 256, 0, 256));
        }
        assert_eq!(deep(255, 400), (8, 255, 0, 255));
        assert_eq!(deep(u16::MAX, 255), (9, 255, 0, 255));
        assert_eq!(deep(255, 255), (8, 255, 0, 255));
        let swept = sweep(&mut bench(&[1, 2]), &[0], 1000, (400, 9));
        let groups: Vec<u8> = swept.slots[..256].iter().map(|slot| slot.waiting).collect();
        assert!(groups.iter().copied().eq(0..=u8::MAX));
        assert_eq!(swept.outcome().clash, 256);
    }

    #[test]
    fn the_deepest_group_may_be_left_again() {
        let mut rows = [0; 64];
        rows[2] = 1;
        let mut field = Spoiler::new(1, Single(tag(1))).expect("there is a period");
        let swept = sweep(&mut field, &rows, u16::MAX, (400, 9));
        assert_eq!(swept.counts(), (7, 266, 0, 266));
        let end = [(8, 2, 254), (8, 0, 255), (9, 2, 254), (8, 2, 255)];
        assert_eq!(swept.slots()[262..], end);
        let silent = swept.slots().iter().filter(|slot| slot.1 == 0).count();
        assert_eq!((swept.outcome().silent, silent), (5, 5));
    }

    #[test]
    fn reading_goes_on_until_it_is_heard_alone() {
        let mut field = Spoiler::new(2, bench(&[1, 2])).expect("there is a period");
        let swept = sweep(&mut field, &[2], 100, (9, 9));
        let reads = [0x00, 0x08, 0x0C, 0x0C, 0x09, 0x08];
        assert_eq!(swept.codes()[..6], reads);
        assert_eq!(swept.serials[..2], [serial(1), serial(2)]);
        let reads = swept.codes().iter().filter(|&&code| code == 0x0C).count();
        let commands = swept.slots().len() + reads + 1;
        assert_eq!(usize::from(swept.outcome().commands), commands);
    }

    #[test]
    fn twins_are_read_until_the_budget_is_spent() {
        for budget in [3, 4, 50, u16::MAX] {
            let swept = sweep(&mut bench(&[1, 1]), &[2], budget, (9, 9));
            assert_eq!(swept.counts(), (8, 2, 1, budget));
            assert!(swept.codes()[2..].iter().all(|&code| code == 0x0C));
        }
    }

    #[test]
    fn every_half_of_a_pair_has_its_coins() {
        let mut pair = Pair::new(bench(&[1]), bench(&[2, 3])).expect("three are few");
        let swept = sweep(&mut pair, &[0b101], 100, (9, 9));
        assert_eq!(swept.serials[0], serial(2));
        assert_eq!(swept.slots()[..2], [(0, 2, 0), (8, 1, 1)]);
    }
}
