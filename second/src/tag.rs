//! One tag: what it remembers, what a frame changes in it, and what it replies.

use crate::frame::{self, Refusal, CHECK_LENGTH};
use crate::order::{selects, Access, Comparison, Order, Serial, BLOCK_LENGTH, SERIAL_LENGTH};

pub const MEMORY_LENGTH: usize = 56;

/// How many bytes a verification gives.
const VERIFIED_LENGTH: u16 = 4;

/// Set by a change, it is still there on the next frame, but not on the one after.
const MARKED: u8 = 2;

/// Without power for this long, in microseconds, the tag starts anew.
const RESTART_GAP: u32 = 250;

/// The ID flag outlasts a much longer gap.
const FORGETTING_GAP: u32 = 4_000_000;

const DONE: u8 = 0x00;
const FAILED: u8 = 0xFF;

#[derive(Clone, Copy, Debug, PartialEq, Eq, Hash)]
pub enum State {
    Ready,
    Singulation,
    Inventoried,
}

/// A bit for each address, that of address 00 the highest of the first byte.
#[derive(Clone, Copy, Debug, PartialEq)]
pub struct Locks(pub [u8; MEMORY_LENGTH / 8]);

impl Locks {
    /// What no tag is without.
    const NEW: Locks = Locks([0xC0, 0, 0, 0, 0, 0, 0]);

    /// Whatever lies behind the memory counts as locked.
    pub fn locked(self, address: usize) -> bool {
        match self.0.get(address / 8) {
            Some(&bits) => selects(bits, address % 8),
            None => true,
        }
    }

    fn lock(&mut self, address: usize) {
        self.0[address / 8] |= 0x80 >> (address % 8);
    }
}

/// What a tag replies, to be written out by it before its next step.
#[derive(Clone, Copy, Debug, PartialEq)]
pub enum Reply {
    Memory { address: u8, length: u16 },
    Byte(u8),
}

impl Reply {
    /// How many bytes, the check value left out.
    fn length(self) -> usize {
        match self {
            Reply::Memory { length, .. } => usize::from(length),
            Reply::Byte(_) => 1,
        }
    }
}

const SERIAL_NUMBER: Reply = Reply::Memory {
    address: 0,
    length: SERIAL_LENGTH as u16,
};

#[derive(Clone, Debug, PartialEq)]
pub struct Tag {
    pub memory: [u8; MEMORY_LENGTH],
    pub locks: Locks,
    pub state: State,
    pub id_flag: bool,
    pub counter: u8,
    /// Falls with every frame; until it is gone, a change is confirmed.
    pub mark: u8,
    /// The one address that the next frame may lock.
    pub permission: Option<u8>,
}

impl Tag {
    pub fn new(memory: [u8; MEMORY_LENGTH]) -> Tag {
        Tag {
            memory,
            locks: Locks::NEW,
            state: State::Ready,
            id_flag: false,
            counter: 0,
            mark: 0,
            permission: None,
        }
    }

    pub fn serial(&self) -> &Serial {
        self.memory
            .first_chunk()
            .expect("the memory is longer than a serial number")
    }

    /// The byte there; behind the memory there are only zeros.
    pub fn byte(&self, address: usize) -> u8 {
        self.memory.get(address).copied().unwrap_or(0)
    }

    /// So many microseconds without power.
    pub fn gap(&mut self, microseconds: u32) {
        if microseconds >= RESTART_GAP {
            self.state = State::Ready;
            self.counter = 0;
            self.mark = 0;
            self.permission = None;
        }
        if microseconds >= FORGETTING_GAP {
            self.id_flag = false;
        }
    }

    /// Takes in a frame, which has been opened once for all tags that hear it.
    // A loop over tags spends its time here, so that a call would be felt.
    #[inline(always)]
    pub fn step(&mut self, opened: &Result<Order, Refusal>, coin: bool) -> Option<Reply> {
        self.mark = self.mark.saturating_sub(1);
        let permission = self.permission.take();
        match opened {
            Ok(order) => self.obey(order, permission, coin),
            Err(Refusal::TooShort | Refusal::WrongCheck) => {
                self.state = State::Ready;
                None
            }
            Err(_) => None,
        }
    }

    /// The reply's bytes with their check value.
    pub fn written(&self, reply: Reply) -> Vec<u8> {
        let mut bytes = vec![0; reply.length() + CHECK_LENGTH];
        self.write_out(reply, &mut bytes);
        bytes
    }

    /// The same, put at the front of the bytes; tells how many they are.
    pub fn write_out(&self, reply: Reply, bytes: &mut [u8]) -> usize {
        let data = &mut bytes[..reply.length()];
        match reply {
            Reply::Byte(byte) => data[0] = byte,
            Reply::Memory { address, .. } => self.copy_out(usize::from(address), data),
        }
        frame::seal(bytes, reply.length())
    }

    /// So many bytes from an address on.
    pub fn stretch(&self, address: u8, length: u16) -> Vec<u8> {
        let mut data = vec![0; usize::from(length)];
        self.copy_out(usize::from(address), &mut data);
        data
    }

    fn copy_out(&self, first: usize, data: &mut [u8]) {
        let held = self.memory.get(first..).unwrap_or_default();
        let (front, behind) = data.split_at_mut(held.len().min(data.len()));
        front.copy_from_slice(&held[..front.len()]);
        behind.fill(0);
    }

    #[inline(always)]
    fn obey(&mut self, order: &Order, permission: Option<u8>, coin: bool) -> Option<Reply> {
        match order {
            Order::Select(comparison) => self.select(comparison),
            Order::Reset => self.reset(),
            Order::Access { serial, .. } if serial != self.serial() => None,
            Order::Access {
                address, access, ..
            } => self.access(*address, access, permission),
            // All others are for tags that are being told apart.
            _ if self.state != State::Singulation => None,
            Order::UnselectNe(comparison) => self.unselect(!self.matches(comparison)),
            Order::UnselectIdFlag => self.unselect(self.id_flag),
            Order::UnselectNoIdFlag => self.unselect(!self.id_flag),
            Order::Query => self.query(coin),
            Order::Scroll => self.scroll(),
            Order::Repeat => self.serial_if_in_turn(),
        }
    }
}

/// Telling tags apart.
impl Tag {
    pub fn matches(&self, comparison: &Comparison) -> bool {
        let first = usize::from(comparison.address);
        let mut bytes = comparison.word.iter().enumerate();
        bytes.all(|(index, &byte)| {
            !selects(comparison.mask, index) || self.byte(first + index) == byte
        })
    }

    fn select(&mut self, comparison: &Comparison) -> Option<Reply> {
        let selected = match self.state {
            State::Ready => self.matches(comparison),
            State::Singulation => true,
            State::Inventoried => false,
        };
        if !selected {
            return None;
        }
        self.state = State::Singulation;
        self.counter = 0;
        Some(SERIAL_NUMBER)
    }

    fn unselect(&mut self, leaves: bool) -> Option<Reply> {
        if leaves {
            self.state = State::Ready;
            return None;
        }
        self.counter = 0;
        Some(SERIAL_NUMBER)
    }

    fn query(&mut self, coin: bool) -> Option<Reply> {
        if self.counter > 0 || coin {
            self.counter = self.counter.saturating_add(1);
        }
        self.serial_if_in_turn()
    }

    fn scroll(&mut self) -> Option<Reply> {
        self.counter = self.counter.saturating_sub(1);
        self.serial_if_in_turn()
    }

    fn serial_if_in_turn(&self) -> Option<Reply> {
        (self.counter == 0).then_some(SERIAL_NUMBER)
    }

    fn reset(&mut self) -> Option<Reply> {
        self.state = State::Ready;
        self.id_flag = false;
        None
    }
}

/// What concerns one tag alone.
impl Tag {
    fn access(&mut self, address: u8, access: &Access, permission: Option<u8>) -> Option<Reply> {
        match access {
            Access::Read { length } => Some(self.read(address, *length)),
            Access::Verify => self.verify(address),
            Access::Write { mask, data } => Some(self.write(address, *mask, data)),
            Access::Lock => self.lock(address, permission),
            Access::QueryLock => Some(self.query_lock(address)),
        }
    }

    pub fn change_confirmed(&self) -> bool {
        self.mark >= 1
    }

    fn move_on(&mut self) {
        self.state = State::Inventoried;
        self.id_flag = true;
    }

    fn read(&mut self, address: u8, length: u16) -> Reply {
        self.move_on();
        self.permission = Some(address);
        Reply::Memory { address, length }
    }

    fn verify(&mut self, address: u8) -> Option<Reply> {
        if !self.change_confirmed() {
            return None;
        }
        self.move_on();
        Some(Reply::Memory {
            address,
            length: VERIFIED_LENGTH,
        })
    }

    fn write(&mut self, address: u8, mask: u8, data: &[u8; BLOCK_LENGTH]) -> Reply {
        self.move_on();
        let first = usize::from(address);
        if !self.writable(first) {
            self.mark = 0;
            return Reply::Byte(FAILED);
        }
        let block = &mut self.memory[first..first + BLOCK_LENGTH];
        for (index, (place, &byte)) in block.iter_mut().zip(data).enumerate() {
            if selects(mask, index) {
                *place = byte;
            }
        }
        self.mark = MARKED;
        self.permission = Some(address);
        Reply::Byte(DONE)
    }

    /// A whole block, no byte of which is locked, masked or not.
    fn writable(&self, first: usize) -> bool {
        let mut block = first..first + BLOCK_LENGTH;
        first.is_multiple_of(BLOCK_LENGTH) && !block.any(|address| self.locks.locked(address))
    }

    fn lock(&mut self, address: u8, permission: Option<u8>) -> Option<Reply> {
        if self.state != State::Inventoried {
            return None;
        }
        let place = usize::from(address);
        if permission == Some(address) && place < MEMORY_LENGTH {
            self.locks.lock(place);
            self.mark = MARKED;
        } else {
            self.mark = 0;
        }
        Some(Reply::Byte(DONE))
    }

    fn query_lock(&mut self, address: u8) -> Reply {
        self.move_on();
        self.permission = Some(address);
        let locked = self.locks.locked(usize::from(address));
        Reply::Byte(match (locked, self.change_confirmed()) {
            (false, true) => 0x01,
            (false, false) => 0x00,
            (true, true) => 0xFF,
            (true, false) => 0xFE,
        })
    }
}

#[cfg(test)]
mod tests {
    use super::*;
    use crate::frame::{sealed_with, Name, COMMANDS};

    const STATES: [State; 3] = [State::Ready, State::Singulation, State::Inventoried];

    /// Every byte differs from every other and from zero.
    fn tag() -> Tag {
        Tag::new(std::array::from_fn(|address| address as u8 + 0x40))
    }

    fn tag_in(state: State) -> Tag {
        Tag { state, ..tag() }
    }

    fn step(tag: &mut Tag, name: Name, parameters: &[u8], coin: bool) -> Option<Reply> {
        tag.step(&Order::open(&sealed_with(name as u8, parameters)), coin)
    }

    /// A frame with the tag's own serial number.
    fn own(tag: &mut Tag, name: Name, parameters: &[u8]) -> Option<Reply> {
        let parameters = [tag.serial().as_slice(), parameters].concat();
        step(tag, name, &parameters, false)
    }

    fn compare(tag: &mut Tag, name: Name, address: u8, mask: u8, word: [u8; 8]) -> Option<Reply> {
        let parameters = [&[address, mask], word.as_slice()].concat();
        step(tag, name, &parameters, false)
    }

    fn read_out(tag: &mut Tag, name: Name, parameters: &[u8]) -> Vec<u8> {
        let reply = own(tag, name, parameters).expect("the tag replies");
        let mut bytes = tag.written(reply);
        bytes.truncate(bytes.len() - 2);
        bytes
    }

    #[test]
    fn new_tags() {
        let tag = tag();
        assert_eq!(
            tag.serial(),
            &[0x40, 0x41, 0x42, 0x43, 0x44, 0x45, 0x46, 0x47]
        );
        let locked: Vec<usize> = (0..60).filter(|&at| tag.locks.locked(at)).collect();
        assert_eq!(locked, [0, 1, 56, 57, 58, 59]);
        assert_eq!((tag.byte(55), tag.byte(56)), (0x77, 0));
    }

    #[test]
    fn replies_end_with_their_check_value() {
        assert_eq!(tag().written(Reply::Byte(0xFE)), [0xFE, 0x10, 0xDE]);
        let tag = Tag::new(std::array::from_fn(|address| address as u8 + 1));
        let first = Reply::Memory {
            address: 0,
            length: 4,
        };
        assert_eq!(tag.written(first), [1, 2, 3, 4, !0x89, !0xC3]);
    }

    #[test]
    fn replies_are_written_to_the_front() {
        let long = Reply::Memory {
            address: 0x37,
            length: 2,
        };
        for (reply, start) in [
            (Reply::Byte(0xFE), &[0xFE, 0x10, 0xDE][..]),
            (long, &[0x77, 0]),
        ] {
            let mut bytes = [0xA5; 6];
            let length = tag().write_out(reply, &mut bytes);
            assert_eq!(bytes[..length], tag().written(reply));
            assert!(bytes.starts_with(start));
            assert!(bytes[length..].iter().all(|&byte| byte == 0xA5));
        }
        let behind = Reply::Memory {
            address: 0xFF,
            length: 2,
        };
        assert_eq!(tag().written(behind), frame::sealed(&[0, 0]));
    }

    #[test]
    fn the_mark_falls_and_the_permission_goes_with_every_frame() {
        let frames = [
            vec![],
            vec![0x09, 0x8F, 0x27],
            frame::sealed(&[0xFF]),
            frame::sealed(&[0x00]),
            sealed_with(Name::Read as u8, &[0; 9]),
            sealed_with(Name::Repeat as u8, &[]),
        ];
        for frame in frames {
            for (before, after) in [(0, 0), (1, 0), (2, 1)] {
                let mut tag = tag();
                tag.mark = before;
                tag.permission = Some(0x08);
                tag.step(&Order::open(&frame), false);
                assert_eq!((tag.mark, tag.permission), (after, None));
            }
        }
    }

    #[test]
    fn a_damaged_frame_makes_ready_and_clears_no_id_flag() {
        for (frame, ready) in [
            (vec![0x09], true),
            (vec![0x09, 0x8F, 0x27], true),
            (frame::sealed(&[0xFF]), false),
            (frame::sealed(&[0x00]), false),
        ] {
            for state in STATES {
                let mut tag = tag_in(state);
                tag.id_flag = true;
                tag.counter = 3;
                assert_eq!(tag.step(&Order::open(&frame), true), None);
                assert_eq!(tag.state, if ready { State::Ready } else { state });
                assert!(tag.id_flag && tag.counter == 3);
            }
        }
    }

    #[test]
    fn selecting() {
        for state in STATES {
            for matching in [true, false] {
                let mut tag = tag_in(state);
                tag.counter = 9;
                let word = [if matching { 0x48 } else { 0x49 }; 8];
                let reply = compare(&mut tag, Name::Select, 0x08, 0x80, word);
                let selected = state == State::Singulation || matching && state == State::Ready;
                assert_eq!(reply, selected.then_some(SERIAL_NUMBER));
                assert_eq!(tag.counter, if selected { 0 } else { 9 });
                let after = if selected { State::Singulation } else { state };
                assert_eq!(tag.state, after);
            }
        }
    }

    #[test]
    fn comparing_zeros_behind_the_memory_without_wrapping() {
        let mut word = [0; 8];
        word[0] = 0x77;
        assert!(compare(&mut tag(), Name::Select, 0x37, 0xFF, word).is_some());
        word[7] = 0x46;
        assert!(compare(&mut tag(), Name::Select, 0x37, 0xFF, word).is_none());
        assert!(compare(&mut tag(), Name::Select, 0x37, 0xFE, word).is_some());
        assert!(compare(&mut tag(), Name::Select, 0xFF, 0xFF, [0; 8]).is_some());
        let wrapped = [0, 0x40, 0x41, 0x42, 0x43, 0x44, 0x45, 0x46];
        assert!(compare(&mut tag(), Name::Select, 0xFF, 0xFF, wrapped).is_none());
    }

    #[test]
    fn unselecting() {
        for id_flag in [true, false] {
            for (name, leaves) in [
                (Name::UnselectIdFlag, id_flag),
                (Name::UnselectNoIdFlag, !id_flag),
            ] {
                let mut tag = tag_in(State::Singulation);
                tag.id_flag = id_flag;
                tag.counter = 9;
                let reply = step(&mut tag, name, &[0xFF, 0xFF], true);
                assert_eq!(reply.is_none(), leaves);
                assert_eq!(tag.state == State::Ready, leaves);
                assert_eq!(tag.counter, if leaves { 9 } else { 0 });
            }
        }
        let mut tag = tag_in(State::Singulation);
        assert!(compare(&mut tag, Name::UnselectNe, 0x10, 0x80, [0x50; 8]).is_some());
        assert!(compare(&mut tag, Name::UnselectNe, 0x10, 0x40, [0x50; 8]).is_none());
        assert_eq!(tag.state, State::Ready);
    }

    #[test]
    fn counting() {
        for (name, coin, before, after) in [
            (Name::Query, false, 0x00, 0x00),
            (Name::Query, true, 0x00, 0x01),
            (Name::Query, false, 0x01, 0x02),
            (Name::Query, true, 0x01, 0x02),
            (Name::Query, false, 0xFE, 0xFF),
            (Name::Query, true, 0xFF, 0xFF),
            (Name::Scroll, true, 0x00, 0x00),
            (Name::Scroll, true, 0x01, 0x00),
            (Name::Scroll, false, 0xFF, 0xFE),
            (Name::Repeat, true, 0x00, 0x00),
            (Name::Repeat, false, 0x01, 0x01),
        ] {
            let mut tag = tag_in(State::Singulation);
            tag.counter = before;
            let reply = step(&mut tag, name, &[], coin);
            assert_eq!(tag.counter, after, "{name:?} with {before:02X}");
            assert_eq!(reply, (after == 0).then_some(SERIAL_NUMBER));
        }
    }

    #[test]
    fn resetting_clears_the_id_flag_everywhere() {
        for state in STATES {
            let mut tag = tag_in(state);
            tag.id_flag = true;
            tag.counter = 9;
            assert_eq!(step(&mut tag, Name::Reset, &[], true), None);
            assert_eq!(
                (tag.state, tag.id_flag, tag.counter),
                (State::Ready, false, 9)
            );
        }
    }

    #[test]
    fn strangers_are_left_alone() {
        for command in &COMMANDS[8..] {
            for position in 0..SERIAL_LENGTH {
                let mut tag = tag();
                let mut parameters = vec![0; command.parameters_length()];
                parameters[..SERIAL_LENGTH].copy_from_slice(tag.serial());
                parameters[position] ^= 0x01;
                assert_eq!(step(&mut tag, command.name, &parameters, true), None);
                assert_eq!(tag, super::tests::tag());
            }
        }
    }

    #[test]
    fn reading() {
        for state in STATES {
            let mut tag = tag_in(state);
            let bytes = read_out(&mut tag, Name::Read, &[0x34]);
            assert_eq!(bytes, [0x74, 0x75, 0x76, 0x77, 0, 0, 0, 0]);
            assert_eq!((tag.state, tag.id_flag), (State::Inventoried, true));
            assert_eq!(tag.permission, Some(0x34));
        }
        assert_eq!(
            read_out(&mut tag(), Name::ReadFlexible, &[0x05, 0x00]),
            [0x45]
        );
        let bytes = read_out(&mut tag(), Name::ReadFlexible, &[0x37, 0xFF]);
        assert_eq!(bytes.len(), 256);
        assert!(bytes[0] == 0x77 && bytes[1..].iter().all(|&byte| byte == 0));
        assert_eq!(read_out(&mut tag(), Name::Read, &[0xFF]), [0; 8]);
    }

    #[test]
    fn writing_and_verifying() {
        let mut tag = tag();
        let write = [0x34, 0xAF, 1, 2, 3, 4];
        assert_eq!(own(&mut tag, Name::Write, &write), Some(Reply::Byte(DONE)));
        assert_eq!((tag.mark, tag.permission), (2, Some(0x34)));
        assert_eq!(
            read_out(&mut tag, Name::Verify, &[0x34]),
            [1, 0x75, 3, 0x77]
        );
        let before = tag.clone();
        assert_eq!(own(&mut tag, Name::Verify, &[0x34]), None);
        assert_eq!(tag, Tag { mark: 0, ..before });
    }

    #[test]
    fn verifying_in_vain_moves_nothing() {
        for mark in [0, 1] {
            let mut tag = tag_in(State::Singulation);
            tag.mark = mark;
            assert_eq!(own(&mut tag, Name::Verify, &[0x08]), None);
            assert_eq!((tag.state, tag.id_flag), (State::Singulation, false));
        }
    }

    #[test]
    fn one_locked_byte_forbids_writing_whatever_the_mask() {
        for locked in 0x08..0x0C {
            for mask in [0x00, 0x80, 0x40, 0x20, 0x10, 0xFF] {
                let mut tag = tag();
                tag.locks.lock(locked);
                tag.mark = 2;
                let write = [0x08, mask, 1, 2, 3, 4];
                assert_eq!(
                    own(&mut tag, Name::Write, &write),
                    Some(Reply::Byte(FAILED))
                );
                assert_eq!(tag.memory, super::tests::tag().memory);
                assert_eq!((tag.mark, tag.permission), (0, None));
                assert_eq!((tag.state, tag.id_flag), (State::Inventoried, true));
            }
        }
    }

    #[test]
    fn blocks_start_at_multiples_of_four_within_the_memory() {
        let writable = |address: &u8| {
            let write = [*address, 0xF0, 1, 2, 3, 4];
            own(&mut tag(), Name::Write, &write) == Some(Reply::Byte(DONE))
        };
        let addresses: Vec<u8> = (0..=0xFF).filter(writable).collect();
        assert_eq!(
            addresses,
            [4, 8, 12, 16, 20, 24, 28, 32, 36, 40, 44, 48, 52]
        );
    }

    #[test]
    fn a_written_serial_number_counts_from_the_next_frame() {
        let mut tag = tag();
        let old = *tag.serial();
        let write = [0x04, 0x10, 0, 0, 0, 9];
        assert_eq!(own(&mut tag, Name::Write, &write), Some(Reply::Byte(DONE)));
        assert_eq!(tag.serial()[7], 9);
        let verify = [old.as_slice(), &[0x04]].concat();
        assert_eq!(step(&mut tag.clone(), Name::Verify, &verify, false), None);
        assert_eq!(
            read_out(&mut tag, Name::Verify, &[0x04]),
            [0x44, 0x45, 0x46, 9]
        );
    }

    #[test]
    fn locking_needs_the_permission_of_the_frame_before() {
        for (name, rest, permits) in [
            (Name::Read, &[][..], true),
            (Name::ReadFlexible, &[0], true),
            (Name::QLock, &[], true),
            (Name::Write, &[0, 1, 2, 3, 4], true),
            (Name::Verify, &[], false),
            (Name::Lock, &[], false),
        ] {
            let mut tag = tag_in(State::Inventoried);
            tag.mark = 2;
            tag.permission = Some(0x08);
            assert!(own(&mut tag, name, &[&[0x08], rest].concat()).is_some());
            tag.locks = Locks::NEW;
            let mut later = tag.clone();
            assert_eq!(own(&mut tag, Name::Lock, &[0x08]), Some(Reply::Byte(DONE)));
            assert_eq!(tag.locks.locked(0x08), permits, "after {name:?}");
            assert_eq!(tag.mark, if permits { 2 } else { 0 });
            step(&mut later, Name::Query, &[], false);
            own(&mut later, Name::Lock, &[0x08]);
            assert!(!later.locks.locked(0x08));
        }
    }

    #[test]
    fn locking_only_when_inventoried_and_within_the_memory() {
        for state in STATES {
            for address in [0x00, 0x02, 0x37, 0x38, 0xFF] {
                let mut tag = tag_in(state);
                tag.mark = 2;
                tag.permission = Some(address);
                let reply = own(&mut tag, Name::Lock, &[address]);
                let acts = state == State::Inventoried;
                assert_eq!(reply, acts.then_some(Reply::Byte(DONE)));
                assert_eq!((tag.state, tag.id_flag), (state, false));
                let mark = if acts {
                    u8::from(address <= 0x37) * 2
                } else {
                    1
                };
                assert_eq!(tag.mark, mark);
                let changed = acts && [0x02, 0x37].contains(&address);
                assert_eq!(tag.locks != Locks::NEW, changed);
            }
        }
    }

    #[test]
    fn asking_for_a_lock() {
        for (address, mark, byte) in [
            (0x02, 2, 0x01),
            (0x02, 1, 0x00),
            (0x01, 2, 0xFF),
            (0x01, 1, 0xFE),
            (0x37, 0, 0x00),
            (0x38, 0, 0xFE),
            (0xFF, 2, 0xFF),
        ] {
            let mut tag = tag();
            tag.mark = mark;
            assert_eq!(
                own(&mut tag, Name::QLock, &[address]),
                Some(Reply::Byte(byte))
            );
            assert_eq!((tag.state, tag.id_flag), (State::Inventoried, true));
            assert_eq!(tag.permission, Some(address));
        }
    }

    #[test]
    fn gaps() {
        let before = Tag {
            id_flag: true,
            counter: 9,
            mark: 2,
            permission: Some(4),
            ..tag_in(State::Inventoried)
        };
        let after = |microseconds| {
            let mut tag = before.clone();
            tag.gap(microseconds);
            tag
        };
        let restarted = Tag {
            id_flag: true,
            ..tag()
        };
        assert_eq!(after(0), before);
        assert_eq!(after(249), before);
        assert_eq!(after(250), restarted);
        assert_eq!(after(3_999_999), restarted);
        assert_eq!(after(4_000_000), tag());
        assert_eq!(after(u32::MAX), tag());
    }
}
