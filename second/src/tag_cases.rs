//! Which questions are asked about a tag.

use crate::cases::UNKNOWN_CODES;
use crate::frame::{sealed_with, Name, COMMANDS};
use crate::order::{Serial, BLOCK_LENGTH, SERIAL_LENGTH, WORD_LENGTH};
use crate::tag::{State, MEMORY_LENGTH};
use crate::tag_asker::{Asker, ACCESSES, ALL_LOCKS, NEW_LOCKS, NO_LOCKS, STATES};
use crate::tag_question::Condition;

pub const GAPS: [u32; 9] = [
    0,
    1,
    249,
    250,
    251,
    3_999_999,
    4_000_000,
    4_000_001,
    u32::MAX,
];

const LENGTHS: [u8; 8] = [0x00, 0x01, 0x07, 0x08, 0x37, 0x38, 0xFE, 0xFF];

/// The first address behind the memory.
const END: u8 = MEMORY_LENGTH as u8;

/// How the lock permission stands to the address that a frame is about.
#[derive(Clone, Copy)]
enum Permission {
    None,
    Same,
    Other,
    Beyond,
}

const PERMISSIONS: [Permission; 4] = [
    Permission::None,
    Permission::Same,
    Permission::Other,
    Permission::Beyond,
];

/// Who has asked all questions, with the answers and the tag that is then there; the same seed gives the same ones.
pub fn asker(seed: u64) -> Asker {
    let mut asker = Asker::new(seed);
    asker.first_tag();
    asker.arbitration();
    asker.comparing_in_every_state();
    asker.accesses();
    asker.strangers();
    asker.comparisons();
    asker.places();
    asker.every_lock();
    asker.writes();
    asker.damaged_frames();
    asker.gaps();
    asker.lives();
    asker
}

/// Every command in every state.
impl Asker {
    /// The tag that is there before any other is asked for.
    fn first_tag(&mut self) {
        for name in [Name::QLock, Name::Select, Name::Write, Name::Verify] {
            self.step(name, 0x08);
        }
    }

    fn arbitration(&mut self) {
        for command in &COMMANDS[2..8] {
            for state in STATES {
                self.new_tag();
                for condition in self.arbitration_conditions(state) {
                    self.both_coins(condition, |asker| asker.frame(command.name, 0));
                }
            }
        }
    }

    fn comparing_in_every_state(&mut self) {
        for name in [Name::Select, Name::UnselectNe] {
            for state in STATES {
                self.new_tag();
                for condition in self.arbitration_conditions(state) {
                    let address = self.address_for(name);
                    let index = self.random.between(0, WORD_LENGTH - 1);
                    for differing in [0x00, 0x80 >> index] {
                        self.both_coins(condition, |asker| {
                            asker.comparison(name, address, 0xFF, differing)
                        });
                    }
                }
            }
        }
    }

    /// Both values of the ID flag and all counters; the rest by chance.
    fn arbitration_conditions(&mut self, state: State) -> Vec<Condition> {
        let mut conditions = Vec::new();
        for id_flag in [false, true] {
            for counter in self.counters() {
                let mark = self.random.between(0, 2) as u8;
                let kind = self.random.pick(&PERMISSIONS);
                conditions.push(Condition {
                    state,
                    id_flag,
                    counter,
                    mark,
                    permission: self.permission(kind, 0),
                });
            }
        }
        conditions
    }

    fn both_coins(&mut self, condition: Condition, frame: impl Fn(&mut Asker) -> Vec<u8>) {
        for coin in [false, true] {
            self.set(condition);
            let frame = frame(self);
            self.toss(coin, frame);
        }
    }

    fn accesses(&mut self) {
        for name in ACCESSES {
            for state in STATES {
                self.new_tag();
                for id_flag in [false, true] {
                    self.accesses_in(name, state, id_flag);
                }
            }
        }
    }

    fn accesses_in(&mut self, name: Name, state: State, id_flag: bool) {
        for mark in 0..=2 {
            for kind in PERMISSIONS {
                let address = self.address_for(name);
                let condition = Condition {
                    state,
                    id_flag,
                    counter: self.random.byte(),
                    mark,
                    permission: self.permission(kind, address),
                };
                self.both_coins(condition, |asker| asker.frame(name, address));
            }
        }
    }

    fn permission(&mut self, kind: Permission, address: u8) -> Option<u8> {
        let away = self.random.between(1, MEMORY_LENGTH - 1);
        match kind {
            Permission::None => None,
            Permission::Same => Some(address),
            Permission::Other => Some(((usize::from(address) + away) % MEMORY_LENGTH) as u8),
            Permission::Beyond => {
                let beyond = self.random.between(MEMORY_LENGTH, 0xFF) as u8;
                // Never the address itself, which is another kind.
                Some(if beyond == address {
                    beyond ^ 1
                } else {
                    beyond
                })
            }
        }
    }

    /// Frames for tags whose serial number is almost the same.
    fn strangers(&mut self) {
        for name in ACCESSES {
            for state in STATES {
                self.new_tag();
                for serial in self.wrong_serials() {
                    let address = self.block();
                    let telling = self.telling(state);
                    self.set(Condition {
                        id_flag: false,
                        mark: 2,
                        permission: Some(address),
                        ..telling
                    });
                    let frame = self.access(name, &serial, address);
                    self.send(frame);
                }
            }
        }
    }

    /// Wrong in each byte, in one bit, and the right one backwards.
    fn wrong_serials(&mut self) -> Vec<Serial> {
        let right = *self.tag.serial();
        let changed = |position: usize, change: u8| {
            let mut serial = right;
            serial[position] ^= change;
            serial
        };
        let mut wrong: Vec<Serial> = (0..SERIAL_LENGTH)
            .map(|position| changed(position, self.random.between(1, 0xFF) as u8))
            .collect();
        let position = self.random.between(0, SERIAL_LENGTH - 1);
        wrong.push(changed(position, 1 << self.random.between(0, 7)));
        let mut backwards = right;
        backwards.reverse();
        wrong.push(backwards);
        wrong
    }
}

/// Masked comparisons.
impl Asker {
    fn comparisons(&mut self) {
        for address in self.addresses() {
            self.new_tag();
            for index in 0..WORD_LENGTH {
                let bit = 0x80 >> index;
                self.compare(address, 0xFF, bit);
                self.compare(address, !bit, bit);
                self.compare(address, bit, bit);
                self.compare(address, bit, !bit);
            }
            self.compare(address, 0xFF, 0x00);
            self.compare(address, 0x00, 0xFF);
            self.compare_at_random(address);
            self.compare_wrapped(address, 0x100);
            self.compare_wrapped(address, MEMORY_LENGTH);
        }
    }

    fn compare(&mut self, address: u8, mask: u8, differing: u8) {
        let name = self.comparing_name();
        let frame = self.comparison(name, address, mask, differing);
        self.send(frame);
    }

    /// A comparing command, for which the tag is now in the right state.
    fn comparing_name(&mut self) -> Name {
        let (name, state) = self.random.pick(&[
            (Name::Select, State::Ready),
            (Name::UnselectNe, State::Singulation),
        ]);
        self.be_in(state);
        name
    }

    fn compare_at_random(&mut self, address: u8) {
        let mask = self.random.byte();
        self.compare(address, mask, !mask);
        let one = 0x80 >> self.random.between(0, WORD_LENGTH - 1);
        self.compare(address, mask, !mask | one);
    }

    /// What the bytes would be if addresses began anew at this one.
    fn compare_wrapped(&mut self, address: u8, end: usize) {
        let name = self.comparing_name();
        let mut parameters = vec![address, 0xFF];
        let addresses = (usize::from(address)..).take(WORD_LENGTH);
        parameters.extend(addresses.map(|at| self.tag.byte(at % end)));
        self.send(sealed_with(name as u8, &parameters));
    }
}

/// Addresses, locks and masks.
impl Asker {
    fn places(&mut self) {
        for address in self.addresses() {
            self.new_tag();
            self.random_locks();
            for name in [Name::QLock, Name::Verify, Name::Lock] {
                self.every_mark(name, address);
            }
            self.step(Name::Read, address);
            for length in LENGTHS {
                self.read(address, length);
            }
        }
    }

    fn every_mark(&mut self, name: Name, address: u8) {
        for mark in 0..=2 {
            let telling = self.telling(State::Inventoried);
            self.set(Condition {
                mark,
                permission: Some(address),
                ..telling
            });
            self.step(name, address);
        }
    }

    fn every_lock(&mut self) {
        self.new_tag();
        self.locks(NO_LOCKS);
        for address in 0..END + 2 {
            for name in [Name::QLock, Name::Lock, Name::QLock] {
                self.step(name, address);
            }
        }
    }

    fn writes(&mut self) {
        for block in [0x00, 0x04, 0x08, 0x30, 0x34] {
            self.new_tag();
            self.one_of_four_locked(block);
            self.neighbours_locked(block);
            self.locks(NO_LOCKS);
            for mask in self.masks() {
                self.write(block, mask);
            }
        }
        for address in self.addresses() {
            self.every_kind_of_locks(address);
        }
        for _ in 0..6 {
            self.new_tag();
            self.sparse_locks();
            for block in (0..=END).step_by(BLOCK_LENGTH) {
                self.write(block, 0xFF);
            }
        }
    }

    fn one_of_four_locked(&mut self, block: u8) {
        for address in (block..).take(BLOCK_LENGTH) {
            self.locks(only(address));
            for mask in self.masks() {
                self.write(block, mask);
            }
        }
    }

    fn neighbours_locked(&mut self, block: u8) {
        let after = block + BLOCK_LENGTH as u8;
        for address in block.checked_sub(1).into_iter().chain([after]) {
            if address < END {
                self.locks(only(address));
                self.write(block, 0xF0);
            }
        }
    }

    fn every_kind_of_locks(&mut self, address: u8) {
        for bits in [NO_LOCKS, ALL_LOCKS, NEW_LOCKS] {
            self.locks(bits);
            let mask = self.random.byte();
            self.write(address, mask);
        }
        self.random_locks();
        self.write(address, 0xFF);
    }
}

fn only(address: u8) -> [u8; 7] {
    let mut bits = NO_LOCKS;
    bits[usize::from(address / 8)] = 0x80 >> (address % 8);
    bits
}

/// Damaged frames and gaps.
impl Asker {
    fn damaged_frames(&mut self) {
        for state in STATES {
            self.new_tag();
            for length in 0..=2 {
                self.damaged(state, |asker| asker.stub(length));
            }
            for command in &COMMANDS {
                self.damaged(state, |asker| asker.flipped_bit(command.name));
                self.damaged(state, |asker| asker.plain_remainder(command.name));
                self.damaged(state, |asker| asker.one_byte_more(command.name));
                self.damaged(state, |asker| asker.one_byte_less(command.name));
            }
            for code in UNKNOWN_CODES {
                self.damaged(state, |asker| asker.unknown_code(code));
            }
        }
    }

    fn damaged(&mut self, state: State, frame: impl Fn(&mut Asker) -> Vec<u8>) {
        let condition = self.telling(state);
        self.set(condition);
        let frame = frame(self);
        self.send(frame);
    }

    fn gaps(&mut self) {
        for state in STATES {
            for id_flag in [false, true] {
                self.new_tag();
                let short = self.random.between(0, 249) as u32;
                let long = self.random.between(250, 3_999_999) as u32;
                let longest = self.random.between(4_000_000, u32::MAX as usize) as u32;
                for microseconds in GAPS.into_iter().chain([short, long, longest]) {
                    let telling = self.telling(state);
                    self.set(Condition { id_flag, ..telling });
                    self.gap(microseconds);
                }
            }
        }
    }
}

#[cfg(test)]
mod tests {
    use std::collections::HashSet;

    use super::*;
    use crate::frame::{self, Refusal};
    use crate::order::{selects, Access, Comparison, Order};
    use crate::tag::Tag;
    use crate::tag_asker::Asked;
    use crate::tag_question::Question;

    /// A step as it was asked for, with the tag as it was before and after.
    struct Step {
        before: Tag,
        after: Tag,
        name: Result<Name, Refusal>,
        order: Result<Order, Refusal>,
        coin: bool,
        replied: bool,
        /// Whether the line before was a step as well.
        follows: bool,
    }

    impl Step {
        /// The access, if it is one to the tag itself.
        fn own(&self) -> Option<(u8, Access)> {
            match self.order {
                Ok(Order::Access {
                    serial,
                    address,
                    access,
                }) if serial == *self.before.serial() => Some((address, access)),
                _ => None,
            }
        }

        /// The comparison, if the tag's state makes it count.
        fn comparison(&self) -> Option<Comparison> {
            match (self.order, self.before.state) {
                (Ok(Order::Select(comparison)), State::Ready) => Some(comparison),
                (Ok(Order::UnselectNe(comparison)), State::Singulation) => Some(comparison),
                _ => None,
            }
        }
    }

    fn steps(seed: u64) -> Vec<Step> {
        let mut tag = Tag::new([0; MEMORY_LENGTH]);
        let mut steps = Vec::new();
        let mut follows = false;
        for Asked { question, answer } in asker(seed).asked {
            let before = tag.clone();
            assert_eq!(question.answer(&mut tag), answer);
            let Question::Step { coin, frame } = question else {
                follows = false;
                continue;
            };
            steps.push(Step {
                before,
                after: tag.clone(),
                name: frame::open(&frame).map(|opened| opened.name),
                order: Order::open(&frame),
                coin,
                replied: !answer.ends_with('-'),
                follows,
            });
            follows = true;
        }
        steps
    }

    fn kind(permission: Option<u8>, address: u8) -> &'static str {
        match permission {
            None => "none",
            Some(permitted) if permitted == address => "same",
            Some(permitted) if permitted < END => "other",
            Some(_) => "beyond",
        }
    }

    #[test]
    fn the_seed_settles_everything() {
        let texts = |seed| -> Vec<_> { asker(seed).asked.iter().map(Asked::texts).collect() };
        assert!(texts(1) == texts(1));
        assert!(texts(1) != texts(2));
    }

    #[test]
    fn neither_too_few_nor_too_much() {
        for seed in 1..=5 {
            let asked = asker(seed).asked;
            let size: usize = asked.iter().map(Asked::size).sum();
            let steps = asked
                .iter()
                .filter(|asked| matches!(asked.question, Question::Step { .. }));
            let count = steps.count();
            assert!((6000..=9000).contains(&count), "{count} steps");
            assert!(size < 900_000, "{size} bytes");
        }
    }

    /// Whether a tag in this state can reply, and can be silent.
    fn possible(name: Name, state: State) -> (bool, bool) {
        match name {
            Name::Select => (state != State::Inventoried, state != State::Singulation),
            Name::Reset => (false, true),
            Name::Lock => (state == State::Inventoried, true),
            name if ACCESSES.contains(&name) => (true, true),
            _ => (state == State::Singulation, true),
        }
    }

    #[test]
    fn every_command_replies_and_is_silent_wherever_it_can() {
        let steps = steps(6);
        for command in &COMMANDS {
            for state in STATES {
                let comes = |replied| {
                    steps.iter().any(|step| {
                        step.name == Ok(command.name)
                            && step.before.state == state
                            && step.replied == replied
                    })
                };
                assert_eq!(
                    (comes(true), comes(false)),
                    possible(command.name, state),
                    "{:?} in {state}",
                    command.name
                );
            }
        }
    }

    #[test]
    fn every_command_meets_every_counter_coin_and_flag() {
        let seen: HashSet<_> = steps(7)
            .iter()
            .filter_map(|step| {
                let Tag {
                    state,
                    id_flag,
                    counter,
                    ..
                } = step.before;
                Some((step.name.ok()?, state, step.coin, id_flag, counter))
            })
            .collect();
        for command in &COMMANDS[..8] {
            for state in STATES {
                for counter in [0x00, 0x01, 0x02, 0xFE, 0xFF] {
                    for (coin, id_flag) in
                        [(false, false), (false, true), (true, false), (true, true)]
                    {
                        let case = (command.name, state, coin, id_flag, counter);
                        assert!(seen.contains(&case), "{case:?}");
                    }
                }
            }
        }
    }

    #[test]
    fn every_access_meets_every_mark_permission_coin_and_flag() {
        let seen: HashSet<_> = steps(8)
            .iter()
            .filter_map(|step| {
                let (address, _) = step.own()?;
                let before = &step.before;
                let permission = kind(before.permission, address);
                let flags = (step.coin, before.id_flag);
                Some((
                    step.name.ok()?,
                    before.state,
                    before.mark,
                    permission,
                    flags,
                ))
            })
            .collect();
        for name in ACCESSES {
            for state in STATES {
                for mark in 0..=2 {
                    for permission in ["none", "same", "other", "beyond"] {
                        for coin in [false, true] {
                            for id_flag in [false, true] {
                                let case = (name, state, mark, permission, (coin, id_flag));
                                assert!(seen.contains(&case), "{case:?}");
                            }
                        }
                    }
                }
            }
        }
    }

    #[test]
    fn serial_numbers_are_wrong_in_every_single_byte() {
        let mut seen = HashSet::new();
        for step in steps(9) {
            if let Ok(Order::Access { serial, .. }) = step.order {
                let pairs = serial.iter().zip(step.before.serial());
                let wrong: Vec<bool> = pairs.map(|(one, other)| one != other).collect();
                if wrong.iter().filter(|wrong| **wrong).count() == 1 {
                    assert!(!step.replied);
                    seen.insert((step.name, step.before.state, wrong));
                }
            }
        }
        assert_eq!(seen.len(), ACCESSES.len() * STATES.len() * SERIAL_LENGTH);
    }

    #[test]
    fn comparisons_differ_in_every_single_byte_selected_or_not() {
        let mut seen = HashSet::new();
        for step in steps(10) {
            let Some(comparison) = step.comparison() else {
                continue;
            };
            let first = usize::from(comparison.address);
            let differs =
                |index: &usize| comparison.word[*index] != step.before.byte(first + index);
            let differing: Vec<usize> = (0..WORD_LENGTH).filter(differs).collect();
            if let [index] = differing[..] {
                let selected = selects(comparison.mask, index);
                let matched = step.after.state == State::Singulation;
                assert_eq!(selected, !matched);
                seen.insert((comparison.address, index, selected));
            }
        }
        for address in [
            0x00, 0x30, 0x31, 0x34, 0x35, 0x36, 0x37, 0x38, 0xF8, 0xFC, 0xFF,
        ] {
            for index in 0..WORD_LENGTH {
                for selected in [false, true] {
                    assert!(seen.contains(&(address, index, selected)));
                }
            }
        }
    }

    #[test]
    fn comparisons_have_every_mask() {
        let seen: HashSet<_> = steps(11)
            .iter()
            .filter_map(|step| {
                let mask = step.comparison()?.mask;
                Some((step.name.ok()?, mask, step.replied))
            })
            .collect();
        for name in [Name::Select, Name::UnselectNe] {
            assert!(seen.contains(&(name, 0x00, true)));
            for mask in (0..8).map(|bit| 1 << bit).chain([0xFF]) {
                for replied in [false, true] {
                    assert!(seen.contains(&(name, mask, replied)), "{name:?} {mask:02X}");
                }
            }
        }
    }

    #[test]
    fn writes_meet_every_single_lock_with_every_mask() {
        let mut seen = HashSet::new();
        for step in steps(12) {
            let Some((address, Access::Write { mask, .. })) = step.own() else {
                continue;
            };
            let block = (usize::from(address)..).take(BLOCK_LENGTH);
            let locks: Vec<bool> = block.map(|at| step.before.locks.locked(at)).collect();
            seen.insert((address, mask, locks, step.after.mark == 2));
        }
        for address in [0x00, 0x04, 0x08, 0x30, 0x34] {
            for mask in (0..8).map(|bit| 1 << bit).chain([0x00, 0xFF]) {
                assert!(seen.contains(&(address, mask, vec![false; 4], true)));
                for index in 0..BLOCK_LENGTH {
                    let mut locks = vec![false; BLOCK_LENGTH];
                    locks[index] = true;
                    assert!(seen.contains(&(address, mask, locks, false)));
                }
            }
        }
    }

    #[test]
    fn accesses_reach_every_limit() {
        let own: Vec<(Name, u8, Access)> = steps(13)
            .iter()
            .filter_map(|step| {
                let (address, access) = step.own()?;
                Some((step.name.ok()?, address, access))
            })
            .collect();
        for address in [
            0x00, 0x01, 0x02, 0x04, 0x07, 0x08, 0x30, 0x31, 0x34, 0x35, 0x36, 0x37, 0x38, 0x3C,
            0xF8, 0xFC, 0xFF,
        ] {
            for name in ACCESSES {
                let mut own = own.iter();
                assert!(own.any(|case| (case.0, case.1) == (name, address)));
            }
            for length in [1, 2, 8, 9, 0x38, 0x39, 0xFF, 0x100] {
                let read = (Name::ReadFlexible, address, Access::Read { length });
                assert!(own.contains(&read), "{length} bytes from {address:02X}");
            }
        }
    }

    #[test]
    fn locks_are_asked_for_in_every_way() {
        let seen: HashSet<_> = steps(14)
            .iter()
            .filter_map(|step| match step.own()? {
                (address, Access::QueryLock) => {
                    let place = usize::from(address);
                    let beyond = place >= MEMORY_LENGTH;
                    Some((beyond, step.before.locks.locked(place), step.before.mark))
                }
                _ => None,
            })
            .collect();
        for mark in 0..=2 {
            assert!(seen.contains(&(true, true, mark)));
            assert!(seen.contains(&(false, true, mark)));
            assert!(seen.contains(&(false, false, mark)));
        }
    }

    #[test]
    fn every_byte_gets_locked() {
        let mut locked = HashSet::new();
        for step in steps(15) {
            if let Some((address, Access::Lock)) = step.own() {
                if step.after.locks != step.before.locks {
                    locked.insert(address);
                }
            }
        }
        assert_eq!(locked, (0x00..=0x37).collect());
    }

    #[test]
    fn every_refusal_comes_in_every_state() {
        let seen: HashSet<_> = steps(16)
            .iter()
            .filter_map(|step| {
                let before = &step.before;
                let refusal = step.name.err()? as u8;
                let telling = before.id_flag && before.counter > 0 && before.mark > 0;
                telling.then_some((refusal, before.state))
            })
            .collect();
        assert_eq!(seen.len(), 4 * STATES.len());
    }

    #[test]
    fn every_gap_comes_in_every_state() {
        let mut tag = Tag::new([0; MEMORY_LENGTH]);
        let mut seen = HashSet::new();
        for Asked { question, .. } in asker(17).asked {
            if let Question::Gap(microseconds) = question {
                seen.insert((microseconds, tag.state, tag.id_flag));
            }
            question.answer(&mut tag);
        }
        for microseconds in GAPS {
            for state in STATES {
                assert!(seen.contains(&(microseconds, state, false)));
                assert!(seen.contains(&(microseconds, state, true)));
            }
        }
    }

    #[test]
    fn locking_follows_every_access_at_once_and_one_frame_later() {
        let mut seen = HashSet::new();
        let steps = steps(18);
        for window in steps.windows(3) {
            let [first, second, third] = window else {
                unreachable!("windows have three steps");
            };
            let locks = |step: &Step| step.own().is_some_and(|own| own.1 == Access::Lock);
            let same_place = |other: &Step| {
                let places = (first.own(), other.own());
                matches!(places, (Some(one), Some(other)) if one.0 == other.0)
            };
            if second.follows && locks(second) && same_place(second) {
                seen.insert((first.name, 0, second.after.mark == 2));
            }
            if second.follows && third.follows && locks(third) && same_place(third) {
                seen.insert((first.name, 1, third.after.mark == 2));
            }
        }
        for name in [Name::Read, Name::ReadFlexible, Name::Write, Name::QLock] {
            assert!(seen.contains(&(Ok(name), 0, true)), "{name:?}");
            assert!(seen.contains(&(Ok(name), 1, false)), "{name:?}");
        }
        assert!(seen.contains(&(Ok(Name::Verify), 0, false)));
        assert!(!seen.contains(&(Ok(Name::Verify), 0, true)));
    }

    #[test]
    fn verifying_follows_writing_at_once_and_after_each_kind_of_frame() {
        let mut seen = HashSet::new();
        let steps = steps(19);
        for window in steps.windows(3) {
            let [first, second, third] = window else {
                unreachable!("windows have three steps");
            };
            let verifies = |step: &Step| step.own().is_some_and(|own| own.1 == Access::Verify);
            let wrote = first.name == Ok(Name::Write) && first.after.mark == 2;
            if wrote && second.follows && verifies(second) {
                assert!(second.replied);
                seen.insert("at once".to_string());
            }
            if wrote && second.follows && third.follows && verifies(third) {
                seen.insert(match second.name {
                    Ok(_) if second.own().is_some() => format!("own {}", third.replied),
                    Ok(_) => format!("right {}", third.replied),
                    Err(refusal) => format!("{refusal:?} {}", third.replied),
                });
            }
        }
        for case in [
            "at once",
            "right false",
            "own true",
            "own false",
            "TooShort false",
            "WrongCheck false",
            "UnknownCode false",
            "WrongLength false",
        ] {
            assert!(seen.contains(case), "{case}");
        }
    }

    #[test]
    fn written_serial_numbers_are_used_old_and_new() {
        let mut seen = HashSet::new();
        let steps = steps(20);
        for pair in steps.windows(2) {
            let [write, next] = pair else {
                unreachable!("windows have two steps");
            };
            let (old, new) = (write.before.serial(), write.after.serial());
            if let (true, Ok(Order::Access { serial, .. })) = (next.follows, next.order) {
                if old != new && [*old, *new].contains(&serial) {
                    seen.insert((next.name, serial == *new, next.replied));
                }
            }
        }
        for name in [Name::Verify, Name::Lock] {
            assert!(seen.contains(&(Ok(name), true, true)));
            assert!(seen.contains(&(Ok(name), false, false)));
            assert!(!seen.contains(&(Ok(name), false, true)));
        }
    }
}
