//! Asks questions about one tag, and knows what the tag has become meanwhile.

use crate::asked;
use crate::cases::UNKNOWN_CODES;
use crate::crc;
use crate::frame::{self, sealed_with, Name, COMMANDS};
use crate::order::{selects, Serial, BLOCK_LENGTH, WORD_LENGTH};
use crate::random::Random;
use crate::tag::{Locks, State, Tag, MEMORY_LENGTH};
use crate::tag_question::{Condition, Question};

pub const STATES: [State; 3] = [State::Ready, State::Singulation, State::Inventoried];

/// The commands that concern the tag of one serial number.
pub const ACCESSES: [Name; 6] = [
    Name::Read,
    Name::ReadFlexible,
    Name::Verify,
    Name::Write,
    Name::Lock,
    Name::QLock,
];

pub const NO_LOCKS: [u8; 7] = [0x00; 7];
pub const ALL_LOCKS: [u8; 7] = [0xFF; 7];
pub const NEW_LOCKS: [u8; 7] = [0xC0, 0, 0, 0, 0, 0, 0];

/// Addresses about the ends of the serial number, of the memory and of a byte.
const LIMITS: [u8; 17] = [
    0x00, 0x01, 0x02, 0x04, 0x07, 0x08, 0x30, 0x31, 0x34, 0x35, 0x36, 0x37, 0x38, 0x3C, 0xF8, 0xFC,
    0xFF,
];

const LAST_BLOCK: usize = MEMORY_LENGTH / BLOCK_LENGTH - 1;

/// Long readings make long lines, so they are kept for where they tell something.
const SHORT_LENGTHS: [u8; 4] = [0x00, 0x01, 0x07, 0x08];

pub struct Asker {
    pub random: Random,
    pub tag: Tag,
    pub asked: Vec<Asked>,
}

pub type Asked = asked::Asked<Question>;

/// The ways to put a question.
impl Asker {
    pub fn new(seed: u64) -> Asker {
        Asker {
            random: Random::new(seed),
            tag: Tag::new([0; MEMORY_LENGTH]),
            asked: Vec::new(),
        }
    }

    pub fn ask(&mut self, question: Question) {
        let answer = question.answer(&mut self.tag);
        self.asked.push(Asked { question, answer });
    }

    pub fn new_tag(&mut self) {
        let memory = std::array::from_fn(|_| self.random.byte());
        self.ask(Question::New(memory));
    }

    pub fn locks(&mut self, bits: [u8; 7]) {
        self.ask(Question::Locks(Locks(bits)));
    }

    pub fn set(&mut self, condition: Condition) {
        self.ask(Question::Set(condition));
    }

    /// Sees to it that the tag is in this state.
    pub fn be_in(&mut self, state: State) {
        if self.tag.state != state {
            let counter = self.random.byte();
            self.set(Condition {
                state,
                counter,
                ..Condition::of(&self.tag)
            });
        }
    }

    pub fn gap(&mut self, microseconds: u32) {
        self.ask(Question::Gap(microseconds));
    }

    pub fn toss(&mut self, coin: bool, frame: Vec<u8>) {
        self.ask(Question::Step { coin, frame });
    }

    pub fn send(&mut self, frame: Vec<u8>) {
        let coin = self.random.coin();
        self.toss(coin, frame);
    }

    /// A right frame with the tag's serial number or with bytes that match.
    pub fn step(&mut self, name: Name, address: u8) {
        let frame = self.frame(name, address);
        self.send(frame);
    }

    pub fn write(&mut self, address: u8, mask: u8) {
        let data = self.random.bytes(BLOCK_LENGTH);
        let rest = [&[mask], data.as_slice()].concat();
        self.send(access_frame(Name::Write, self.tag.serial(), address, &rest));
    }

    pub fn read(&mut self, address: u8, length: u8) {
        let serial = self.tag.serial();
        self.send(access_frame(Name::ReadFlexible, serial, address, &[length]));
    }
}

/// Right frames.
impl Asker {
    /// A frame that concerns the tag as far as its command can.
    pub fn frame(&mut self, name: Name, address: u8) -> Vec<u8> {
        match name {
            Name::Select | Name::UnselectNe => {
                let mask = self.mask();
                self.comparison(name, address, mask, !mask)
            }
            Name::UnselectIdFlag | Name::UnselectNoIdFlag => {
                sealed_with(name as u8, &self.random.bytes(2))
            }
            Name::Query | Name::Scroll | Name::Repeat | Name::Reset => sealed_with(name as u8, &[]),
            _ => {
                let serial = *self.tag.serial();
                self.access(name, &serial, address)
            }
        }
    }

    /// A comparison that differs from the tag's memory in the bytes of the
    /// second mask, whether the first selects them or not.
    pub fn comparison(&mut self, name: Name, address: u8, mask: u8, differing: u8) -> Vec<u8> {
        let mut parameters = vec![address, mask];
        for index in 0..WORD_LENGTH {
            let byte = self.tag.byte(usize::from(address) + index);
            let change = self.random.between(1, 0xFF) as u8;
            let differs = selects(differing, index);
            parameters.push(if differs { byte ^ change } else { byte });
        }
        sealed_with(name as u8, &parameters)
    }

    pub fn access(&mut self, name: Name, serial: &Serial, address: u8) -> Vec<u8> {
        let mut rest = Vec::new();
        match name {
            Name::ReadFlexible => rest.push(self.random.pick(&SHORT_LENGTHS)),
            Name::Write => {
                rest.push(self.mask());
                rest.extend(self.random.bytes(BLOCK_LENGTH));
            }
            _ => {}
        }
        access_frame(name, serial, address, &rest)
    }
}

pub fn access_frame(name: Name, serial: &Serial, address: u8, rest: &[u8]) -> Vec<u8> {
    sealed_with(name as u8, &[serial.as_slice(), &[address], rest].concat())
}

/// Frames that no tag obeys; but for the damage they would concern the tag.
impl Asker {
    pub fn stub(&mut self, length: usize) -> Vec<u8> {
        let mut frame = self.any_frame();
        frame.truncate(length);
        frame
    }

    pub fn flipped_bit(&mut self, name: Name) -> Vec<u8> {
        let address = self.address_for(name);
        let mut frame = self.frame(name, address);
        let bit = self.random.between(0, frame.len() * 8 - 1);
        frame[bit / 8] ^= 0x80 >> (bit % 8);
        frame
    }

    /// With the remainder as it stands, which ought to be inverted.
    pub fn plain_remainder(&mut self, name: Name) -> Vec<u8> {
        let address = self.address_for(name);
        let mut frame = self.frame(name, address);
        frame.truncate(frame.len() - 2);
        let remainder = crc::remainder(&frame);
        frame.extend(remainder);
        frame
    }

    pub fn unknown_code(&mut self, code: u8) -> Vec<u8> {
        let frame = self.any_frame();
        sealed_with(code, &frame[1..frame.len() - 2])
    }

    pub fn one_byte_more(&mut self, name: Name) -> Vec<u8> {
        let address = self.address_for(name);
        let mut frame = self.frame(name, address);
        frame.truncate(frame.len() - 2);
        frame.push(self.random.byte());
        frame::sealed(&frame)
    }

    /// Of a command without parameters this leaves a stub.
    pub fn one_byte_less(&mut self, name: Name) -> Vec<u8> {
        let address = self.address_for(name);
        let mut frame = self.frame(name, address);
        frame.truncate(frame.len() - 3);
        frame::sealed(&frame)
    }

    pub fn any_damaged(&mut self) -> Vec<u8> {
        let name = self.any_name();
        match self.random.between(0, 4) {
            0 => self.stub(2),
            1 => self.flipped_bit(name),
            2 => self.one_byte_more(name),
            3 => self.one_byte_less(name),
            _ => {
                let code = self.random.pick(&UNKNOWN_CODES);
                self.unknown_code(code)
            }
        }
    }

    fn any_frame(&mut self) -> Vec<u8> {
        let name = self.any_name();
        let address = self.address_for(name);
        self.frame(name, address)
    }
}

/// Choices.
impl Asker {
    pub fn any_name(&mut self) -> Name {
        let index = self.random.between(0, COMMANDS.len() - 1);
        COMMANDS[index].name
    }

    /// All limits and some others.
    pub fn addresses(&mut self) -> Vec<u8> {
        let mut addresses = LIMITS.to_vec();
        addresses.extend((0..2).map(|_| self.random.between(0x09, 0x2F) as u8));
        addresses.push(self.random.between(0x39, 0xF7) as u8);
        addresses
    }

    /// Mostly one within the memory, and for writing mostly a block's.
    pub fn address_for(&mut self, name: Name) -> u8 {
        if self.random.one_in(4) {
            return self.random.pick(&LIMITS);
        }
        if self.random.one_in(20) {
            return self.random.byte();
        }
        if name == Name::Write {
            return self.block();
        }
        self.random.between(0, MEMORY_LENGTH - 1) as u8
    }

    /// A block's address, but none that holds part of the serial number.
    pub fn block(&mut self) -> u8 {
        (self.random.between(2, LAST_BLOCK) * BLOCK_LENGTH) as u8
    }

    pub fn masks(&mut self) -> Vec<u8> {
        let mut masks = vec![0x00, 0xFF, self.random.byte()];
        masks.extend((0..8).map(|index| 0x80 >> index));
        masks
    }

    fn mask(&mut self) -> u8 {
        let masks = self.masks();
        self.random.pick(&masks)
    }

    pub fn counters(&mut self) -> [u8; 6] {
        [0x00, 0x01, 0x02, 0xFE, 0xFF, self.random.byte()]
    }

    pub fn random_locks(&mut self) {
        let bits = std::array::from_fn(|_| self.random.byte());
        self.locks(bits);
    }

    /// So few that most blocks have none.
    pub fn sparse_locks(&mut self) {
        let mut sparse = || self.random.byte() & self.random.byte() & self.random.byte();
        let bits = std::array::from_fn(|_| sparse());
        self.locks(bits);
    }

    /// A condition in which whatever a frame changes can be seen.
    pub fn telling(&mut self, state: State) -> Condition {
        Condition {
            state,
            id_flag: !self.random.one_in(4),
            counter: self.random.between(1, 0xFF) as u8,
            mark: self.random.between(1, 2) as u8,
            permission: Some(self.random.between(0, MEMORY_LENGTH - 1) as u8),
        }
    }
}

#[cfg(test)]
mod tests {
    use super::*;
    use crate::frame::Refusal;
    use crate::order::Order;

    fn asker() -> Asker {
        let mut asker = Asker::new(3);
        asker.new_tag();
        asker
    }

    fn refusal(frame: &[u8]) -> Option<Refusal> {
        Order::open(frame).err()
    }

    #[test]
    fn right_frames_concern_the_tag() {
        let mut asker = asker();
        for name in ACCESSES.into_iter().chain([Name::Select]) {
            let mut tag = Tag {
                state: State::Inventoried,
                mark: 2,
                ..asker.tag.clone()
            };
            if name == Name::Select {
                tag.state = State::Ready;
            }
            let order = Order::open(&asker.frame(name, 0x35));
            assert!(tag.step(&order, false).is_some(), "{name:?}");
        }
    }

    #[test]
    fn damaged_frames_are_refused_for_their_damage() {
        let mut asker = asker();
        for length in 0..=2 {
            assert_eq!(refusal(&asker.stub(length)), Some(Refusal::TooShort));
        }
        for command in &COMMANDS {
            let name = command.name;
            let wrong_length = Some(Refusal::WrongLength);
            let wrong_check = Some(Refusal::WrongCheck);
            assert_eq!(refusal(&asker.flipped_bit(name)), wrong_check);
            assert_eq!(refusal(&asker.plain_remainder(name)), wrong_check);
            assert_eq!(refusal(&asker.one_byte_more(name)), wrong_length);
            let less = refusal(&asker.one_byte_less(name));
            let stub = command.parameters_length() == 0;
            assert_eq!(less == Some(Refusal::TooShort), stub);
            assert_eq!(less == wrong_length, !stub);
        }
        for code in UNKNOWN_CODES {
            let frame = asker.unknown_code(code);
            assert_eq!(refusal(&frame), Some(Refusal::UnknownCode));
        }
        for _ in 0..100 {
            assert!(refusal(&asker.any_damaged()).is_some());
        }
    }
}
