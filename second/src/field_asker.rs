//! Asks questions about fields, and knows what the tags have become meanwhile.

use crate::asked;
use crate::field::{Field, Hearing};
use crate::field_question::{Play, Question};
use crate::frame::{sealed_with, Name};
use crate::nesting::Nesting;
use crate::order::{Serial, SERIAL_LENGTH};
use crate::random::Random;
use crate::tag::{Locks, State, Tag, MEMORY_LENGTH};
use crate::tag_asker::{self, access_frame, ALL_LOCKS, NEW_LOCKS, NO_LOCKS, STATES};
use crate::tag_cases::GAPS;

/// What all tags but the empty ones begin with, so that one comparison matches them.
const LABEL: [u8; 2] = [0xEF, 0x04];

/// Tags fall into so many groups, told apart by the byte behind the label.
const GROUPS: usize = 3;

pub const GROUP_ADDRESS: u8 = LABEL.len() as u8;

/// How much of a memory is told, mostly little.
const TOLD: [usize; 8] = [8, 8, 8, 9, 12, 16, 24, MEMORY_LENGTH];

const ENOUGH_ROOM: [usize; 5] = [258, 258, 259, 300, 300];
pub const TOO_LITTLE_ROOM: [usize; 3] = [0, 1, 257];

/// What the tags of a table are like.
#[derive(Clone, Copy)]
pub enum Like {
    /// Never used, each with its own serial number.
    New,
    /// In any condition.
    Used,
    /// In any condition, and many with the serial number of another.
    Twins,
    /// Without anything, where the tags do not matter.
    Empty,
}

pub struct Asker {
    /// Writes frames about one tag at a time.
    pen: tag_asker::Asker,
    pub play: Play,
    pub asked: Vec<Asked>,
}

pub type Asked = asked::Asked<Question>;

/// The ways to put a question.
impl Asker {
    pub fn new(seed: u64) -> Asker {
        Asker {
            pen: tag_asker::Asker::new(seed),
            play: Play::new(),
            asked: Vec::new(),
        }
    }

    pub fn random(&mut self) -> &mut Random {
        &mut self.pen.random
    }

    pub fn ask(&mut self, question: Question) {
        let answer = question.answer(&mut self.play);
        self.asked.push(Asked { question, answer });
    }

    pub fn send(&mut self, row: u64, room: usize, frame: Vec<u8>) {
        self.ask(Question::Send { row, room, frame });
    }

    /// With coins that matter, and enough room to see what they do.
    pub fn toss(&mut self, row: u64, frame: Vec<u8>) {
        let room = self.random().pick(&ENOUGH_ROOM);
        self.send(row, room, frame);
    }

    /// Mostly with enough room.
    pub fn put(&mut self, frame: Vec<u8>) {
        let row = self.row();
        if self.random().one_in(20) {
            let room = self.random().pick(&TOO_LITTLE_ROOM);
            self.send(row, room, frame);
        } else {
            self.toss(row, frame);
        }
    }

    /// A frame that is about the tag there as far as its command can be.
    pub fn step(&mut self, place: usize, name: Name, address: u8) {
        let frame = self.about(place).frame(name, address);
        self.put(frame);
    }

    pub fn read(&mut self, place: usize, address: u8, length: u8) {
        let serial = self.serial(place);
        self.put(access_frame(
            Name::ReadFlexible,
            &serial,
            address,
            &[length],
        ));
    }

    /// A command without parameters.
    pub fn call(&mut self, name: Name) {
        self.put(sealed_with(name as u8, &[]));
    }

    pub fn gap(&mut self, microseconds: u32) {
        self.ask(Question::Gap(microseconds));
    }

    pub fn any_gap(&mut self) {
        let random = self.random();
        let most = random.pick(&[249, 3_999_999, u32::MAX as usize]);
        let between = random.between(0, most) as u32;
        let known = random.pick(&GAPS);
        let microseconds = random.pick(&[between, known, known]);
        self.gap(microseconds);
    }
}

/// What there is.
impl Asker {
    pub fn places(&self) -> usize {
        self.play.field.places()
    }

    pub fn serial(&self, place: usize) -> Serial {
        *self.play.field.tag(place).serial()
    }

    pub fn heard(&self, hearing: Hearing) -> bool {
        self.play.heard == Ok(hearing)
    }

    /// The serial number that was heard last.
    pub fn heard_serial(&self) -> Serial {
        let serial = self.play.buffer.first_chunk();
        *serial.expect("the buffer is longer than a serial number")
    }

    /// What writes frames about the tag as it is now.
    pub fn about(&mut self, place: usize) -> &mut tag_asker::Asker {
        self.pen.tag = self.play.field.tag(place).clone();
        &mut self.pen
    }

    /// The same about some tag, the last one where there is none.
    pub fn about_any(&mut self) -> &mut tag_asker::Asker {
        match self.any_place() {
            Some(place) => self.about(place),
            None => &mut self.pen,
        }
    }

    pub fn any_place(&mut self) -> Option<usize> {
        let last = self.places().checked_sub(1)?;
        Some(self.random().between(0, last))
    }

    pub fn row(&mut self) -> u64 {
        let random = self.random();
        let bit = 1 << random.between(0, 63);
        let word = random.word();
        random.pick(&[0, u64::MAX, 1, 1 << 63, bit, !bit, word, word, word])
    }

    /// One bit away from the serial number there.
    pub fn near(&mut self, place: usize) -> Serial {
        let mut serial = self.serial(place);
        self.flip(&mut serial);
        serial
    }

    fn flip(&mut self, serial: &mut Serial) {
        let random = self.random();
        let position = random.between(0, SERIAL_LENGTH - 1);
        serial[position] ^= 1 << random.between(0, 7);
    }
}

/// Setting up.
impl Asker {
    /// The tags, the field, what is done with it, and the end.
    pub fn play(&mut self, like: Like, nesting: &Nesting, acts: impl FnOnce(&mut Asker)) {
        self.table(like, nesting.places());
        self.ask(Question::Field(nesting.clone()));
        acts(self);
        self.ask(Question::End);
    }

    fn table(&mut self, like: Like, places: usize) {
        // In a long table only some tags are worth looking for.
        let rarity = 4 + places / 2;
        for _ in 0..places {
            self.tag(like);
            if self.random().one_in(rarity) {
                self.find();
            }
        }
        if self.random().coin() {
            self.find();
        }
    }

    fn tag(&mut self, like: Like) {
        let (tag, told) = self.any_tag(like);
        self.ask(Question::Tag { tag, told });
    }

    /// A tag for the table, and how many bytes of its memory are to be told.
    pub fn any_tag(&mut self, like: Like) -> (Tag, usize) {
        let (mut tag, told) = self.unused(like);
        match like {
            Like::Used | Like::Twins => self.use_up(&mut tag),
            Like::New | Like::Empty => {}
        }
        (tag, told)
    }

    /// A new tag, and how many bytes of its memory are to be told.
    fn unused(&mut self, like: Like) -> (Tag, usize) {
        let mut memory = [0; MEMORY_LENGTH];
        if matches!(like, Like::Empty) || self.random().one_in(40) {
            return (Tag::new(memory), 0);
        }
        let told = self.random().pick(&TOLD);
        memory[..told].copy_from_slice(&self.random().bytes(told));
        memory[..LABEL.len()].copy_from_slice(&LABEL);
        memory[LABEL.len()] = self.random().between(1, GROUPS) as u8;
        if let Some(serial) = self.taken_serial(like) {
            memory[..SERIAL_LENGTH].copy_from_slice(&serial);
        }
        (Tag::new(memory), told)
    }

    /// Sometimes that of an earlier tag, or one bit away from it.
    fn taken_serial(&mut self, like: Like) -> Option<Serial> {
        let last = self.play.table.len().checked_sub(1)?;
        let place = self.random().between(0, last);
        let mut serial = *self.play.table[place].serial();
        if matches!(like, Like::Twins) && self.random().coin() {
            return Some(serial);
        }
        self.flip(&mut serial);
        self.random().one_in(6).then_some(serial)
    }

    /// Leaves the tag in any condition, mostly one in which it is told apart soon.
    fn use_up(&mut self, tag: &mut Tag) {
        tag.locks = self.locks();
        let random = self.random();
        let any = random.byte();
        tag.state = random.pick(&STATES);
        tag.id_flag = random.coin();
        tag.counter = random.pick(&[0, 0, 0, 1, 2, 0xFF, any]);
        tag.mark = random.between(0, 2) as u8;
        let address = random.between(0, MEMORY_LENGTH - 1) as u8;
        tag.permission = random.pick(&[None, Some(address), Some(any)]);
        if random.one_in(3) {
            tag.state = State::Singulation;
        }
    }

    fn locks(&mut self) -> Locks {
        let random = self.random();
        let sparse = std::array::from_fn(|_| random.byte() & random.byte() & random.byte());
        Locks(random.pick(&[NEW_LOCKS, NEW_LOCKS, NO_LOCKS, ALL_LOCKS, sparse]))
    }

    /// Mostly a serial number that is there, perhaps twice.
    fn find(&mut self) {
        let mut serial: Serial = std::array::from_fn(|_| self.random().byte());
        if let Some(last) = self.play.table.len().checked_sub(1) {
            if !self.random().one_in(6) {
                let place = self.random().between(0, last);
                serial = *self.play.table[place].serial();
            }
        }
        if self.random().one_in(4) {
            self.flip(&mut serial);
        }
        self.ask(Question::Find(serial));
    }
}

#[cfg(test)]
mod tests {
    use std::collections::HashSet;

    use super::*;

    fn asked(like: Like, places: usize) -> Vec<Asked> {
        let mut asker = Asker::new(3);
        asker.table(like, places);
        asker.asked
    }

    fn tags(like: Like, places: usize) -> Vec<(Tag, usize)> {
        let tag = |asked: Asked| match asked.question {
            Question::Tag { tag, told } => Some((tag, told)),
            _ => None,
        };
        asked(like, places).into_iter().filter_map(tag).collect()
    }

    fn different_serials(like: Like) -> usize {
        let tags = tags(like, 64);
        let serials: HashSet<Serial> = tags.iter().map(|(tag, _)| *tag.serial()).collect();
        serials.len()
    }

    #[test]
    fn only_zeros_are_not_told() {
        for like in [Like::New, Like::Used, Like::Twins, Like::Empty] {
            let tags = tags(like, 128);
            assert_eq!(tags.len(), 128);
            for (tag, told) in tags {
                assert!(tag.memory[told..].iter().all(|&byte| byte == 0));
            }
        }
    }

    #[test]
    fn new_tags_are_new() {
        for (tag, _) in tags(Like::New, 64) {
            assert_eq!(tag, Tag::new(tag.memory));
        }
    }

    #[test]
    fn used_tags_are_in_every_condition() {
        let tags = tags(Like::Used, 400);
        let seen: HashSet<_> = tags
            .iter()
            .map(|(tag, _)| (tag.state, tag.id_flag, tag.mark))
            .collect();
        assert_eq!(seen.len(), 3 * 2 * 3);
        assert!(tags.iter().any(|(tag, _)| tag.permission.is_none()));
        assert!(tags.iter().any(|(tag, _)| tag.permission > Some(0x37)));
        assert!(tags.iter().any(|(tag, _)| tag.counter == 0xFF));
    }

    #[test]
    fn twins_share_serial_numbers() {
        assert!(different_serials(Like::New) > 60);
        assert!((20..50).contains(&different_serials(Like::Twins)));
        assert_eq!(different_serials(Like::Empty), 1);
    }

    #[test]
    fn serial_numbers_are_looked_for_with_and_without_success() {
        let asked = asked(Like::Twins, 400);
        let finds = asked
            .iter()
            .filter(|asked| matches!(asked.question, Question::Find(_)));
        let (vain, found): (Vec<&Asked>, Vec<&Asked>) =
            finds.partition(|asked| asked.answer == "-");
        assert!(!vain.is_empty() && !found.is_empty());
    }

    #[test]
    fn rows_and_gaps() {
        let mut asker = Asker::new(4);
        let rows: HashSet<u64> = (0..200).map(|_| asker.row()).collect();
        for row in [0, u64::MAX, 1, 1 << 63] {
            assert!(rows.contains(&row));
        }
        (0..200).for_each(|_| asker.any_gap());
        for gap in GAPS {
            let line = format!("gap {gap}");
            assert!(asker
                .asked
                .iter()
                .any(|asked| asked.question.to_string() == line));
        }
    }

    #[test]
    fn frames_are_about_the_tag_as_it_is() {
        let nesting = Nesting::read("pair single bench 2").expect("the words are right");
        let mut asker = Asker::new(5);
        asker.play(Like::New, &nesting, |asker| {
            for place in 0..3 {
                let frame = asker.about(place).frame(Name::Read, 0);
                asker.toss(0, frame);
                assert!(asker.heard(Hearing::Lone));
                assert_eq!(asker.heard_serial(), asker.serial(place));
                assert_ne!(asker.near(place), asker.serial(place));
            }
        });
        assert_eq!(asker.asked.last().map(|asked| &*asked.answer), Some("end"));
        assert_eq!(asker.places(), 0);
    }

    #[test]
    fn without_tags_there_is_no_place() {
        let mut asker = Asker::new(6);
        assert_eq!(asker.any_place(), None);
        assert!(!asker.about_any().stub(2).is_empty());
    }
}
