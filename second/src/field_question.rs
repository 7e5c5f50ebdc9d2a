//! Questions about fields and their answers, as they are written down.

use std::fmt;

use crate::field::{Bench, Field, Hearing, Refusal, REPLY_ROOM};
use crate::fingerprint::Fingerprint;
use crate::nesting::Nesting;
use crate::order::Serial;
use crate::question::hex;
use crate::tag::{Tag, MEMORY_LENGTH};
use crate::tag_question::Condition;

/// More than a reply needs, so that a stray write shows.
const BUFFER_LENGTH: usize = 300;

const FILLING: u8 = 0xA5;

pub enum Question {
    /// A tag, and how many bytes of its memory are told; all others are zeros.
    Tag {
        tag: Tag,
        told: usize,
    },
    Find(Serial),
    Field(Nesting),
    Send {
        row: u64,
        room: usize,
        frame: Vec<u8>,
    },
    Gap(u32),
    End,
}

/// What lasts from one question to the next, until the end.
pub struct Play {
    pub table: Vec<Tag>,
    pub field: Box<dyn Field>,
    pub buffer: [u8; BUFFER_LENGTH],
    /// What came of the last send.
    pub heard: Result<Hearing, Refusal>,
}

impl Play {
    pub fn new() -> Play {
        Play {
            table: Vec::new(),
            field: Box::new(Bench::empty()),
            buffer: [FILLING; BUFFER_LENGTH],
            heard: Ok(Hearing::Silence),
        }
    }

    fn add(&mut self, tag: &Tag) -> String {
        self.table.push(tag.clone());
        self.table.len().to_string()
    }

    fn find(&self, serial: &Serial) -> String {
        let place = self.table.iter().position(|tag| tag.serial() == serial);
        place.map_or("-".to_string(), |place| place.to_string())
    }

    fn make(&mut self, nesting: &Nesting) -> String {
        match nesting.make(&mut self.table.iter().cloned()) {
            Ok(field) => {
                self.field = field;
                format!("places {} {}", self.field.places(), self.digest())
            }
            Err(refusal) => format!("refused {}", refusal as u8),
        }
    }

    fn send(&mut self, row: u64, room: usize, frame: &[u8]) -> String {
        self.heard = self.field.send(frame, row, &mut self.buffer[..room]);
        let heard = match self.heard {
            Ok(hearing) => format!("{hearing} {}", hex(self.reply())),
            Err(refusal) => format!("refused-{} -", refusal as u8),
        };
        format!(
            "{heard} {} {}",
            Fingerprint::of(&self.buffer),
            self.digest()
        )
    }

    fn gap(&mut self, microseconds: u32) -> String {
        self.field.gap(microseconds);
        format!("gap {}", self.digest())
    }

    fn end(&mut self) -> String {
        *self = Play::new();
        "end".to_string()
    }

    /// What the buffer holds of a reply, without the zeros at its end.
    fn reply(&self) -> &[u8] {
        let room = &self.buffer[..REPLY_ROOM];
        let last = room.iter().rposition(|&byte| byte != 0);
        &room[..last.map_or(0, |last| last + 1)]
    }

    pub fn digest(&self) -> Fingerprint {
        let mut digest = Fingerprint::new();
        for place in 0..self.field.places() {
            take_in(&mut digest, self.field.tag(place));
        }
        digest
    }
}

pub fn take_in(digest: &mut Fingerprint, tag: &Tag) {
    let locks: [u8; MEMORY_LENGTH] =
        std::array::from_fn(|address| u8::from(tag.locks.locked(address)));
    digest.take(&tag.memory);
    digest.take(&locks);
    digest.take(&[
        tag.state as u8,
        u8::from(tag.id_flag),
        tag.counter,
        tag.mark,
        u8::from(tag.permission.is_some()),
        tag.permission.unwrap_or(0),
    ]);
}

impl Question {
    /// Does in the play what is asked and tells what came of it.
    pub fn answer(&self, play: &mut Play) -> String {
        match self {
            Question::Tag { tag, .. } => play.add(tag),
            Question::Find(serial) => play.find(serial),
            Question::Field(nesting) => play.make(nesting),
            Question::Send { row, room, frame } => play.send(*row, *room, frame),
            Question::Gap(microseconds) => play.gap(*microseconds),
            Question::End => play.end(),
        }
    }

    /// How many fingerprints end its answer at most: a field that is refused has none.
    pub fn fingerprints(&self) -> usize {
        match self {
            Question::Field(_) | Question::Gap(_) => 1,
            Question::Send { .. } => 2,
            Question::Tag { .. } | Question::Find(_) | Question::End => 0,
        }
    }
}

impl fmt::Display for Question {
    fn fmt(&self, out: &mut fmt::Formatter) -> fmt::Result {
        match self {
            Question::Tag { tag, told } => {
                let locks = hex(&tag.locks.0);
                let memory = hex(&tag.memory[..*told]);
                write!(out, "tag {} {locks} {memory}", Condition::of(tag))
            }
            Question::Find(serial) => write!(out, "find {}", hex(serial)),
            Question::Field(nesting) => write!(out, "field {nesting}"),
            Question::Send { row, room, frame } => {
                write!(out, "send {row:016X} {room} {}", hex(frame))
            }
            Question::Gap(microseconds) => write!(out, "gap {microseconds}"),
            Question::End => write!(out, "end"),
        }
    }
}

impl fmt::Display for Hearing {
    fn fmt(&self, out: &mut fmt::Formatter) -> fmt::Result {
        out.write_str(match self {
            Hearing::Silence => "silence",
            Hearing::Lone => "lone",
            Hearing::Clash => "clash",
        })
    }
}

#[cfg(test)]
mod tests {
    use super::*;
    use crate::tag::{Locks, State};

    /// The read frame for the serial number that counts from one, at address 00.
    const READ: [u8; 12] = [0x0C, 1, 2, 3, 4, 5, 6, 7, 8, 0, 0x4B, 0xE9];

    const UNTOUCHED: &str = "9F75BE7E20080019";
    const CLEARED: &str = "39584E0495D3356F";

    fn counting() -> Tag {
        let mut memory = [0; MEMORY_LENGTH];
        memory[..8].copy_from_slice(&[1, 2, 3, 4, 5, 6, 7, 8]);
        Tag::new(memory)
    }

    fn busy() -> Tag {
        let mut memory = [0; MEMORY_LENGTH];
        memory[..2].copy_from_slice(&[0x0A, 0x0B]);
        Tag {
            memory,
            locks: Locks([0xC0, 0, 0, 0, 0, 0, 0x01]),
            state: State::Singulation,
            id_flag: true,
            counter: 0xAB,
            mark: 2,
            permission: Some(0x0C),
        }
    }

    fn add(tag: Tag, told: usize) -> Question {
        Question::Tag { tag, told }
    }

    fn field(text: &str) -> Question {
        Question::Field(Nesting::read(text).expect("the words are right"))
    }

    fn send(row: u64, room: usize, frame: &[u8]) -> Question {
        let frame = frame.to_vec();
        Question::Send { row, room, frame }
    }

    fn check(play: &mut Play, question: Question, line: &str, answer: &str) {
        assert_eq!(question.to_string(), line);
        assert_eq!(question.answer(play), answer, "to {line}");
    }

    /// Two tags in a field of this kind.
    fn two(text: &str) -> Play {
        let mut play = Play::new();
        for question in [add(counting(), 8), add(busy(), 2), field(text)] {
            question.answer(&mut play);
        }
        play
    }

    #[test]
    fn tables() {
        let mut play = Play::new();
        let one = "tag READY 0 00 0 - C0000000000000 0102030405060708";
        check(&mut play, add(counting(), 8), one, "1");
        let two = "tag SINGULATION 1 AB 2 0C C0000000000001 0A0B00";
        check(&mut play, add(busy(), 3), two, "2");
        check(&mut play, add(counting(), 8), one, "3");
        let none = "tag READY 0 00 0 - C0000000000000 -";
        check(&mut play, add(Tag::new([0; 56]), 0), none, "4");
        for (serial, line, answer) in [
            ([1, 2, 3, 4, 5, 6, 7, 8], "find 0102030405060708", "0"),
            ([0x0A, 0x0B, 0, 0, 0, 0, 0, 0], "find 0A0B000000000000", "1"),
            ([0; 8], "find 0000000000000000", "3"),
            ([1, 2, 3, 4, 5, 6, 7, 9], "find 0102030405060709", "-"),
        ] {
            check(&mut play, Question::Find(serial), line, answer);
        }
    }

    #[test]
    fn fields_are_told_with_their_tags() {
        for (tags, text, answer) in [
            (vec![], "bench 0", "places 0 CBF29CE484222325"),
            (vec![counting()], "single", "places 1 98C8F25E235829CF"),
            (
                vec![busy()],
                "spoiler 3 bench 1",
                "places 1 304C47CD3AFF213D",
            ),
            (
                vec![counting(), busy()],
                "pair single single",
                "places 2 868E0EE7F0D185DF",
            ),
        ] {
            let mut play = Play::new();
            for tag in tags {
                add(tag, 8).answer(&mut play);
            }
            check(&mut play, field(text), &format!("field {text}"), answer);
        }
    }

    #[test]
    fn a_refused_field_leaves_none() {
        let mut play = Play::new();
        add(counting(), 8).answer(&mut play);
        check(
            &mut play,
            field("spoiler 0 single"),
            "field spoiler 0 single",
            "refused 11",
        );
        let answer = format!("silence - {CLEARED} CBF29CE484222325");
        assert_eq!(send(0, 258, &READ).answer(&mut play), answer);
        assert_eq!(Question::Gap(9).answer(&mut play), "gap CBF29CE484222325");
        for _ in 0..65 {
            add(counting(), 8).answer(&mut play);
        }
        assert_eq!(field("bench 66").answer(&mut play), "refused 6");
    }

    #[test]
    fn sends() {
        let mut play = two("bench 2");
        let line = "send 8000000000000001 257 0C0102030405060708004BE9";
        let answer = format!("refused-5 - {UNTOUCHED} 868E0EE7F0D185DF");
        check(&mut play, send(1 << 63 | 1, 257, &READ), line, &answer);
        let line = "send 0000000000000000 300 0C0102030405060708004BE9";
        let answer = "lone 0102030405060708B86D 17ED618C0EF2508C 362486E76367B30B";
        check(&mut play, send(0, 300, &READ), line, answer);
        let line = "send FFFFFFFFFFFFFFFF 0 -";
        let answer = "refused-5 - 17ED618C0EF2508C 362486E76367B30B";
        check(&mut play, send(u64::MAX, 0, &[]), line, answer);
        let answer = "gap D4F380F3B814F21D";
        check(&mut play, Question::Gap(250), "gap 250", answer);
        let line = "send 0000000000000000 258 -";
        let answer = format!("silence - {CLEARED} D4F380F3B814F21D");
        check(&mut play, send(0, 258, &[]), line, &answer);
    }

    #[test]
    fn clashes_have_no_reply() {
        let mut play = two("spoiler 1 bench 2");
        let answer = format!("clash - {CLEARED} 362486E76367B30B");
        assert_eq!(send(0, 258, &READ).answer(&mut play), answer);
        assert_eq!(play.heard, Ok(Hearing::Clash));
    }

    #[test]
    fn zeros_within_a_reply_are_told() {
        let mut play = two("bench 2");
        let mut frame = READ[..9].to_vec();
        frame[0] = 0x11;
        frame.push(0x08);
        let frame = crate::frame::sealed(&frame);
        let answer = send(0, 258, &frame).answer(&mut play);
        assert!(answer.starts_with("lone 001E0F "), "{answer}");
    }

    #[test]
    fn after_the_end_everything_is_new() {
        let mut play = two("pair single single");
        send(0, 300, &READ).answer(&mut play);
        check(&mut play, Question::End, "end", "end");
        let answer = format!("refused-5 - {UNTOUCHED} CBF29CE484222325");
        assert_eq!(send(0, 0, &READ).answer(&mut play), answer);
        assert_eq!(add(counting(), 8).answer(&mut play), "1");
    }
}
