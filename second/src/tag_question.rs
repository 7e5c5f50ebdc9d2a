//! Questions about a tag and their answers, as they are written down.

use std::fmt;

use crate::order::Order;
use crate::question::hex;
use crate::tag::{Locks, State, Tag, MEMORY_LENGTH};

pub enum Question {
    New([u8; MEMORY_LENGTH]),
    Locks(Locks),
    Set(Condition),
    Step { coin: bool, frame: Vec<u8> },
    Gap(u32),
}

/// The parts of a tag that are set together.
#[derive(Clone, Copy)]
pub struct Condition {
    pub state: State,
    pub id_flag: bool,
    pub counter: u8,
    pub mark: u8,
    pub permission: Option<u8>,
}

impl Condition {
    pub fn of(tag: &Tag) -> Condition {
        Condition {
            state: tag.state,
            id_flag: tag.id_flag,
            counter: tag.counter,
            mark: tag.mark,
            permission: tag.permission,
        }
    }

    fn put(self, tag: &mut Tag) {
        tag.state = self.state;
        tag.id_flag = self.id_flag;
        tag.counter = self.counter;
        tag.mark = self.mark;
        tag.permission = self.permission;
    }
}

impl Question {
    /// Changes the tag as asked and tells what has become of it.
    pub fn answer(&self, tag: &mut Tag) -> String {
        let before = tag.clone();
        let reply = self.put(tag);
        let memory = unless_same(&before.memory, &tag.memory);
        let locks = unless_same(&before.locks.0, &tag.locks.0);
        format!("{} {memory} {locks} {}", Condition::of(tag), hex(&reply))
    }

    /// The reply's bytes, none where there is no reply.
    fn put(&self, tag: &mut Tag) -> Vec<u8> {
        match self {
            Question::New(memory) => *tag = Tag::new(*memory),
            Question::Locks(locks) => tag.locks = *locks,
            Question::Set(condition) => condition.put(tag),
            Question::Gap(microseconds) => tag.gap(*microseconds),
            Question::Step { coin, frame } => {
                let reply = tag.step(&Order::open(frame), *coin);
                return reply.map_or(Vec::new(), |reply| tag.written(reply));
            }
        }
        Vec::new()
    }
}

fn unless_same(before: &[u8], after: &[u8]) -> String {
    if before == after {
        "=".to_string()
    } else {
        hex(after)
    }
}

impl fmt::Display for Question {
    fn fmt(&self, out: &mut fmt::Formatter) -> fmt::Result {
        match self {
            Question::New(memory) => write!(out, "new {}", hex(memory)),
            Question::Locks(locks) => write!(out, "locks {}", hex(&locks.0)),
            Question::Set(condition) => write!(out, "set {condition}"),
            Question::Step { coin, frame } => {
                write!(out, "step {} {}", u8::from(*coin), hex(frame))
            }
            Question::Gap(microseconds) => write!(out, "gap {microseconds}"),
        }
    }
}

impl fmt::Display for Condition {
    fn fmt(&self, out: &mut fmt::Formatter) -> fmt::Result {
        let Condition { counter, mark, .. } = self;
        let id_flag = u8::from(self.id_flag);
        write!(out, "{} {id_flag} {counter:02X} {mark} ", self.state)?;
        match self.permission {
            Some(address) => write!(out, "{address:02X}"),
            None => write!(out, "-"),
        }
    }
}

impl fmt::Display for State {
    fn fmt(&self, out: &mut fmt::Formatter) -> fmt::Result {
        out.write_str(match self {
            State::Ready => "READY",
            State::Singulation => "SINGULATION",
            State::Inventoried => "INVENTORIED",
        })
    }
}

#[cfg(test)]
mod tests {
    use super::*;
    use crate::frame::{sealed_with, Name};

    fn counting() -> [u8; MEMORY_LENGTH] {
        std::array::from_fn(|address| address as u8 + 0x40)
    }

    fn lines(tag: &mut Tag, question: Question) -> (String, String) {
        (question.to_string(), question.answer(tag))
    }

    fn step(tag: &mut Tag, name: Name, parameters: &[u8]) -> (String, String) {
        let frame = sealed_with(name as u8, parameters);
        lines(tag, Question::Step { coin: true, frame })
    }

    fn pair(question: &str, answer: &str) -> (String, String) {
        (question.to_string(), answer.to_string())
    }

    #[test]
    fn a_new_tag_shows_its_memory() {
        let mut tag = Tag::new([0; MEMORY_LENGTH]);
        let digits = hex(&counting());
        assert!(digits.starts_with("404142") && digits.ends_with("757677"));
        assert_eq!(
            lines(&mut tag, Question::New(counting())),
            pair(
                &format!("new {digits}"),
                &format!("READY 0 00 0 - {digits} = -")
            )
        );
    }

    #[test]
    fn what_stays_equal_is_not_repeated() {
        let mut tag = Tag::new(counting());
        assert_eq!(
            lines(&mut tag, Question::New(counting())).1,
            "READY 0 00 0 - = = -"
        );
        let none = Locks([0; 7]);
        assert_eq!(
            lines(&mut tag, Question::Locks(none)),
            pair("locks 00000000000000", "READY 0 00 0 - = 00000000000000 -")
        );
        assert_eq!(
            lines(&mut tag, Question::Locks(none)).1,
            "READY 0 00 0 - = = -"
        );
    }

    #[test]
    fn conditions_and_gaps() {
        let mut tag = Tag::new(counting());
        let condition = Condition {
            state: State::Inventoried,
            id_flag: true,
            counter: 0xAB,
            mark: 2,
            permission: Some(0x0C),
        };
        assert_eq!(
            lines(&mut tag, Question::Set(condition)),
            pair("set INVENTORIED 1 AB 2 0C", "INVENTORIED 1 AB 2 0C = = -")
        );
        assert_eq!(
            lines(&mut tag, Question::Gap(250)),
            pair("gap 250", "READY 1 00 0 - = = -")
        );
    }

    #[test]
    fn steps() {
        let mut tag = Tag::new([0; MEMORY_LENGTH]);
        assert_eq!(
            step(&mut tag, Name::Scroll, &[]),
            pair("step 1 098F26", "READY 0 00 0 - = = -")
        );
        let (_, answer) = step(&mut tag, Name::QLock, &[0; 9]);
        assert_eq!(answer, "INVENTORIED 1 00 0 00 = = FE10DE");
        let (_, answer) = step(&mut tag, Name::Lock, &[0; 9]);
        assert_eq!(answer, "INVENTORIED 1 00 2 - = = 001E0F");
        let stub = Question::Step {
            coin: false,
            frame: vec![],
        };
        assert_eq!(
            lines(&mut tag, stub),
            pair("step 0 -", "READY 1 00 1 - = = -")
        );
    }

    #[test]
    fn changes_show() {
        let mut tag = Tag::new([0; MEMORY_LENGTH]);
        let at_eight = [&[0; 8][..], &[0x08, 0xFF, 1, 2, 3, 4]].concat();
        let (_, answer) = step(&mut tag, Name::Write, &at_eight);
        let memory = format!("{}01020304{}", "00".repeat(8), "00".repeat(44));
        assert_eq!(answer, format!("INVENTORIED 1 00 2 08 {memory} = 001E0F"));
        let (_, answer) = step(&mut tag, Name::Lock, &at_eight[..9]);
        assert_eq!(answer, "INVENTORIED 1 00 2 - = C0800000000000 001E0F");
    }
}
