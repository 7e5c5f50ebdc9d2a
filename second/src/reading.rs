//! Reads questions back from the words in which they are written.

use std::str::FromStr;

use crate::field_question;
use crate::nesting::Nesting;
use crate::question;
use crate::question::hex;
use crate::sweep_question::{self, Plan};
use crate::tag::{Locks, State, Tag, MEMORY_LENGTH};
use crate::tag_question::{self, Condition};

/// A question about frames.
pub fn of_frames(line: &str) -> Option<question::Question> {
    let words: Vec<&str> = line.split(' ').collect();
    Some(match words[..] {
        ["check", message] => question::Question::Check(bytes(message)?),
        ["open", frame] => question::Question::Open(bytes(frame)?),
        ["make", code, parameters, room] => question::Question::Make {
            code: byte(code)?,
            parameters: bytes(parameters)?,
            room: number(room)?,
        },
        _ => return None,
    })
}

/// A question about one tag.
pub fn of_tags(line: &str) -> Option<tag_question::Question> {
    let words: Vec<&str> = line.split(' ').collect();
    Some(match words[..] {
        ["new", memory] => tag_question::Question::New(bytes(memory)?.try_into().ok()?),
        ["locks", bits] => tag_question::Question::Locks(locks(bits)?),
        ["step", coin, frame] => tag_question::Question::Step {
            coin: bit(coin)?,
            frame: bytes(frame)?,
        },
        ["gap", microseconds] => tag_question::Question::Gap(number(microseconds)?),
        ["set", ref parts @ ..] => tag_question::Question::Set(condition(parts)?),
        _ => return None,
    })
}

/// A question about a field or a sweep of it.
pub fn of_fields(line: &str) -> Option<sweep_question::Question> {
    let words: Vec<&str> = line.split(' ').collect();
    let question = match words[..] {
        ["sweep", budget, slots, serials, ref rows @ ..] => {
            return Some(sweep_question::Question::Sweep(Plan {
                budget: number(budget)?,
                slots: number(slots)?,
                serials: number(serials)?,
                rows: rows.iter().map(|word| row(word)).collect::<Option<_>>()?,
            }))
        }
        ["tag", ref parts @ .., bits, memory] => tag(parts, bits, memory)?,
        ["find", serial] => field_question::Question::Find(bytes(serial)?.try_into().ok()?),
        ["field", ref words @ ..] => {
            field_question::Question::Field(Nesting::read(&words.join(" "))?)
        }
        ["send", coins, room, frame] => field_question::Question::Send {
            row: row(coins)?,
            room: number(room)?,
            frame: bytes(frame)?,
        },
        ["gap", microseconds] => field_question::Question::Gap(number(microseconds)?),
        ["end"] => field_question::Question::End,
        _ => return None,
    };
    Some(sweep_question::Question::Field(question))
}

/// A tag in the words of the question `tag`, with its memory up to its last byte that is not 00.
pub fn record(tag: &Tag) -> String {
    let last = tag.memory.iter().rposition(|&byte| byte != 0);
    let memory = hex(&tag.memory[..last.map_or(0, |last| last + 1)]);
    format!("{} {} {memory}", Condition::of(tag), hex(&tag.locks.0))
}

fn tag(parts: &[&str], bits: &str, memory: &str) -> Option<field_question::Question> {
    let told = bytes(memory)?;
    let mut memory = [0; MEMORY_LENGTH];
    memory.get_mut(..told.len())?.copy_from_slice(&told);
    let Condition {
        state,
        id_flag,
        counter,
        mark,
        permission,
    } = condition(parts)?;
    let tag = Tag {
        memory,
        locks: locks(bits)?,
        state,
        id_flag,
        counter,
        mark,
        permission,
    };
    let told = told.len();
    Some(field_question::Question::Tag { tag, told })
}

fn condition(parts: &[&str]) -> Option<Condition> {
    let &[state, id_flag, counter, mark, permission] = parts else {
        return None;
    };
    Some(Condition {
        state: state_of(state)?,
        id_flag: bit(id_flag)?,
        counter: byte(counter)?,
        mark: mark_of(mark)?,
        permission: permission_of(permission)?,
    })
}

pub fn mark_of(word: &str) -> Option<u8> {
    number(word).filter(|mark| *mark <= 2)
}

/// `-` is none.
pub fn permission_of(word: &str) -> Option<Option<u8>> {
    match word {
        "-" => Some(None),
        address => byte(address).map(Some),
    }
}

fn state_of(word: &str) -> Option<State> {
    [State::Ready, State::Singulation, State::Inventoried]
        .into_iter()
        .find(|state| state.to_string() == word)
}

pub fn locks(word: &str) -> Option<Locks> {
    Some(Locks(bytes(word)?.try_into().ok()?))
}

pub fn bit(word: &str) -> Option<bool> {
    match word {
        "0" => Some(false),
        "1" => Some(true),
        _ => None,
    }
}

fn number<T: FromStr>(word: &str) -> Option<T> {
    word.parse().ok()
}

pub fn row(word: &str) -> Option<u64> {
    u64::from_str_radix(word, 16).ok()
}

pub fn byte(word: &str) -> Option<u8> {
    match bytes(word)?[..] {
        [byte] => Some(byte),
        _ => None,
    }
}

/// `-` is no bytes at all.
pub fn bytes(word: &str) -> Option<Vec<u8>> {
    if word == "-" {
        return Some(Vec::new());
    }
    let digit = |byte: u8| char::from(byte).to_digit(16).map(|digit| digit as u8);
    word.as_bytes()
        .chunks(2)
        .map(|pair| match *pair {
            [high, low] => Some(16 * digit(high)? + digit(low)?),
            _ => None,
        })
        .collect()
}

#[cfg(test)]
mod tests {
    use super::*;
    use crate::{cases, field_cases, sweep_cases, tag_cases};

    /// What is written is read back; the lines of one seed have every kind of question.
    #[test]
    fn questions_read_back() {
        for question in cases::all(1) {
            let line = question.to_string();
            assert_eq!(of_frames(&line).map(|read| read.to_string()), Some(line));
        }
        for asked in tag_cases::asker(1).asked {
            let line = asked.question.to_string();
            assert_eq!(of_tags(&line).map(|read| read.to_string()), Some(line));
        }
        for asked in field_cases::all(1) {
            let line = asked.question.to_string();
            assert_eq!(of_fields(&line).map(|read| read.to_string()), Some(line));
        }
        for asked in sweep_cases::all(1) {
            let line = asked.question.to_string();
            assert_eq!(of_fields(&line).map(|read| read.to_string()), Some(line));
        }
    }

    #[test]
    fn what_is_no_question() {
        for line in ["", "check", "check 0", "check 0G", "make 09 - -1", "open"] {
            assert!(of_frames(line).is_none(), "{line}");
        }
        for line in ["new 00", "set READY 0 00 3 -", "step 0", "locks 00", "sets"] {
            assert!(of_tags(line).is_none(), "{line}");
        }
        for line in [
            "tag",
            "field",
            "field bench",
            "send 0 258",
            "sweep 1 2",
            "ends",
        ] {
            assert!(of_fields(line).is_none(), "{line}");
        }
    }
}
