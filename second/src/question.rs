//! Questions and their answers, as they are written down.

use std::fmt;

use crate::crc;
use crate::frame::{self, Opened, Part};

pub enum Question {
    Check(Vec<u8>),
    Open(Vec<u8>),
    Make {
        code: u8,
        parameters: Vec<u8>,
        room: usize,
    },
}

impl Question {
    pub fn answer(&self) -> String {
        match self {
            Question::Check(bytes) => hex(&crc::check_value(bytes)),
            Question::Open(bytes) => answer_open(bytes),
            Question::Make {
                code,
                parameters,
                room,
            } => answer_make(*code, parameters, *room),
        }
    }
}

impl fmt::Display for Question {
    fn fmt(&self, out: &mut fmt::Formatter) -> fmt::Result {
        match self {
            Question::Check(bytes) => write!(out, "check {}", hex(bytes)),
            Question::Open(bytes) => write!(out, "open {}", hex(bytes)),
            Question::Make {
                code,
                parameters,
                room,
            } => {
                write!(out, "make {code:02X} {} {room}", hex(parameters))
            }
        }
    }
}

fn answer_open(bytes: &[u8]) -> String {
    match frame::open(bytes) {
        Ok(opened) => opened_line(&opened),
        Err(refusal) => format!("refused {}", refusal as u8),
    }
}

fn opened_line(opened: &Opened) -> String {
    let mut line = format!("opened {:02X}", opened.name as u8);
    for Part {
        name,
        offset,
        length,
    } in &opened.parts
    {
        line += &format!(" {name}@{offset}+{length}");
    }
    line
}

fn answer_make(code: u8, parameters: &[u8], room: usize) -> String {
    let mut buffer = filled(room);
    match frame::make(code, parameters, &mut buffer) {
        Ok(length) => format!("made {length} {}", hex(&buffer)),
        Err(refusal) => format!("refused {} {}", refusal as u8, hex(&buffer)),
    }
}

/// A buffer whose neighbouring bytes differ, so that a stray write shows.
fn filled(room: usize) -> Vec<u8> {
    (0..room)
        .map(|index| ((165 + 7 * index) % 256) as u8)
        .collect()
}

pub fn hex(bytes: &[u8]) -> String {
    // An empty word would vanish between the blanks.
    if bytes.is_empty() {
        return "-".to_string();
    }
    bytes.iter().map(|byte| format!("{byte:02X}")).collect()
}

#[cfg(test)]
mod tests {
    use super::*;

    fn lines(question: Question) -> (String, String) {
        (question.to_string(), question.answer())
    }

    fn pair(question: &str, answer: &str) -> (String, String) {
        (question.to_string(), answer.to_string())
    }

    #[test]
    fn checks() {
        assert_eq!(lines(Question::Check(vec![])), pair("check -", "0000"));
        assert_eq!(lines(Question::Check(vec![0x09])), pair("check 09", "8F26"));
    }

    #[test]
    fn opens() {
        let open = |bytes: &[u8]| lines(Question::Open(bytes.to_vec()));
        assert_eq!(open(&[]), pair("open -", "refused 1"));
        assert_eq!(open(&[0x08, 0x9F, 0x07]), pair("open 089F07", "opened 08"));
        assert_eq!(open(&[0x09, 0x8F, 0x27]), pair("open 098F27", "refused 2"));
        let read = frame::sealed(&[0x0C, 0, 0, 0, 0, 0, 0, 0, 0, 0]);
        assert_eq!(open(&read).1, "opened 0C SNR@1+8 ADDRESS@9+1");
    }

    #[test]
    fn makes() {
        let make = |code, parameters: &[u8], room| {
            lines(Question::Make {
                code,
                parameters: parameters.to_vec(),
                room,
            })
        };
        assert_eq!(make(0x09, &[], 5), pair("make 09 - 5", "made 3 098F26BAC1"));
        assert_eq!(make(0x09, &[], 2), pair("make 09 - 2", "refused 5 A5AC"));
        assert_eq!(make(0x0A, &[7], 0), pair("make 0A 07 0", "refused 4 -"));
        assert_eq!(make(0x0B, &[7], 1), pair("make 0B 07 1", "refused 3 A5"));
    }

    #[test]
    fn the_filling_wraps_around() {
        assert_eq!(filled(14)[12..], [0xF9, 0x00]);
    }
}
