//! Which questions are asked.

use crate::crc;
use crate::frame::{self, sealed_with, Command, COMMANDS};
use crate::question::Question;
use crate::random::Random;

/// Codes of no command, most of them one bit away from a known one.
pub const UNKNOWN_CODES: [u8; 10] = [0x01, 0x04, 0x0B, 0x0D, 0x18, 0x1C, 0x50, 0x80, 0x9B, 0xFF];

/// The longest byte string tried where every length is tried.
const LONGEST: usize = 20;

/// The most parameter bytes and the largest buffer tried in the same way.
const MOST_PARAMETERS: usize = 17;
const MOST_ROOM: usize = 24;

/// Added to a right length, this shows whether lengths are cut down to a byte.
const BYTE_WRAP: usize = 256;

/// All questions; the same seed gives the same ones.
pub fn all(seed: u64) -> Vec<Question> {
    let mut cases = Cases {
        random: Random::new(seed),
        questions: Vec::new(),
    };
    cases.checks();
    cases.opens();
    cases.makes();
    cases.questions
}

struct Cases {
    random: Random,
    questions: Vec<Question>,
}

/// The ways to put a question, and what the cases are built from.
impl Cases {
    fn check(&mut self, bytes: &[u8]) {
        self.questions.push(Question::Check(bytes.to_vec()));
    }

    fn open(&mut self, bytes: &[u8]) {
        self.questions.push(Question::Open(bytes.to_vec()));
    }

    /// Asks to make a frame from so many random parameter bytes.
    fn make(&mut self, code: u8, length: usize, room: usize) {
        let parameters = self.random.bytes(length);
        self.questions.push(Question::Make {
            code,
            parameters,
            room,
        });
    }

    /// A code and random bytes with a right check value, so long in all.
    fn sealed(&mut self, code: u8, length: usize) -> Vec<u8> {
        let parameters = self.random.bytes(length - frame::SHORTEST);
        sealed_with(code, &parameters)
    }

    fn frame(&mut self, command: &Command) -> Vec<u8> {
        self.sealed(command.code, command.frame_length())
    }

    /// The code's right length, or for an unknown code that of some command.
    fn likely_length(&mut self, code: u8) -> usize {
        let any = self.random.between(0, COMMANDS.len() - 1);
        frame::find(code).unwrap_or(&COMMANDS[any]).frame_length()
    }
}

/// Check values.
impl Cases {
    fn checks(&mut self) {
        self.known_checks();
        for length in 0..=40 {
            self.random_checks(length, 4);
        }
        for length in [257, 258, 300] {
            self.random_checks(length, 2);
        }
    }

    fn known_checks(&mut self) {
        for byte in [0x00, 0x01, 0x08, 0x09, 0x0A, 0x15, 0xFE, 0xFF] {
            self.check(&[byte]);
        }
        // Bytes followed by their own remainder empty the register.
        self.check(&[0x09, 0x70, 0xD9]);
        self.check(&[0x09, 0x8F, 0x26]);
        let counting = [
            0x01, 0x02, 0x03, 0x04, 0x05, 0x06, 0x07, 0x08, 0x09, 0x10, 0x11,
        ];
        for length in 1..=counting.len() {
            self.check(&counting[..length]);
        }
    }

    fn random_checks(&mut self, length: usize, times: usize) {
        for _ in 0..times {
            let bytes = self.random.bytes(length);
            self.check(&bytes);
        }
    }
}

/// Opening.
impl Cases {
    fn opens(&mut self) {
        self.known_opens();
        for command in &COMMANDS {
            self.right_frames(command);
            self.every_damaged_bit(command);
            for _ in 0..4 {
                self.wrong_ends(command);
                self.wrong_check_values(command);
            }
        }
        self.random_strings();
        self.every_sealed_length();
        self.every_sealed_code();
        self.long_strings();
    }

    fn known_opens(&mut self) {
        for code in [0x00, 0x01, 0x08, 0x09, 0x0A, 0x15, 0xFE, 0xFF] {
            self.open(&sealed_with(code, &[]));
        }
        self.open(&[0x09, 0x8F, 0x27]);
        self.open(&[0x09, 0x8F]);
        // The right check value of no bytes at all, which is still no frame.
        self.open(&[0x00, 0x00]);
    }

    fn right_frames(&mut self, command: &Command) {
        for filling in [0x00, 0xFF] {
            let parameters = vec![filling; command.parameters_length()];
            self.open(&sealed_with(command.code, &parameters));
        }
        for _ in 0..40 {
            let frame = self.frame(command);
            self.open(&frame);
        }
    }

    fn every_damaged_bit(&mut self, command: &Command) {
        let frame = self.frame(command);
        for bit in 0..frame.len() * 8 {
            let mut damaged = frame.clone();
            damaged[bit / 8] ^= 0x80 >> (bit % 8);
            self.open(&damaged);
        }
    }

    fn wrong_ends(&mut self, command: &Command) {
        let mut frame = self.frame(command);
        self.open(&frame[..frame.len() - 1]);
        self.open(&frame[..frame.len() - 2]);
        frame.push(self.random.byte());
        self.open(&frame);
    }

    fn wrong_check_values(&mut self, command: &Command) {
        let frame = self.frame(command);
        let (body, check) = frame.split_at(frame.len() - 2);
        self.open(&[body, &[check[1], check[0]]].concat());
        self.open(&[body, &crc::remainder(body)].concat());
    }

    fn random_strings(&mut self) {
        for length in 0..=LONGEST {
            for _ in 0..5 {
                let bytes = self.random.bytes(length);
                self.open(&bytes);
            }
        }
    }

    fn every_sealed_length(&mut self) {
        let known = COMMANDS.iter().map(|command| command.code);
        for code in known.chain(UNKNOWN_CODES) {
            for length in frame::SHORTEST..=LONGEST {
                let bytes = self.sealed(code, length);
                self.open(&bytes);
            }
        }
    }

    fn every_sealed_code(&mut self) {
        for code in 0..=u8::MAX {
            self.open(&sealed_with(code, &[]));
            let length = self.likely_length(code);
            let bytes = self.sealed(code, length);
            self.open(&bytes);
        }
    }

    fn long_strings(&mut self) {
        for command in &COMMANDS {
            let bytes = self.sealed(command.code, command.frame_length() + BYTE_WRAP);
            self.open(&bytes);
        }
        for code in [0x1B, 0xFF] {
            let bytes = self.sealed(code, 300);
            self.open(&bytes);
            let bytes = self.random.bytes(300);
            self.open(&bytes);
        }
    }
}

/// Making.
impl Cases {
    fn makes(&mut self) {
        for command in &COMMANDS {
            for _ in 0..6 {
                self.telling_rooms(command);
            }
            self.every_room(command);
            self.every_number_of_parameters(command);
            self.wrong_number_and_no_room(command);
        }
        for code in 0..=u8::MAX {
            self.make(code, 0, 3);
        }
        for code in UNKNOWN_CODES {
            self.unknown_code_and_more_wrong(code);
        }
    }

    fn telling_rooms(&mut self, command: &Command) {
        let exact = command.frame_length();
        let more = self.random.between(exact + 1, MOST_ROOM);
        for room in [exact, exact - 1, 0, more] {
            self.make(command.code, command.parameters_length(), room);
        }
    }

    fn every_room(&mut self, command: &Command) {
        for room in 0..=MOST_ROOM {
            self.make(command.code, command.parameters_length(), room);
        }
    }

    fn every_number_of_parameters(&mut self, command: &Command) {
        for length in 0..=MOST_PARAMETERS {
            self.make(command.code, length, frame::SHORTEST + MOST_PARAMETERS);
        }
        let wrapped = command.parameters_length() + BYTE_WRAP;
        self.make(command.code, wrapped, MOST_ROOM);
    }

    fn wrong_number_and_no_room(&mut self, command: &Command) {
        let right = command.parameters_length();
        for length in [right.saturating_sub(1), right + 1, right + 2] {
            // For a command without parameters there is nothing to leave out.
            if length != right {
                self.make(command.code, length, 0);
                self.make(command.code, length, frame::SHORTEST + length - 1);
                self.make(command.code, length, command.frame_length() - 1);
            }
        }
    }

    fn unknown_code_and_more_wrong(&mut self, code: u8) {
        for length in [0, 1, 2, 9, 10, 14, 17] {
            self.make(code, length, 0);
            self.make(code, length, 2);
            self.make(code, length, frame::SHORTEST + length);
        }
    }
}

#[cfg(test)]
mod tests {
    use super::*;

    fn text(seed: u64) -> (Vec<String>, Vec<String>) {
        let questions = all(seed);
        (
            questions.iter().map(Question::to_string).collect(),
            questions.iter().map(Question::answer).collect(),
        )
    }

    #[test]
    fn the_seed_settles_everything() {
        assert!(text(1) == text(1));
        assert!(text(1) != text(2));
    }

    #[test]
    fn unknown_codes_are_unknown() {
        assert!(UNKNOWN_CODES
            .iter()
            .all(|&code| frame::find(code).is_none()));
    }

    #[test]
    fn every_kind_of_answer_comes() {
        let (questions, answers) = text(3);
        let comes = |verb: &str, start: &str| {
            let mut pairs = questions.iter().zip(&answers);
            pairs.any(|(question, answer)| question.starts_with(verb) && answer.starts_with(start))
        };
        for refusal in 1..=4 {
            assert!(comes("open", &format!("refused {refusal}")));
        }
        for refusal in 3..=5 {
            assert!(comes("make", &format!("refused {refusal} ")));
        }
        for command in &COMMANDS {
            assert!(comes("open", &format!("opened {:02X}", command.code)));
            assert!(comes(&format!("make {:02X}", command.code), "made"));
        }
    }

    #[test]
    fn neither_too_few_nor_too_much() {
        let (questions, answers) = text(4);
        let size: usize = questions
            .iter()
            .chain(&answers)
            .map(|line| line.len() + 1)
            .sum();
        assert!(
            (3000..=5000).contains(&questions.len()),
            "{} lines",
            questions.len()
        );
        assert!(size < 400_000, "{size} bytes");
    }

    #[test]
    fn a_single_damaged_bit_is_always_seen() {
        let mut cases = Cases {
            random: Random::new(5),
            questions: Vec::new(),
        };
        for command in &COMMANDS {
            cases.every_damaged_bit(command);
        }
        assert!(cases
            .questions
            .iter()
            .all(|question| question.answer() == "refused 2"));
    }
}
