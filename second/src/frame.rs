//! Frames: a code byte, its parameters, and a check value over both.

use crate::crc;

pub const CHECK_LENGTH: usize = 2;

/// A code byte and a check value; nothing shorter can be a frame.
pub const SHORTEST: usize = 1 + CHECK_LENGTH;

/// No command's frame is longer.
pub const LONGEST: usize = 17;

pub struct Parameter {
    name: &'static str,
    length: usize,
}

/// The commands by name, each with its code.
#[derive(Clone, Copy, Debug, PartialEq, Eq, Hash)]
pub enum Name {
    Select = 0x00,
    UnselectNe = 0x05,
    UnselectIdFlag = 0x19,
    UnselectNoIdFlag = 0x1A,
    Query = 0x08,
    Scroll = 0x09,
    Repeat = 0x15,
    Reset = 0x0A,
    Read = 0x0C,
    Verify = 0x1D,
    Lock = 0x0F,
    QLock = 0x11,
    ReadFlexible = 0x51,
    Write = 0x1B,
}

pub struct Command {
    pub name: Name,
    pub code: u8,
    parameters: &'static [Parameter],
}

impl Command {
    /// How many parameter bytes the command takes.
    pub fn parameters_length(&self) -> usize {
        self.parameters
            .iter()
            .map(|parameter| parameter.length)
            .sum()
    }

    pub fn frame_length(&self) -> usize {
        self.parameters_length() + SHORTEST
    }

    /// The parameters, where a frame has them.
    pub fn parts(&self) -> Vec<Part> {
        let mut offset = 1;
        let place = |parameter: &Parameter| {
            let part = Part {
                name: parameter.name,
                offset,
                length: parameter.length,
            };
            offset += parameter.length;
            part
        };
        self.parameters.iter().map(place).collect()
    }
}

const fn parameter(name: &'static str, length: usize) -> Parameter {
    Parameter { name, length }
}

const fn command(name: Name, parameters: &'static [Parameter]) -> Command {
    Command {
        name,
        code: name as u8,
        parameters,
    }
}

const NOTHING: &[Parameter] = &[];
const FILLER: &[Parameter] = &[parameter("IGNORED", 2)];
const COMPARISON: &[Parameter] = &[
    parameter("ADDRESS", 1),
    parameter("BYTE_MASK", 1),
    parameter("WORD_DATA", 8),
];
const PLACE: &[Parameter] = &[parameter("SNR", 8), parameter("ADDRESS", 1)];
const STRETCH: &[Parameter] = &[
    parameter("SNR", 8),
    parameter("ADDRESS", 1),
    parameter("LENGTH", 1),
];
const CHANGE: &[Parameter] = &[
    parameter("SNR", 8),
    parameter("ADDRESS", 1),
    parameter("BYTE_MASK", 1),
    parameter("BLOCK_DATA", 4),
];

pub static COMMANDS: [Command; 14] = [
    command(Name::Select, COMPARISON),
    command(Name::UnselectNe, COMPARISON),
    command(Name::UnselectIdFlag, FILLER),
    command(Name::UnselectNoIdFlag, FILLER),
    command(Name::Query, NOTHING),
    command(Name::Scroll, NOTHING),
    command(Name::Repeat, NOTHING),
    command(Name::Reset, NOTHING),
    command(Name::Read, PLACE),
    command(Name::Verify, PLACE),
    command(Name::Lock, PLACE),
    command(Name::QLock, PLACE),
    command(Name::ReadFlexible, STRETCH),
    command(Name::Write, CHANGE),
];

pub fn find(code: u8) -> Option<&'static Command> {
    COMMANDS.iter().find(|command| command.code == code)
}

/// Why a frame is not opened or not made; the numbers are part of the answers.
#[derive(Clone, Copy, Debug, PartialEq, Eq, Hash)]
pub enum Refusal {
    TooShort = 1,
    WrongCheck = 2,
    UnknownCode = 3,
    WrongLength = 4,
    NoRoom = 5,
}

/// Where a parameter stands, counted from the frame's first byte.
#[derive(Debug, PartialEq)]
pub struct Part {
    pub name: &'static str,
    pub offset: usize,
    pub length: usize,
}

#[derive(Debug, PartialEq)]
pub struct Opened {
    pub name: Name,
    pub parts: Vec<Part>,
}

/// The bytes with their check value behind them.
pub fn sealed(bytes: &[u8]) -> Vec<u8> {
    [bytes, &crc::check_value(bytes)].concat()
}

/// A code and parameters with their check value, whether they make sense or not.
pub fn sealed_with(code: u8, parameters: &[u8]) -> Vec<u8> {
    sealed(&[&[code], parameters].concat())
}

/// The command whose frame this is, with the parameter bytes.
pub fn recognise(bytes: &[u8]) -> Result<(&'static Command, &[u8]), Refusal> {
    let (body, check) = bytes.split_last_chunk().ok_or(Refusal::TooShort)?;
    let (&code, parameters) = body.split_first().ok_or(Refusal::TooShort)?;
    if crc::check_value(body) != *check {
        return Err(Refusal::WrongCheck);
    }
    let command = find(code).ok_or(Refusal::UnknownCode)?;
    if parameters.len() != command.parameters_length() {
        return Err(Refusal::WrongLength);
    }
    Ok((command, parameters))
}

pub fn open(bytes: &[u8]) -> Result<Opened, Refusal> {
    let (command, _) = recognise(bytes)?;
    Ok(Opened {
        name: command.name,
        parts: command.parts(),
    })
}

/// Writes the check value of the first bytes behind them and tells the length of all.
pub fn seal(bytes: &mut [u8], length: usize) -> usize {
    let check = crc::check_value(&bytes[..length]);
    let end = length + CHECK_LENGTH;
    bytes[length..end].copy_from_slice(&check);
    end
}

/// Puts a frame at the buffer's front and tells its length.
pub fn make(code: u8, parameters: &[u8], buffer: &mut [u8]) -> Result<usize, Refusal> {
    let command = find(code).ok_or(Refusal::UnknownCode)?;
    if parameters.len() != command.parameters_length() {
        return Err(Refusal::WrongLength);
    }
    let front = buffer
        .get_mut(..command.frame_length())
        .ok_or(Refusal::NoRoom)?;
    Ok(put(code, parameters, front))
}

/// The same where all is right.
pub fn put(code: u8, parameters: &[u8], buffer: &mut [u8]) -> usize {
    let body = 1 + parameters.len();
    buffer[0] = code;
    buffer[1..body].copy_from_slice(parameters);
    seal(buffer, body)
}

#[cfg(test)]
mod tests {
    use super::*;

    fn opened_parts(bytes: &[u8]) -> Vec<(&'static str, usize, usize)> {
        let opened = open(bytes).expect("the frame is right");
        opened
            .parts
            .iter()
            .map(|part| (part.name, part.offset, part.length))
            .collect()
    }

    #[test]
    fn codes_are_distinct() {
        for command in &COMMANDS {
            let same = COMMANDS.iter().filter(|other| other.code == command.code);
            assert_eq!(same.count(), 1, "code {:02X}", command.code);
        }
    }

    #[test]
    fn sealed_single_bytes() {
        assert_eq!(sealed(&[0x00]), [0x00, 0x1E, 0x0F]);
        assert_eq!(sealed(&[0x01]), [0x01, 0x0E, 0x2E]);
        assert_eq!(sealed(&[0xFF]), [0xFF, 0x00, 0xFF]);
        assert_eq!(sealed(&[0xFE]), [0xFE, 0x10, 0xDE]);
    }

    #[test]
    fn sealing_in_place_leaves_the_bytes_behind() {
        let mut bytes = [0xFE, 0xA5, 0xA5, 0xA5];
        assert_eq!(seal(&mut bytes, 1), 3);
        assert_eq!(bytes, [0xFE, 0x10, 0xDE, 0xA5]);
    }

    #[test]
    fn recognised_parameters() {
        let frame = sealed_with(Name::Select as u8, &[7; 10]);
        let (command, parameters) = recognise(&frame).expect("the frame is right");
        assert_eq!((command.name, parameters), (Name::Select, &[7; 10][..]));
    }

    #[test]
    fn frames_without_parameters() {
        let frames = [
            (Name::Scroll, [0x09, 0x8F, 0x26]),
            (Name::Query, [0x08, 0x9F, 0x07]),
            (Name::Reset, [0x0A, 0xBF, 0x45]),
            (Name::Repeat, [0x15, 0x5C, 0x9B]),
        ];
        for (name, frame) in frames {
            let mut buffer = [0; 3];
            assert_eq!(
                open(&frame),
                Ok(Opened {
                    name,
                    parts: vec![]
                })
            );
            assert_eq!(make(frame[0], &[], &mut buffer), Ok(3));
            assert_eq!(buffer, frame);
        }
    }

    #[test]
    fn parts_lie_one_behind_the_other() {
        let write = sealed(&[&[0x1B], [0x5A; 14].as_slice()].concat());
        assert_eq!(
            opened_parts(&write),
            [
                ("SNR", 1, 8),
                ("ADDRESS", 9, 1),
                ("BYTE_MASK", 10, 1),
                ("BLOCK_DATA", 11, 4)
            ]
        );
        let select = sealed(&[0; 11]);
        assert_eq!(
            opened_parts(&select),
            [("ADDRESS", 1, 1), ("BYTE_MASK", 2, 1), ("WORD_DATA", 3, 8)]
        );
    }

    #[test]
    fn opening_refuses_in_order() {
        assert_eq!(open(&[]), Err(Refusal::TooShort));
        assert_eq!(open(&[0x00, 0x00]), Err(Refusal::TooShort));
        assert_eq!(open(&[0x09, 0x8F]), Err(Refusal::TooShort));
        assert_eq!(open(&[0x09, 0x8F, 0x27]), Err(Refusal::WrongCheck));
        assert_eq!(open(&[0xFF, 0xFF, 0xFF]), Err(Refusal::WrongCheck));
        assert_eq!(open(&sealed(&[0xFF])), Err(Refusal::UnknownCode));
        assert_eq!(open(&sealed(&[0x00])), Err(Refusal::WrongLength));
    }

    #[test]
    fn making_refuses_in_order_and_changes_nothing() {
        let mut buffer = [0xA5; 2];
        assert_eq!(make(0x01, &[1], &mut buffer), Err(Refusal::UnknownCode));
        assert_eq!(make(0x09, &[1], &mut buffer), Err(Refusal::WrongLength));
        assert_eq!(make(0x09, &[], &mut buffer), Err(Refusal::NoRoom));
        assert_eq!(buffer, [0xA5; 2]);
    }

    #[test]
    fn making_leaves_the_bytes_behind() {
        let mut buffer = [0xA5; 5];
        assert_eq!(make(0x09, &[], &mut buffer), Ok(3));
        assert_eq!(buffer, [0x09, 0x8F, 0x26, 0xA5, 0xA5]);
    }
}
