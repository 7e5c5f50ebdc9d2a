//! What a right frame asks, taken out of its bytes once for all tags.

use crate::frame::{self, Name, Refusal};

pub const SERIAL_LENGTH: usize = 8;

/// How many bytes a comparison looks at and a plain reading gives.
pub const WORD_LENGTH: usize = 8;

/// How many bytes are written together.
pub const BLOCK_LENGTH: usize = 4;

pub type Serial = [u8; SERIAL_LENGTH];

#[derive(Clone, Copy, Debug, PartialEq)]
pub enum Order {
    Select(Comparison),
    UnselectNe(Comparison),
    UnselectIdFlag,
    UnselectNoIdFlag,
    Query,
    Scroll,
    Repeat,
    Reset,
    /// What concerns only the tag of this serial number.
    Access {
        serial: Serial,
        address: u8,
        access: Access,
    },
}

#[derive(Clone, Copy, Debug, PartialEq)]
pub struct Comparison {
    pub address: u8,
    pub mask: u8,
    pub word: [u8; WORD_LENGTH],
}

#[derive(Clone, Copy, Debug, PartialEq)]
pub enum Access {
    Read { length: u16 },
    Verify,
    Write { mask: u8, data: [u8; BLOCK_LENGTH] },
    Lock,
    QueryLock,
}

/// Whether the mask takes in the byte of this index; the highest bit is for the first.
pub fn selects(mask: u8, index: usize) -> bool {
    mask & 0x80 >> index != 0
}

impl Order {
    pub fn open(frame: &[u8]) -> Result<Order, Refusal> {
        let (command, parameters) = frame::recognise(frame)?;
        Ok(Parameters(parameters).order(command.name))
    }
}

/// The parameter bytes that are not yet taken.
struct Parameters<'a>(&'a [u8]);

impl Parameters<'_> {
    fn order(mut self, name: Name) -> Order {
        match name {
            Name::Select => Order::Select(self.comparison()),
            Name::UnselectNe => Order::UnselectNe(self.comparison()),
            Name::UnselectIdFlag => Order::UnselectIdFlag,
            Name::UnselectNoIdFlag => Order::UnselectNoIdFlag,
            Name::Query => Order::Query,
            Name::Scroll => Order::Scroll,
            Name::Repeat => Order::Repeat,
            Name::Reset => Order::Reset,
            Name::Read => self.access(|_| Access::Read {
                length: WORD_LENGTH as u16,
            }),
            Name::ReadFlexible => self.access(|rest| Access::Read {
                length: u16::from(rest.byte()) + 1,
            }),
            Name::Verify => self.access(|_| Access::Verify),
            Name::Lock => self.access(|_| Access::Lock),
            Name::QLock => self.access(|_| Access::QueryLock),
            Name::Write => self.access(|rest| Access::Write {
                mask: rest.byte(),
                data: rest.bytes(),
            }),
        }
    }

    fn comparison(&mut self) -> Comparison {
        Comparison {
            address: self.byte(),
            mask: self.byte(),
            word: self.bytes(),
        }
    }

    /// The serial number and the address come before what differs.
    fn access(&mut self, access: impl Fn(&mut Self) -> Access) -> Order {
        Order::Access {
            serial: self.bytes(),
            address: self.byte(),
            access: access(self),
        }
    }

    fn byte(&mut self) -> u8 {
        let [byte] = self.bytes();
        byte
    }

    fn bytes<const LENGTH: usize>(&mut self) -> [u8; LENGTH] {
        let (bytes, rest) = self
            .0
            .split_first_chunk()
            .expect("the command has this parameter");
        self.0 = rest;
        *bytes
    }
}

#[cfg(test)]
mod tests {
    use super::*;
    use crate::frame::{sealed_with, COMMANDS};

    const COUNTING: [u8; 14] = [1, 2, 3, 4, 5, 6, 7, 8, 9, 10, 11, 12, 13, 14];

    fn ordered(name: Name) -> Order {
        let command = frame::find(name as u8).expect("every name has a command");
        let parameters = &COUNTING[..command.parameters_length()];
        Order::open(&sealed_with(command.code, parameters)).expect("the frame is right")
    }

    #[test]
    fn comparisons() {
        let comparison = Comparison {
            address: 1,
            mask: 2,
            word: [3, 4, 5, 6, 7, 8, 9, 10],
        };
        assert_eq!(ordered(Name::Select), Order::Select(comparison));
        assert_eq!(ordered(Name::UnselectNe), Order::UnselectNe(comparison));
    }

    #[test]
    fn accesses() {
        let access = |access| Order::Access {
            serial: [1, 2, 3, 4, 5, 6, 7, 8],
            address: 9,
            access,
        };
        let write = Access::Write {
            mask: 10,
            data: [11, 12, 13, 14],
        };
        assert_eq!(ordered(Name::Read), access(Access::Read { length: 8 }));
        assert_eq!(
            ordered(Name::ReadFlexible),
            access(Access::Read { length: 11 })
        );
        assert_eq!(ordered(Name::Verify), access(Access::Verify));
        assert_eq!(ordered(Name::Lock), access(Access::Lock));
        assert_eq!(ordered(Name::QLock), access(Access::QueryLock));
        assert_eq!(ordered(Name::Write), access(write));
    }

    #[test]
    fn every_command_asks_for_something_else() {
        let orders: Vec<Order> = COMMANDS
            .iter()
            .map(|command| ordered(command.name))
            .collect();
        for order in &orders {
            let same = orders.iter().filter(|other| *other == order);
            assert_eq!(same.count(), 1, "{order:?}");
        }
    }

    #[test]
    fn refusals_are_passed_on() {
        assert_eq!(Order::open(&[]), Err(Refusal::TooShort));
        assert_eq!(Order::open(&[0x09, 0x8F, 0x27]), Err(Refusal::WrongCheck));
    }

    #[test]
    fn the_highest_mask_bit_is_for_the_first_byte() {
        assert!(selects(0x80, 0) && !selects(0x7F, 0));
        assert!(selects(0x01, 7) && !selects(0xFE, 7));
    }
}
