//! Longer stretches of a tag's life, in which nothing is set in between.

use crate::cases::UNKNOWN_CODES;
use crate::frame::{sealed_with, Name, COMMANDS};
use crate::order::{Serial, BLOCK_LENGTH};
use crate::tag_asker::{Asker, ACCESSES, NEW_LOCKS, NO_LOCKS};

use Event::{Frame, Gap, Stranger, Stub, UnknownCode, WrongCheck, WrongLength};

/// One event, about an address that is given with it.
#[derive(Clone, Copy)]
enum Event {
    Frame(Name),
    Stranger(Name),
    Stub,
    WrongCheck,
    UnknownCode,
    WrongLength,
    Gap(u32),
}

/// What may leave a mark or a permission behind.
const BEGINNINGS: [&[Event]; 8] = [
    &[Frame(Name::Write)],
    &[Frame(Name::Read)],
    &[Frame(Name::ReadFlexible)],
    &[Frame(Name::QLock)],
    &[Frame(Name::Lock)],
    &[Frame(Name::Write), Frame(Name::Verify)],
    &[Frame(Name::Write), Frame(Name::Lock)],
    &[Frame(Name::Read), Frame(Name::Lock)],
];

/// What may use it up or leave it.
const BETWEEN: [&[Event]; 13] = [
    &[],
    &[Stub],
    &[WrongCheck],
    &[UnknownCode],
    &[WrongLength],
    &[Stranger(Name::Read)],
    &[Stranger(Name::Write)],
    &[Frame(Name::Query)],
    &[Frame(Name::Reset)],
    &[Frame(Name::Select)],
    &[Frame(Name::Repeat), Frame(Name::Scroll)],
    &[Gap(249)],
    &[Gap(250)],
];

/// What shows which it was.
const ENDS: [Name; 4] = [Name::Verify, Name::Lock, Name::QLock, Name::Write];

const TELLING_APART: [Name; 12] = [
    Name::Select,
    Name::Select,
    Name::UnselectNe,
    Name::UnselectIdFlag,
    Name::UnselectNoIdFlag,
    Name::Query,
    Name::Query,
    Name::Query,
    Name::Scroll,
    Name::Scroll,
    Name::Repeat,
    Name::Read,
];

/// Enough to count past the last number.
const MANY: usize = 0x102;

/// How many random lives of each kind.
const LIVES: usize = 26;

impl Asker {
    pub fn lives(&mut self) {
        self.inventory();
        self.counting_to_the_end();
        for beginning in BEGINNINGS {
            self.new_tag();
            for between in BETWEEN {
                self.every_end(beginning, between);
            }
        }
        for mask in self.masks() {
            self.new_serial_number(0x04, mask);
        }
        self.new_serial_number(0x00, 0xF0);
        let all = COMMANDS.each_ref().map(|command| command.name);
        for _ in 0..LIVES {
            self.random_life(&all);
            self.random_life(&ACCESSES);
            self.random_life(&TELLING_APART);
        }
    }

    /// A tag loses twice, comes up, is read, written and locked, and stays out.
    fn inventory(&mut self) {
        self.new_tag();
        for (name, coin) in [
            (Name::Query, false),
            (Name::Select, true),
            (Name::Query, true),
            (Name::Query, false),
            (Name::Repeat, false),
            (Name::Scroll, true),
            (Name::Repeat, true),
            (Name::Scroll, false),
            (Name::Repeat, true),
            (Name::Query, false),
            (Name::UnselectIdFlag, true),
            (Name::Read, false),
            (Name::Query, true),
            (Name::Write, false),
            (Name::Verify, true),
            (Name::QLock, false),
            (Name::Lock, true),
            (Name::QLock, true),
            (Name::Select, false),
            (Name::Reset, true),
            (Name::Select, false),
            (Name::UnselectNoIdFlag, false),
            (Name::Repeat, false),
        ] {
            let frame = self.frame(name, 0x10);
            self.toss(coin, frame);
        }
    }

    fn counting_to_the_end(&mut self) {
        self.step(Name::Select, 0x10);
        for name in [Name::Query, Name::Scroll] {
            self.toss(true, sealed_with(Name::Query as u8, &[]));
            for _ in 0..MANY {
                self.step(name, 0);
            }
            self.step(Name::Repeat, 0);
        }
    }

    fn every_end(&mut self, beginning: &[Event], between: &[Event]) {
        self.locks(NEW_LOCKS);
        for end in ENDS {
            let address = self.block();
            for &event in beginning.iter().chain(between).chain(&[Frame(end)]) {
                self.pass(event, address);
            }
        }
    }

    fn pass(&mut self, event: Event, address: u8) {
        let name = self.any_name();
        let frame = match event {
            Gap(microseconds) => return self.gap(microseconds),
            Frame(name) => self.frame(name, address),
            Stranger(name) => self.stranger(name, address),
            Stub => self.stub(2),
            WrongCheck => self.flipped_bit(name),
            WrongLength => self.one_byte_more(name),
            UnknownCode => {
                let code = self.random.pick(&UNKNOWN_CODES);
                self.unknown_code(code)
            }
        };
        self.send(frame);
    }

    /// A frame for a tag whose serial number is one bit away.
    fn stranger(&mut self, name: Name, address: u8) -> Vec<u8> {
        let mut serial = *self.tag.serial();
        serial[self.random.between(0, 7)] ^= 1 << self.random.between(0, 7);
        self.access(name, &serial, address)
    }

    /// Writes part of the serial number, then uses the old and the new one.
    fn new_serial_number(&mut self, address: u8, mask: u8) {
        self.new_tag();
        self.locks(NO_LOCKS);
        for first_old in [true, false] {
            for name in [Name::Verify, Name::Lock] {
                let old = *self.tag.serial();
                self.write(address, mask);
                let new = *self.tag.serial();
                let serials = if first_old { [old, new] } else { [new, old] };
                self.use_serials(name, serials, address);
            }
            self.locks(NO_LOCKS);
        }
        self.step(Name::Reset, 0);
        self.step(Name::Select, 0);
    }

    fn use_serials(&mut self, name: Name, serials: [Serial; 2], address: u8) {
        let last = address + BLOCK_LENGTH as u8 - 1;
        for (name, address) in [(name, address), (Name::Read, last)] {
            for serial in &serials {
                let frame = self.access(name, serial, address);
                self.send(frame);
            }
        }
    }

    /// Mostly right frames, mostly about the address of the frame before.
    fn random_life(&mut self, names: &[Name]) {
        self.new_tag();
        let mut address = self.block();
        for _ in 0..self.random.between(20, 40) {
            let name = self.random.pick(names);
            if self.random.one_in(3) {
                address = self.address_for(name);
            }
            match self.random.between(0, 24) {
                0 => {
                    let frame = self.any_damaged();
                    self.send(frame);
                }
                1 => {
                    let name = self.random.pick(&ACCESSES);
                    self.pass(Stranger(name), address);
                }
                2 => self.random_gap(),
                _ => self.pass(Frame(name), address),
            }
        }
    }

    /// Short, long or very long, each as likely.
    fn random_gap(&mut self) {
        let most = self.random.pick(&[249, 3_999_999, u32::MAX as usize]);
        let microseconds = self.random.between(0, most) as u32;
        self.gap(microseconds);
    }
}
