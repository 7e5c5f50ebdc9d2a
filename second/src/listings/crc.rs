//! The check value: bits and bytes that the register takes, and messages.

use super::listing::{file as file_of, row, Listing};
use super::term::{byte, digits, number, two_bytes};
use crate::crc::{check_value, Register};
use crate::frame::sealed;

const HEAD: &str = "\
-- The check value at the limits, by the second implementation, which wrote this file. Assumes nothing.
use Prim.Native.String.{String}
use Rattle.std.specs.Prelude.{◌≡◌, ℕ, [], ◌∷◌}
use Rattle.std.specs.List.{AllByRecursion}
use Rattle.crc.specs.Check.{bit_taken, byte_taken, check_value, sealed}
use Rattle.worked_cases.specs.Words.{bytes}
";

/// Registers that are empty, full, or about to let a bit fall out.
const REGISTERS: [u16; 6] = [0x0000, 0x0001, 0x7FFF, 0x8000, 0x8001, 0xFFFF];

pub fn file() -> String {
    file_of(HEAD, &[bits_taken(), bytes_taken(), sealed_messages()])
}

fn bits_taken() -> Listing {
    let after = |value, bit| {
        let mut register = Register::of(value);
        register.take_bit(bit);
        register.value()
    };
    let mut rows = Vec::new();
    for value in REGISTERS {
        for bit in [false, true] {
            rows.push(row(&[
                two_bytes(value),
                number(u8::from(bit)),
                two_bytes(after(value, bit)),
            ]));
        }
    }
    Listing {
        about: "A register, a bit, and the register after it.",
        name: "BitsTaken",
        law: "{X = ℕ × ℕ × ℕ} (λ (before, bit, after). bit_taken before bit ≡ after)".into(),
        rows,
    }
}

fn bytes_taken() -> Listing {
    let after = |value, byte| {
        let mut register = Register::of(value);
        register.take_byte(byte);
        register.value()
    };
    let mut rows = Vec::new();
    for value in [0x0000, 0x8000, 0xFFFF] {
        for taken in [0x00, 0x01, 0x80, 0xFF] {
            rows.push(row(&[
                two_bytes(value),
                byte(taken),
                two_bytes(after(value, taken)),
            ]));
        }
    }
    Listing {
        about: "A register, a byte, and the register after it.",
        name: "BytesTaken",
        law: "{X = ℕ × ℕ × ℕ} (λ (before, byte, after). byte_taken before byte ≡ after)".into(),
        rows,
    }
}

fn sealed_messages() -> Listing {
    let counting = [
        0x01, 0x02, 0x03, 0x04, 0x05, 0x06, 0x07, 0x08, 0x09, 0x10, 0x11,
    ];
    let messages: [&[u8]; 14] = [
        &[],
        &[0x00],
        &[0x01],
        &[0x08],
        &[0x7F],
        &[0x80],
        &[0xFE],
        &[0xFF],
        &[0x00, 0x00],
        &[0xFF, 0xFF],
        &[0x09, 0x70, 0xD9],
        &[0x09, 0x8F, 0x26],
        &counting,
        &[0xFF; 15],
    ];
    let listed = |message: &&[u8]| {
        row(&[
            digits(message),
            two_bytes(u16::from_be_bytes(check_value(message))),
            digits(&sealed(message)),
        ])
    };
    Listing {
        about: "Messages from none to the longest in a frame, their check values, and the two as they are sent.",
        name: "SealedMessages",
        law: "{X = String × ℕ × String}\n    (λ (message, value, whole). (check_value (bytes message) ≡ value) × (sealed (bytes message) ≡ bytes whole))".into(),
        rows: messages.iter().map(listed).collect(),
    }
}
