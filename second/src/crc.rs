//! The check value: a shift register of single bits, and a table made of it.

/// Sixteen cells; cell 0 is the lowest bit, cell 15 the one shifted out.
pub struct Register {
    cells: [bool; 16],
}

impl Register {
    const fn filled(cell: bool) -> Self {
        Register { cells: [cell; 16] }
    }

    pub const fn preset() -> Self {
        Register::filled(true)
    }

    /// The register that holds a number.
    pub const fn of(value: u16) -> Self {
        let mut register = Register::filled(false);
        let mut cell = 0;
        while cell < register.cells.len() {
            register.cells[cell] = value >> cell & 1 == 1;
            cell += 1;
        }
        register
    }

    /// Moves every cell up by one and feeds the bit in.
    pub const fn take_bit(&mut self, bit: bool) {
        let feedback = self.cells[15] != bit;
        self.cells.rotate_right(1);
        self.cells[0] = feedback;
        self.cells[5] ^= feedback;
        self.cells[12] ^= feedback;
    }

    pub const fn take_byte(&mut self, byte: u8) {
        let mut mask = 0x80;
        while mask > 0 {
            self.take_bit(byte & mask != 0);
            mask >>= 1;
        }
    }

    /// The cells as a number, cell 15 first.
    pub const fn value(&self) -> u16 {
        let mut value = 0;
        let mut cell = self.cells.len();
        while cell > 0 {
            cell -= 1;
            value = value << 1 | self.cells[cell] as u16;
        }
        value
    }
}

const PRESET: u16 = Register::preset().value();

/// What each byte leaves in an empty register.
static LEFT_BY: [u16; 256] = left_by_each_byte();

const fn left_by_each_byte() -> [u16; 256] {
    let mut values = [0; 256];
    let mut byte = 0;
    while byte < values.len() {
        let mut register = Register::filled(false);
        register.take_byte(byte as u8);
        values[byte] = register.value();
        byte += 1;
    }
    values
}

/// A whole byte at once: only the upper cells meet its bits on the way out.
fn after_byte(value: u16, byte: u8) -> u16 {
    let [upper, lower] = value.to_be_bytes();
    u16::from_be_bytes([lower, 0]) ^ LEFT_BY[usize::from(upper ^ byte)]
}

/// The register after all the bytes, as it stands.
pub fn remainder(bytes: &[u8]) -> [u8; 2] {
    let value = bytes
        .iter()
        .fold(PRESET, |value, &byte| after_byte(value, byte));
    value.to_be_bytes()
}

/// What is sent behind the bytes: the register inverted.
pub fn check_value(bytes: &[u8]) -> [u8; 2] {
    remainder(bytes).map(|byte| !byte)
}

#[cfg(test)]
mod tests {
    use super::*;

    fn value(register: &Register) -> u16 {
        register.value()
    }

    fn after_each_bit(register: &mut Register, bits: &str) -> Vec<u16> {
        let step = |bit| {
            register.take_bit(bit == '1');
            value(register)
        };
        bits.chars().map(step).collect()
    }

    #[test]
    fn starts_with_every_cell_set() {
        assert_eq!(value(&Register::preset()), 0xFFFF);
        assert_eq!(check_value(&[]), [0x00, 0x00]);
    }

    #[test]
    fn single_byte_bit_by_bit() {
        let mut register = Register::preset();
        assert_eq!(
            after_each_bit(&mut register, "00001001"),
            [0xEFDF, 0xCF9F, 0x8F1F, 0x0E1F, 0x0C1F, 0x183E, 0x307C, 0x70D9]
        );
    }

    #[test]
    fn fed_with_itself_the_register_empties() {
        let mut register = Register::preset();
        register.take_byte(0x09);
        assert_eq!(
            after_each_bit(&mut register, "0111000011011001"),
            [
                0xE1B2, 0xC364, 0x86C8, 0x0D90, 0x1B20, 0x3640, 0x6C80, 0xD900, 0xB200, 0x6400,
                0xC800, 0x9000, 0x2000, 0x4000, 0x8000, 0x0000
            ]
        );
    }

    #[test]
    fn after_each_of_eleven_bytes() {
        let mut register = Register::preset();
        let bytes = [
            0x01, 0x02, 0x03, 0x04, 0x05, 0x06, 0x07, 0x08, 0x09, 0x10, 0x11,
        ];
        let values = bytes.map(|byte| {
            register.take_byte(byte);
            value(&register)
        });
        assert_eq!(
            values,
            [
                0xF1D1, 0x0E7C, 0xADAD, 0x89C3, 0x9304, 0xD71C, 0xD77D, 0x4792, 0x3B0A, 0x9F09,
                0x7946
            ]
        );
    }

    #[test]
    fn the_table_agrees_with_the_register() {
        for lower in 0..=u8::MAX {
            for upper in [0x00, 0x01, 0x10, 0x80, 0xA5, 0xFF] {
                let bytes = [lower, upper, lower ^ upper];
                let mut register = Register::preset();
                for byte in bytes {
                    register.take_byte(byte);
                }
                assert_eq!(remainder(&bytes), register.value().to_be_bytes());
            }
        }
    }

    #[test]
    fn sent_inverted() {
        assert_eq!(remainder(&[0x09]), [0x70, 0xD9]);
        assert_eq!(check_value(&[0x09]), [0x8F, 0x26]);
    }
}
