//! Fingerprints of many bytes: FNV-1a of 64 bits.

use std::fmt;

const START: u64 = 0xCBF2_9CE4_8422_2325;
const FACTOR: u64 = 0x0000_0100_0000_01B3;

#[derive(Clone, Copy, Debug, PartialEq)]
pub struct Fingerprint(u64);

impl Fingerprint {
    pub fn new() -> Fingerprint {
        Fingerprint(START)
    }

    pub fn take(&mut self, bytes: &[u8]) {
        for &byte in bytes {
            self.0 = (self.0 ^ u64::from(byte)).wrapping_mul(FACTOR);
        }
    }

    pub fn value(&self) -> u64 {
        self.0
    }

    pub fn of(bytes: &[u8]) -> Fingerprint {
        let mut fingerprint = Fingerprint::new();
        fingerprint.take(bytes);
        fingerprint
    }
}

impl fmt::Display for Fingerprint {
    fn fmt(&self, out: &mut fmt::Formatter) -> fmt::Result {
        write!(out, "{:016X}", self.0)
    }
}

#[cfg(test)]
mod tests {
    use super::*;

    #[test]
    fn known_fingerprints() {
        assert_eq!(Fingerprint::of(b"").to_string(), "CBF29CE484222325");
        assert_eq!(Fingerprint::of(b"a").to_string(), "AF63DC4C8601EC8C");
        assert_eq!(Fingerprint::of(b"foobar").to_string(), "85944171F73967E8");
    }

    #[test]
    fn parts_make_up_the_whole() {
        let mut fingerprint = Fingerprint::of(b"foo");
        fingerprint.take(b"");
        fingerprint.take(b"bar");
        assert_eq!(fingerprint, Fingerprint::of(b"foobar"));
    }

    #[test]
    fn leading_zeros_are_written() {
        assert_eq!(Fingerprint(0x1F).to_string(), "000000000000001F");
    }
}
