//! Many sends to a full bench, for a clock outside to time.

use std::fmt;
use std::hint::black_box;

use crate::field::{Bench, Field, Hearing, MOST_PLACES, REPLY_ROOM};
use crate::frame::{sealed_with, Name};
use crate::tag::{Tag, MEMORY_LENGTH};

/// The byte that is summed up: the last one of a reply to a reading.
const SUMMED: usize = 9;

#[derive(Clone, Copy, Debug, PartialEq)]
pub enum Load {
    /// Everyone replies every time.
    Query,
    /// One after the other.
    Read,
}

/// What came of all the sends.
#[derive(Debug, Default, PartialEq)]
pub struct Tally {
    silent: u64,
    lone: u64,
    clash: u64,
    sum: u64,
}

impl Tally {
    fn take(&mut self, hearing: Hearing, byte: u8) {
        *match hearing {
            Hearing::Silence => &mut self.silent,
            Hearing::Lone => &mut self.lone,
            Hearing::Clash => &mut self.clash,
        } += 1;
        self.sum = self.sum.wrapping_add(u64::from(byte));
    }
}

impl fmt::Display for Tally {
    fn fmt(&self, out: &mut fmt::Formatter) -> fmt::Result {
        let Tally {
            silent,
            lone,
            clash,
            sum,
        } = self;
        let sends = silent + lone + clash;
        write!(
            out,
            "{sends} sends: {silent} silent, {lone} lone, {clash} clash, sum {sum}"
        )
    }
}

pub fn run(load: Load, sends: u64) -> Tally {
    let mut bench = full_bench();
    let frames = match load {
        Load::Query => vec![sealed_with(Name::Query as u8, &[])],
        Load::Read => (0..bench.places())
            .map(|place| read(bench.tag(place)))
            .collect(),
    };
    let mut buffer = [0; REPLY_ROOM];
    send(&mut bench, &select_all(), &mut buffer);
    let mut tally = Tally::default();
    for frame in frames.iter().cycle().take(sends as usize) {
        let hearing = send(&mut bench, frame, &mut buffer);
        tally.take(hearing, buffer[SUMMED]);
    }
    tally
}

/// Nothing about the frame is known beforehand, so that every send does its whole work.
fn send(bench: &mut Bench, frame: &[u8], buffer: &mut [u8; REPLY_ROOM]) -> Hearing {
    let hearing = bench.send(black_box(frame), black_box(0), buffer);
    hearing.expect("the buffer has room for every reply")
}

pub fn full_bench() -> Bench {
    let tag = |number| {
        let mut memory = [0; MEMORY_LENGTH];
        memory[..8].copy_from_slice(&[0xEF, 0x04, 0x02, 0, 0, 0, 0, number]);
        Tag::new(memory)
    };
    let tags = (0..MOST_PLACES as u8).map(tag).collect();
    Bench::new(tags).expect("the bench has no more places than it may")
}

fn select_all() -> Vec<u8> {
    sealed_with(
        Name::Select as u8,
        &[0x00, 0xC0, 0xEF, 0x04, 0, 0, 0, 0, 0, 0],
    )
}

fn read(tag: &Tag) -> Vec<u8> {
    let parameters = [tag.serial().as_slice(), &[0x00]].concat();
    sealed_with(Name::Read as u8, &parameters)
}

#[cfg(test)]
mod tests {
    use super::*;
    use crate::tag::State;

    #[test]
    fn the_bench_before() {
        let bench = full_bench();
        assert_eq!(bench.places(), 64);
        for place in [0, 1, 63] {
            let tag = bench.tag(place);
            assert_eq!(tag.serial(), &[0xEF, 0x04, 0x02, 0, 0, 0, 0, place as u8]);
            assert_eq!(tag, &Tag::new(tag.memory));
            assert!(tag.memory[8..].iter().all(|&byte| byte == 0));
        }
    }

    #[test]
    fn the_selection_reaches_all() {
        let mut bench = full_bench();
        let mut buffer = [0; REPLY_ROOM];
        let heard = send(&mut bench, &select_all(), &mut buffer);
        assert_eq!(heard, Hearing::Clash);
        assert!((0..64).all(|place| bench.tag(place).state == State::Singulation));
    }

    #[test]
    fn queries_clash() {
        let line = run(Load::Query, 10).to_string();
        assert_eq!(line, "10 sends: 0 silent, 0 lone, 10 clash, sum 0");
    }

    #[test]
    fn readings_are_heard_alone() {
        for (sends, sum) in [(0, 0), (1, 0xBC), (2, 0xBC + 0x9D), (64, 8160), (65, 8348)] {
            let line = run(Load::Read, sends).to_string();
            let expected = format!("{sends} sends: 0 silent, {sends} lone, 0 clash, sum {sum}");
            assert_eq!(line, expected);
        }
    }

    #[test]
    fn every_hearing_is_counted() {
        let mut tally = Tally::default();
        for (hearing, byte) in [
            (Hearing::Silence, 1),
            (Hearing::Lone, 2),
            (Hearing::Lone, 255),
        ] {
            tally.take(hearing, byte);
        }
        let line = "3 sends: 1 silent, 2 lone, 0 clash, sum 258";
        assert_eq!(tally.to_string(), line);
    }
}
