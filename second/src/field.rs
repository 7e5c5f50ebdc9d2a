//! Fields: whatever answers a reader, which means tags at places.

use crate::frame::{self, CHECK_LENGTH};
use crate::order::Order;
use crate::tag::{Reply, Tag};

/// As many as a row has coins.
pub const MOST_PLACES: usize = u64::BITS as usize;

/// The longest reply: as much as a reading can ask for, and its check value.
pub const REPLY_ROOM: usize = 256 + CHECK_LENGTH;

/// Why a field is not made or a send not taken; the numbers are part of the answers.
#[derive(Clone, Copy, Debug, PartialEq, Eq, Hash)]
pub enum Refusal {
    NoRoom = 5,
    TooManyPlaces = 6,
    NoPeriod = 11,
}

/// The numbers are part of the answers about sweeps.
#[derive(Clone, Copy, Debug, PartialEq, Eq, Hash)]
pub enum Hearing {
    Silence = 0,
    Lone = 1,
    Clash = 2,
}

/// A hearing whose reply is still to be written out by its tag.
#[derive(Clone, Copy, Debug, PartialEq)]
pub enum Heard<'a> {
    Silence,
    Lone(&'a Tag, Reply),
    Clash,
}

pub trait Field {
    fn places(&self) -> usize;

    /// The tag at a place that there is.
    fn tag(&self, place: usize) -> &Tag;

    /// So many microseconds without power, for every tag.
    fn gap(&mut self, microseconds: u32);

    /// Lets every tag take in the frame; the coin of place 0 is the lowest bit.
    fn hear(&mut self, opened: &Result<Order, frame::Refusal>, row: u64) -> Heard<'_>;

    /// Opens the frame once for all, and writes out only what is heard in the end.
    fn send(&mut self, frame: &[u8], row: u64, buffer: &mut [u8]) -> Result<Hearing, Refusal> {
        let room: &mut [u8; REPLY_ROOM] = buffer.first_chunk_mut().ok_or(Refusal::NoRoom)?;
        room.fill(0);
        Ok(match self.hear(&Order::open(frame), row) {
            Heard::Silence => Hearing::Silence,
            Heard::Clash => Hearing::Clash,
            Heard::Lone(tag, reply) => {
                tag.write_out(reply, room);
                Hearing::Lone
            }
        })
    }
}

impl<F: Field + ?Sized> Field for Box<F> {
    fn places(&self) -> usize {
        (**self).places()
    }

    fn tag(&self, place: usize) -> &Tag {
        (**self).tag(place)
    }

    fn gap(&mut self, microseconds: u32) {
        (**self).gap(microseconds);
    }

    fn hear(&mut self, opened: &Result<Order, frame::Refusal>, row: u64) -> Heard<'_> {
        (**self).hear(opened, row)
    }
}

/// A table of tags side by side.
#[derive(Clone, Debug, PartialEq)]
pub struct Bench {
    tags: Vec<Tag>,
}

impl Bench {
    pub fn new(tags: Vec<Tag>) -> Result<Bench, Refusal> {
        if tags.len() > MOST_PLACES {
            return Err(Refusal::TooManyPlaces);
        }
        Ok(Bench { tags })
    }

    pub fn empty() -> Bench {
        Bench { tags: Vec::new() }
    }
}

impl Field for Bench {
    fn places(&self) -> usize {
        self.tags.len()
    }

    fn tag(&self, place: usize) -> &Tag {
        &self.tags[place]
    }

    fn gap(&mut self, microseconds: u32) {
        for tag in &mut self.tags {
            tag.gap(microseconds);
        }
    }

    fn hear(&mut self, opened: &Result<Order, frame::Refusal>, row: u64) -> Heard<'_> {
        let mut replies = 0;
        let mut last = None;
        for (place, tag) in self.tags.iter_mut().enumerate() {
            if let Some(reply) = tag.step(opened, row >> place & 1 == 1) {
                replies += 1;
                last = Some((place, reply));
            }
        }
        match last {
            None => Heard::Silence,
            Some((place, reply)) if replies == 1 => Heard::Lone(&self.tags[place], reply),
            Some(_) => Heard::Clash,
        }
    }
}

/// One tag alone.
#[derive(Clone, Debug, PartialEq)]
pub struct Single(pub Tag);

impl Field for Single {
    fn places(&self) -> usize {
        1
    }

    fn tag(&self, place: usize) -> &Tag {
        assert_eq!(place, 0, "there is only one place");
        &self.0
    }

    fn gap(&mut self, microseconds: u32) {
        self.0.gap(microseconds);
    }

    fn hear(&mut self, opened: &Result<Order, frame::Refusal>, row: u64) -> Heard<'_> {
        match self.0.step(opened, row & 1 == 1) {
            None => Heard::Silence,
            Some(reply) => Heard::Lone(&self.0, reply),
        }
    }
}

#[cfg(test)]
pub mod tests {
    use super::*;
    use crate::frame::{sealed, sealed_with, Name};
    use crate::tag::{State, MEMORY_LENGTH};

    pub const QUERY: [u8; 3] = [0x08, 0x9F, 0x07];

    /// The serial number ends with the tag's number; the tag waits for a query.
    pub fn tag(number: u8) -> Tag {
        let mut memory = [0; MEMORY_LENGTH];
        memory[..8].copy_from_slice(&[1, 2, 3, 4, 5, 6, 7, number]);
        Tag {
            state: State::Singulation,
            ..Tag::new(memory)
        }
    }

    pub fn bench(numbers: std::ops::Range<u8>) -> Bench {
        Bench::new(numbers.map(tag).collect()).expect("there are not too many")
    }

    pub fn read(number: u8) -> Vec<u8> {
        sealed_with(Name::Read as u8, &[1, 2, 3, 4, 5, 6, 7, number, 0])
    }

    /// What is heard in a buffer that is just large enough, and the reply's eighth byte.
    pub fn hear(field: &mut impl Field, row: u64, frame: &[u8]) -> (Hearing, u8) {
        let mut buffer = [0xA5; REPLY_ROOM];
        let hearing = field.send(frame, row, &mut buffer).expect("there is room");
        (hearing, buffer[7])
    }

    #[test]
    fn every_place_has_its_coin() {
        for places in [1, 2, 63, 64] {
            for place in [0, 1, 31, 62, 63] {
                let mut bench = bench(0..places);
                let heard = hear(&mut bench, !(1 << place), &QUERY);
                let there = place < places;
                let alone = (Hearing::Lone, place);
                let expected = if there { alone } else { (Hearing::Silence, 0) };
                assert_eq!(heard, expected, "{place} of {places}");
                for other in 0..places {
                    let lost = u8::from(other != place);
                    assert_eq!(bench.tag(other.into()).counter, lost);
                }
            }
        }
    }

    #[test]
    fn silence_and_clash() {
        assert_eq!(hear(&mut bench(0..0), 0, &QUERY), (Hearing::Silence, 0));
        assert_eq!(hear(&mut bench(0..1), 1, &QUERY), (Hearing::Silence, 0));
        assert_eq!(hear(&mut bench(0..2), 0, &QUERY), (Hearing::Clash, 0));
        assert_eq!(hear(&mut bench(0..64), 0, &QUERY), (Hearing::Clash, 0));
        let all_lose = hear(&mut bench(0..64), u64::MAX, &QUERY);
        assert_eq!(all_lose, (Hearing::Silence, 0));
        let two_win = !(1 << 5 | 1 << 63);
        assert_eq!(hear(&mut bench(0..64), two_win, &QUERY).0, Hearing::Clash);
    }

    #[test]
    fn a_single_tag_tosses_the_lowest_coin() {
        for (row, heard) in [
            (0, (Hearing::Lone, 9)),
            (1, (Hearing::Silence, 0)),
            (u64::MAX - 1, (Hearing::Lone, 9)),
            (u64::MAX, (Hearing::Silence, 0)),
        ] {
            let mut single = Single(tag(9));
            assert_eq!(single.places(), 1);
            assert_eq!(hear(&mut single, row, &QUERY), heard);
            assert_eq!(u64::from(single.tag(0).counter), row & 1);
        }
    }

    #[test]
    fn too_little_room_changes_nothing() {
        for room in [0, 1, 257] {
            let before = Tag {
                mark: 2,
                permission: Some(8),
                ..tag(8)
            };
            let mut bench = Bench::new(vec![before.clone()]).expect("one is not too many");
            let mut buffer = vec![0xA5; room];
            let heard = bench.send(&read(8), u64::MAX, &mut buffer);
            assert_eq!(heard, Err(Refusal::NoRoom));
            assert_eq!(buffer, vec![0xA5; room]);
            assert_eq!(bench.tag(0), &before);
        }
    }

    #[test]
    fn the_reply_is_followed_by_zeros_up_to_the_longest() {
        for room in [258, 259, 300] {
            for (places, heard, reply) in [
                (0, Hearing::Silence, &[][..]),
                (1, Hearing::Lone, &[1, 2, 3, 4, 5, 6, 7, 8, 0xB8, 0x6D]),
                (2, Hearing::Clash, &[]),
            ] {
                let mut bench = bench(8..8 + places);
                let mut buffer = vec![0xA5; room];
                assert_eq!(bench.send(&QUERY, 0, &mut buffer), Ok(heard));
                let mut expected = reply.to_vec();
                expected.resize(258, 0);
                expected.resize(room, 0xA5);
                assert_eq!(buffer, expected);
            }
        }
    }

    #[test]
    fn the_longest_reply_fills_the_room() {
        let frame = sealed_with(
            Name::ReadFlexible as u8,
            &[1, 2, 3, 4, 5, 6, 7, 8, 0x01, 0xFF],
        );
        let mut buffer = [0xA5; 260];
        let mut bench = bench(0..9);
        assert_eq!(bench.send(&frame, 0, &mut buffer), Ok(Hearing::Lone));
        let mut data = vec![2, 3, 4, 5, 6, 7, 8];
        data.resize(256, 0);
        assert_eq!(buffer[..258], sealed(&data));
        assert_eq!(buffer[258..], [0xA5; 2]);
    }

    #[test]
    fn any_bytes_are_a_frame() {
        for frame in [vec![], vec![0x08], vec![0xFF; 300], vec![0x08, 0x9F, 0x06]] {
            let mut bench = bench(0..3);
            assert_eq!(hear(&mut bench, 0, &frame), (Hearing::Silence, 0));
            assert!((0..3).all(|place| bench.tag(place).state == State::Ready));
        }
    }

    #[test]
    fn equal_serial_numbers_clash() {
        let mut bench = Bench::new(vec![tag(8), tag(9), tag(8)]).expect("three are few");
        assert_eq!(hear(&mut bench, 0, &read(8)).0, Hearing::Clash);
        assert_eq!(hear(&mut bench, 0, &read(9)), (Hearing::Lone, 9));
        assert_eq!(hear(&mut bench, 0, &read(7)).0, Hearing::Silence);
    }

    #[test]
    fn no_more_places_than_coins() {
        let made = |places| Bench::new((0..places).map(tag).collect());
        assert_eq!(made(64).map(|bench| bench.places()), Ok(64));
        assert_eq!(made(65), Err(Refusal::TooManyPlaces));
        assert_eq!(made(0), Ok(Bench::empty()));
    }

    #[test]
    fn gaps_are_for_every_tag() {
        let mut bench = bench(0..64);
        bench.gap(249);
        assert_eq!(bench, super::tests::bench(0..64));
        bench.gap(250);
        assert!((0..64).all(|place| bench.tag(place).state == State::Ready));
        let mut single = Single(tag(0));
        single.gap(250);
        assert_eq!(single.tag(0).state, State::Ready);
    }

    #[test]
    fn a_boxed_field_is_the_same_field() {
        let mut boxed: Box<dyn Field> = Box::new(bench(0..3));
        assert_eq!(boxed.places(), 3);
        assert_eq!(hear(&mut boxed, 0b011, &QUERY), (Hearing::Lone, 2));
        boxed.gap(250);
        assert_eq!(boxed.tag(2).state, State::Ready);
    }
}
