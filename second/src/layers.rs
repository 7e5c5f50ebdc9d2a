//! Fields over other fields: two side by side, and one that is heard badly.

use crate::field::{Field, Heard, Refusal, MOST_PLACES};
use crate::frame;
use crate::order::Order;
use crate::tag::Tag;

/// Two fields, the places of the left one first.
pub struct Pair<L, R> {
    left: L,
    right: R,
    /// How many places the left one has, which no send changes.
    border: usize,
}

impl<L: Field, R: Field> Pair<L, R> {
    pub fn new(left: L, right: R) -> Result<Pair<L, R>, Refusal> {
        let border = left.places();
        if border + right.places() > MOST_PLACES {
            return Err(Refusal::TooManyPlaces);
        }
        Ok(Pair {
            left,
            right,
            border,
        })
    }
}

impl<L: Field, R: Field> Field for Pair<L, R> {
    fn places(&self) -> usize {
        self.border + self.right.places()
    }

    fn tag(&self, place: usize) -> &Tag {
        match place.checked_sub(self.border) {
            None => self.left.tag(place),
            Some(place) => self.right.tag(place),
        }
    }

    fn gap(&mut self, microseconds: u32) {
        self.left.gap(microseconds);
        self.right.gap(microseconds);
    }

    fn hear(&mut self, opened: &Result<Order, frame::Refusal>, row: u64) -> Heard<'_> {
        // The border may be the whole row's length, which a plain shift cannot take.
        let right_row = row.checked_shr(self.border as u32).unwrap_or(0);
        let left = self.left.hear(opened, row);
        let right = self.right.hear(opened, right_row);
        match (left, right) {
            (Heard::Silence, heard) | (heard, Heard::Silence) => heard,
            _ => Heard::Clash,
        }
    }
}

/// Hears every so many-th lone reply from below as a clash.
pub struct Spoiler<F> {
    inner: F,
    period: u16,
    /// How many lone hearings since the last that was spoiled.
    lone: u16,
}

impl<F: Field> Spoiler<F> {
    pub fn new(period: u16, inner: F) -> Result<Spoiler<F>, Refusal> {
        if period == 0 {
            return Err(Refusal::NoPeriod);
        }
        Ok(Spoiler {
            inner,
            period,
            lone: 0,
        })
    }

    /// Goes on over another field.
    pub fn over<G: Field>(self, inner: G) -> Spoiler<G> {
        Spoiler {
            inner,
            period: self.period,
            lone: self.lone,
        }
    }
}

impl<F: Field> Field for Spoiler<F> {
    fn places(&self) -> usize {
        self.inner.places()
    }

    fn tag(&self, place: usize) -> &Tag {
        self.inner.tag(place)
    }

    fn gap(&mut self, microseconds: u32) {
        self.inner.gap(microseconds);
    }

    fn hear(&mut self, opened: &Result<Order, frame::Refusal>, row: u64) -> Heard<'_> {
        let heard = self.inner.hear(opened, row);
        if !matches!(heard, Heard::Lone(..)) {
            return heard;
        }
        self.lone += 1;
        if self.lone < self.period {
            return heard;
        }
        self.lone = 0;
        Heard::Clash
    }
}

#[cfg(test)]
mod tests {
    use super::*;
    use crate::field::tests::{bench, hear, read, tag, QUERY};
    use crate::field::{Bench, Hearing, Single, REPLY_ROOM};
    use crate::frame::sealed_with;
    use crate::frame::Name;
    use crate::tag::State;

    fn pair<L: Field, R: Field>(left: L, right: R) -> Pair<L, R> {
        Pair::new(left, right).expect("there are not too many places")
    }

    fn spoiler<F: Field>(period: u16, inner: F) -> Spoiler<F> {
        Spoiler::new(period, inner).expect("there is a period")
    }

    /// A letter for each reading, one after the other.
    fn letters(field: &mut impl Field, numbers: &[u8]) -> String {
        let letter = |&number: &u8| match hear(field, 0, &read(number)) {
            (Hearing::Silence, 0) => 'S',
            (Hearing::Lone, heard) if heard == number => 'L',
            (Hearing::Clash, 0) => 'C',
            other => panic!("{other:?} after reading {number}"),
        };
        numbers.iter().map(letter).collect()
    }

    #[test]
    fn the_coins_of_the_right_begin_behind_the_left() {
        for border in [0, 1, 2, 63, 64] {
            for place in [0, 1, 2, 62, 63] {
                let mut pair = pair(bench(0..border), bench(border..64));
                assert_eq!(pair.places(), 64);
                let heard = hear(&mut pair, !(1 << place), &QUERY);
                assert_eq!(heard, (Hearing::Lone, place), "behind {border}");
                for other in 0..64 {
                    let tag = pair.tag(other.into());
                    assert_eq!(tag.serial()[7], other);
                    assert_eq!(tag.counter, u8::from(other != place));
                }
            }
        }
    }

    #[test]
    fn coins_are_shifted_at_every_layer() {
        let inner = pair(Single(tag(1)), pair(bench(2..2), bench(2..5)));
        let mut outer = pair(Single(tag(0)), inner);
        assert_eq!(hear(&mut outer, 0b01111, &QUERY), (Hearing::Lone, 4));
        assert_eq!(outer.tag(4).serial()[7], 4);
        let inner = pair(pair(bench(0..3), Single(tag(3))), Bench::empty());
        let mut outer = pair(inner, Single(tag(4)));
        assert_eq!(hear(&mut outer, 0b10111, &QUERY), (Hearing::Lone, 3));
        assert_eq!(hear(&mut outer, 0, &read(4)), (Hearing::Lone, 4));
    }

    #[test]
    fn two_sounding_sides_clash() {
        // Two coins for each side; a side with no winner is silent.
        for (row, heard) in [
            (0b1111, (Hearing::Silence, 0)),
            (0b1110, (Hearing::Lone, 0)),
            (0b1101, (Hearing::Lone, 1)),
            (0b1100, (Hearing::Clash, 0)),
            (0b1011, (Hearing::Lone, 2)),
            (0b0111, (Hearing::Lone, 3)),
            (0b0011, (Hearing::Clash, 0)),
            (0b1010, (Hearing::Clash, 0)),
            (0b0101, (Hearing::Clash, 0)),
            (0b1000, (Hearing::Clash, 0)),
            (0b0000, (Hearing::Clash, 0)),
        ] {
            let mut pair = pair(bench(0..2), bench(2..4));
            assert_eq!(hear(&mut pair, row, &QUERY), heard, "{row:04b}");
        }
    }

    #[test]
    fn no_more_places_than_coins() {
        let refusal = |left, right| Pair::new(bench(0..left), bench(0..right)).err();
        for (left, right) in [(0, 0), (0, 64), (64, 0), (1, 63), (63, 1), (32, 32)] {
            assert_eq!(refusal(left, right), None);
        }
        for (left, right) in [(1, 64), (64, 1), (63, 2), (33, 32), (64, 64)] {
            assert_eq!(refusal(left, right), Some(Refusal::TooManyPlaces));
        }
    }

    #[test]
    fn every_so_many_th_lone_reply_is_spoiled() {
        for (period, expected) in [
            (1, "CCCCCCCCCCCC"),
            (2, "LCLCLCLCLCLC"),
            (3, "LLCLLCLLCLLC"),
            (5, "LLLLCLLLLCLL"),
            (65535, "LLLLLLLLLLLL"),
        ] {
            let mut field = spoiler(period, bench(0..2));
            assert_eq!(field.places(), 2);
            assert_eq!(letters(&mut field, &[1; 12]), expected);
        }
        let none = Spoiler::new(0, bench(0..2)).err();
        assert_eq!(none, Some(Refusal::NoPeriod));
    }

    #[test]
    fn the_longest_period() {
        let mut field = spoiler(u16::MAX, Single(tag(8)));
        let frame = read(8);
        for count in 1..=3 * 65535 {
            let spoiled = count % 65535 == 0;
            let (heard, _) = hear(&mut field, 0, &frame);
            assert_eq!(heard == Hearing::Clash, spoiled, "{count}");
        }
    }

    #[test]
    fn a_spoiler_counts_what_the_one_below_lets_through() {
        for (outer, inner, expected) in [
            (2, 2, "LCCCLCCCLCCC"),
            (2, 3, "LCCLCCLCCLCC"),
            (3, 2, "LCLCCCLCLCCC"),
            (1, 2, "CCCCCCCCCCCC"),
        ] {
            let mut field = spoiler(outer, spoiler(inner, Single(tag(8))));
            assert_eq!(letters(&mut field, &[8; 12]), expected);
        }
    }

    #[test]
    fn only_lone_replies_count() {
        let tags = vec![tag(8), tag(9), tag(9)];
        let mut field = spoiler(2, Bench::new(tags).expect("three are few"));
        assert_eq!(letters(&mut field, &[8, 7, 9, 7, 9]), "LSCSC");
        assert_eq!(letters(&mut field, &[8, 9, 8, 7, 8]), "CCLSC");
    }

    #[test]
    fn neither_gaps_nor_refused_sends_count() {
        let mut field = spoiler(3, Single(tag(8)));
        for expected in ["L", "L", "C", "L", "L", "C"] {
            for room in [0, 257] {
                let refused = field.send(&read(8), 0, &mut vec![0; room]);
                assert_eq!(refused, Err(Refusal::NoRoom));
            }
            field.gap(4_000_000);
            assert_eq!(letters(&mut field, &[8]), expected);
        }
    }

    #[test]
    fn a_spoiled_reply_changed_its_tag() {
        let mut field = spoiler(1, bench(8..10));
        let mut buffer = [0xA5; REPLY_ROOM + 2];
        let heard = field.send(&read(9), 0, &mut buffer);
        assert_eq!(heard, Ok(Hearing::Clash));
        assert_eq!(buffer[..REPLY_ROOM], [0; REPLY_ROOM]);
        assert_eq!(buffer[REPLY_ROOM..], [0xA5; 2]);
        assert_eq!(field.tag(0).state, State::Singulation);
        assert_eq!(field.tag(1).state, State::Inventoried);
    }

    #[test]
    fn each_side_spoils_for_itself() {
        let mut field = pair(spoiler(2, Single(tag(0))), spoiler(3, Single(tag(1))));
        assert_eq!(letters(&mut field, &[0, 1, 0, 1, 0, 1]), "LLCLLC");
        let mut field = spoiler(2, pair(Single(tag(0)), Single(tag(1))));
        assert_eq!(letters(&mut field, &[0, 1, 1, 0, 7, 0]), "LCLCSL");
    }

    #[test]
    fn a_side_counts_even_if_the_other_sounds() {
        let repeat = sealed_with(Name::Repeat as u8, &[]);
        let mut field = pair(spoiler(2, Single(tag(0))), spoiler(3, Single(tag(1))));
        assert_eq!(hear(&mut field, 0, &repeat).0, Hearing::Clash);
        assert_eq!(letters(&mut field, &[0, 1, 1, 0, 1]), "CLCLL");
        let mut field = spoiler(2, pair(Single(tag(0)), Single(tag(1))));
        assert_eq!(hear(&mut field, 0, &repeat).0, Hearing::Clash);
        assert_eq!(letters(&mut field, &[0, 1]), "LC");
    }

    #[test]
    fn gaps_are_for_both_sides() {
        let mut field = pair(spoiler(2, bench(0..2)), Single(tag(2)));
        field.gap(250);
        assert!((0..3).all(|place| field.tag(place).state == State::Ready));
    }
}
