//! How a field is put together, in words and in fact.

use std::fmt;

use crate::field::{Bench, Field, Refusal, Single};
use crate::layers::{Pair, Spoiler};
use crate::tag::Tag;

#[derive(Clone, Debug, PartialEq, Eq, Hash)]
pub enum Nesting {
    Bench(usize),
    Single,
    Pair(Box<Nesting>, Box<Nesting>),
    Spoiler(u16, Box<Nesting>),
}

impl Nesting {
    pub fn pair(left: Nesting, right: Nesting) -> Nesting {
        Nesting::Pair(Box::new(left), Box::new(right))
    }

    pub fn spoiler(period: u16, inner: Nesting) -> Nesting {
        Nesting::Spoiler(period, Box::new(inner))
    }

    /// From words in the order in which they are written.
    pub fn read(text: &str) -> Option<Nesting> {
        let mut words = text.split(' ');
        let nesting = Nesting::take(&mut words)?;
        words.next().is_none().then_some(nesting)
    }

    fn take<'a>(words: &mut impl Iterator<Item = &'a str>) -> Option<Nesting> {
        Some(match words.next()? {
            "bench" => Nesting::Bench(words.next()?.parse().ok()?),
            "single" => Nesting::Single,
            "pair" => Nesting::pair(Nesting::take(words)?, Nesting::take(words)?),
            "spoiler" => {
                let period = words.next()?.parse().ok()?;
                Nesting::spoiler(period, Nesting::take(words)?)
            }
            _ => return None,
        })
    }

    /// How many tags it takes, even if too many.
    pub fn places(&self) -> usize {
        match self {
            Nesting::Bench(places) => *places,
            Nesting::Single => 1,
            Nesting::Pair(left, right) => left.places() + right.places(),
            Nesting::Spoiler(_, inner) => inner.places(),
        }
    }

    /// Makes the field of the next tags, the inner parts before the outer ones.
    pub fn make(&self, tags: &mut impl Iterator<Item = Tag>) -> Result<Box<dyn Field>, Refusal> {
        Ok(match self {
            Nesting::Bench(places) => Box::new(Bench::new(tags.take(*places).collect())?),
            Nesting::Single => Box::new(Single(tags.next().expect("there is a tag left"))),
            Nesting::Pair(left, right) => {
                let left = left.make(tags)?;
                Box::new(Pair::new(left, right.make(tags)?)?)
            }
            Nesting::Spoiler(period, inner) => Box::new(Spoiler::new(*period, inner.make(tags)?)?),
        })
    }
}

impl fmt::Display for Nesting {
    fn fmt(&self, out: &mut fmt::Formatter) -> fmt::Result {
        match self {
            Nesting::Bench(places) => write!(out, "bench {places}"),
            Nesting::Single => write!(out, "single"),
            Nesting::Pair(left, right) => write!(out, "pair {left} {right}"),
            Nesting::Spoiler(period, inner) => write!(out, "spoiler {period} {inner}"),
        }
    }
}

#[cfg(test)]
mod tests {
    use super::*;
    use crate::tag::MEMORY_LENGTH;

    fn read(text: &str) -> Nesting {
        Nesting::read(text).expect("the words are right")
    }

    /// Every tag's first byte is its number.
    fn made(text: &str) -> Result<Box<dyn Field>, Refusal> {
        let mut tags = (0..).map(|number| {
            let mut memory = [0; MEMORY_LENGTH];
            memory[0] = number;
            Tag::new(memory)
        });
        read(text).make(&mut tags)
    }

    #[test]
    fn words_come_back() {
        for text in [
            "bench 0",
            "single",
            "pair single bench 65",
            "pair pair single bench 2 spoiler 0 single",
            "spoiler 65535 spoiler 3 pair bench 1 bench 63",
        ] {
            assert_eq!(read(text).to_string(), text);
        }
        let nesting = Nesting::pair(
            Nesting::spoiler(2, Nesting::Single),
            Nesting::pair(Nesting::Bench(3), Nesting::Single),
        );
        assert_eq!(read("pair spoiler 2 single pair bench 3 single"), nesting);
    }

    #[test]
    fn wrong_words() {
        for text in [
            "",
            "bench",
            "bench x",
            "single single",
            "pair single",
            "spoiler single",
            "spoiler 65536 single",
            "row",
        ] {
            assert_eq!(Nesting::read(text), None, "{text}");
        }
    }

    #[test]
    fn tags_go_from_left_to_right() {
        for text in [
            "bench 5",
            "pair single bench 4",
            "pair bench 0 pair bench 4 single",
            "pair spoiler 2 pair single bench 2 spoiler 1 bench 2",
        ] {
            assert_eq!(read(text).places(), 5);
            let field = made(text).expect("the field is made");
            let numbers: Vec<u8> = (0..field.places())
                .map(|place| field.tag(place).memory[0])
                .collect();
            assert_eq!(numbers, [0, 1, 2, 3, 4], "{text}");
        }
    }

    #[test]
    fn the_first_refusal_counts() {
        for (text, refusal) in [
            ("bench 65", Refusal::TooManyPlaces),
            ("pair bench 64 single", Refusal::TooManyPlaces),
            ("pair single bench 64", Refusal::TooManyPlaces),
            ("spoiler 0 bench 0", Refusal::NoPeriod),
            ("spoiler 0 bench 65", Refusal::TooManyPlaces),
            ("spoiler 0 pair bench 64 single", Refusal::TooManyPlaces),
            ("pair spoiler 0 single bench 65", Refusal::NoPeriod),
            ("pair bench 65 spoiler 0 single", Refusal::TooManyPlaces),
            ("pair bench 64 spoiler 0 single", Refusal::NoPeriod),
            ("spoiler 1 spoiler 0 single", Refusal::NoPeriod),
        ] {
            assert_eq!(made(text).err(), Some(refusal), "{text}");
        }
    }

    #[test]
    fn sixty_four_places_are_not_too_many() {
        for text in ["bench 64", "pair bench 64 bench 0", "pair single bench 63"] {
            let field = made(text).expect("the field is made");
            assert_eq!(field.places(), 64);
        }
    }
}
