//! Tags that are told apart by the last byte of their serial numbers, and what is heard of them.

use std::ops::Range;

use super::term::{byte, number, state as state_term, stretch, tag_like, truth, Term};
use crate::field::{Bench, Field, Heard, Hearing, REPLY_ROOM};
use crate::frame::{sealed_with, Name};
use crate::order::{Order, SERIAL_LENGTH};
use crate::tag::{State, Tag, MEMORY_LENGTH};

/// So many in a row are worth a word.
const RUN: usize = 2;

/// A tag whose serial number ends with a byte; all its other bytes are 00.
pub fn numbered(number: u8, state: State, counter: u8) -> Tag {
    let mut memory = [0; MEMORY_LENGTH];
    memory[SERIAL_LENGTH - 1] = number;
    Tag {
        state,
        counter,
        ..Tag::new(memory)
    }
}

/// A tag whose serial number matches the SELECT and ends with a byte; all bytes behind it are 00.
pub fn carrier(number: u8, state: State, counter: u8) -> Tag {
    let mut memory = [0; MEMORY_LENGTH];
    memory[..2].copy_from_slice(&[0xEF, 0x04]);
    memory[SERIAL_LENGTH - 1] = number;
    Tag {
        state,
        counter,
        ..Tag::new(memory)
    }
}

/// Tags that answer in their turn, and have it.
pub fn selected(numbers: Range<u8>) -> Vec<Tag> {
    numbers
        .map(|number| numbered(number, State::Singulation, 0))
        .collect()
}

pub fn bench(tags: Vec<Tag>) -> Bench {
    Bench::new(tags).expect("there are not too many tags")
}

pub fn query() -> Vec<u8> {
    sealed_with(Name::Query as u8, &[])
}

pub fn tags_in(field: &dyn Field) -> Vec<Tag> {
    (0..field.places())
        .map(|place| field.tag(place).clone())
        .collect()
}

/// A QUERY in which no coin falls, heard in a field.
pub fn heard<T>(field: &mut dyn Field, tell: impl Fn(Heard) -> T) -> T {
    tell(field.hear(&Order::open(&query()), 0))
}

/// A QUERY to 64 places, in which those that draw a coin lose.
pub fn toss(field: &mut dyn Field, coins: u64) {
    let mut buffer = [0; REPLY_ROOM];
    let heard = field.send(&query(), coins, &mut buffer);
    heard.expect("the buffer is long enough");
}

pub fn hearing(heard: Heard) -> Hearing {
    match heard {
        Heard::Silence => Hearing::Silence,
        Heard::Lone(..) => Hearing::Lone,
        Heard::Clash => Hearing::Clash,
    }
}

/// What is on the air, of which a bench hears all.
pub fn air(heard: Heard) -> Term {
    match heard {
        Heard::Silence => Term::word("silent"),
        Heard::Lone(tag, reply) => Term::call("one", &[stretch(&tag.written(reply))]),
        Heard::Clash => Term::word("many"),
    }
}

pub fn hearing_term(hearing: Hearing) -> Term {
    Term::word(match hearing {
        Hearing::Silence => "Silence",
        Hearing::Lone => "Lone",
        Hearing::Clash => "Clash",
    })
}

fn number_of(tag: &Tag) -> u8 {
    tag.memory[SERIAL_LENGTH - 1]
}

/// A tag by a word for its kind, the number by which it is told from others of that, and what else the word takes.
struct Call {
    word: &'static str,
    /// The word for many of them.
    from: &'static str,
    number: u8,
    rest: Vec<Term>,
}

impl Call {
    fn term(&self, number: Term) -> Term {
        Term::call(self.word, &[&[number], self.rest.as_slice()].concat())
    }

    fn rest_text(&self) -> String {
        let rest: Vec<&str> = self.rest.iter().map(Term::text).collect();
        rest.join(" ")
    }

    fn follows(&self, place: usize, first: &Call) -> bool {
        usize::from(self.number) == usize::from(first.number) + place
            && self.word == first.word
            && self.rest_text() == first.rest_text()
    }
}

/// The nearest tag that has a word, with that.
fn near(each: &Tag) -> (Call, Tag) {
    let number = number_of(each);
    let (state, counter) = (state_term(each.state), byte(each.counter));
    let with = |word, from, rest| Call {
        word,
        from,
        number,
        rest,
    };
    let like = carrier(number, each.state, each.counter);
    if each.memory == like.memory {
        let like = Tag {
            id_flag: each.id_flag,
            ..like
        };
        return (
            with(
                "carrier",
                "carriers_from",
                vec![state, truth(each.id_flag), counter],
            ),
            like,
        );
    }
    let like = numbered(number, each.state, each.counter);
    (
        with("numbered", "numbered_from", vec![state, counter]),
        like,
    )
}

pub fn tag_term(each: &Tag) -> Term {
    let (call, like) = near(each);
    tag_like(call.term(byte(call.number)), &like, each)
}

/// The call that tells a tag whole.
fn whole_call(each: &Tag) -> Option<Call> {
    let (call, like) = near(each);
    (like == *each).then_some(call)
}

/// Tags with a word for each run that differs by growing numbers alone.
pub fn tags_term(all: &[Tag]) -> Term {
    let mut lists = Vec::new();
    let mut single = Vec::new();
    let mut rest = all;
    while let [first, ..] = rest {
        let length = run(rest);
        if length < RUN {
            single.push(tag_term(first));
            rest = &rest[1..];
            continue;
        }
        if !single.is_empty() {
            lists.push(Term::list(&single));
            single.clear();
        }
        let (call, _) = near(first);
        let from = [&[byte(call.number), number(length)], call.rest.as_slice()].concat();
        lists.push(Term::call(call.from, &from));
        rest = &rest[length..];
    }
    if !single.is_empty() {
        lists.push(Term::list(&single));
    }
    Term::joined(&lists)
}

/// How many tags from the first on have a word of one kind, and are numbered one after the other, and alike but for that.
fn run(tags: &[Tag]) -> usize {
    let Some(first) = whole_call(&tags[0]) else {
        return 0;
    };
    let goes_on = |(place, tag): &(usize, &Tag)| {
        whole_call(tag).is_some_and(|call| call.follows(*place, &first))
    };
    tags.iter().enumerate().take_while(goes_on).count()
}
