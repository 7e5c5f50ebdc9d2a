//! A tag's step on each command, and on what is no frame.

use super::listing::{file as file_of, row, row_by, Listing, Row};
use super::term::{digits, maybe, plain, stretch, tag, truth, Term};
use crate::frame::{sealed, sealed_with, Name};
use crate::order::Order;
use crate::tag::{Locks, State, Tag};

use State::{Inventoried, Ready, Singulation};

const HEAD: &str = "\
-- A tag's steps at the limits, by the second implementation, which wrote this file. Assumes nothing.
use Prim.Native.String.{String}
use Rattle.std.specs.Prelude.{◌≡◌, ℕ, Bool, true, false, List, [], ◌∷◌, ◌++◌, replicate, Some, None, Option}
use Rattle.std.specs.List.{AllByRecursion, range_with_len}
use Rattle.frame.specs.Openings.{opening}
use Rattle.record.specs.declared.State.TheVariants.{Ready, Singulation, Inventoried}
use Rattle.record.specs.declared.WriteMark.TheVariants.{Clear, Fading, Fresh}
use Rattle.record.specs.declared.Tag.{Tag}
use Rattle.tag.specs.Steps.{stepped, replied}
use Rattle.worked_cases.specs.Words.{bytes, plain_but, locked_in, only_locked, tag_of, tag_in, flagged_in, busy}

-- A tag, the frame that it hears, the tag after it, and its reply.
abbrev pub step : Tag → String → Tag → Option (List ℕ) → Tag × String × Tag × Option (List ℕ)
step before frame after reply = (before, frame, after, reply)

-- The plain tag's serial number, as it is sent.
abbrev pub serial_sent : List ℕ
serial_sent = bytes \"40414243444546478E0F\"

-- By a frame and a coin a tag becomes this one, and replies so.
abbrev pub Holds : Tag → String → Bool → Tag → Option (List ℕ) → Type 0
Holds before frame coin after reply =
    (stepped (opening (bytes frame)) coin before ≡ after) × (replied (opening (bytes frame)) coin before ≡ reply)
";

/// Another serial number than the plain tag's, in the last byte alone.
const STRANGER: [u8; 8] = [0x40, 0x41, 0x42, 0x43, 0x44, 0x45, 0x46, 0x48];

/// The plain tag's.
const SERIAL: [u8; 8] = [0x40, 0x41, 0x42, 0x43, 0x44, 0x45, 0x46, 0x47];

pub fn file() -> String {
    let listings = [
        selects(),
        unselects_ne(),
        unselects_flag(),
        unselects_no_flag(),
        queries(),
        scrolls(),
        repeats(),
        resets(),
        reads(),
        flexible_reads(),
        verifies(),
        writes(),
        locks(),
        lock_queries(),
        no_frames(),
    ];
    file_of(HEAD, &listings)
}

/// The plain tag in some state, with a counter.
fn at(state: State, counter: u8) -> Tag {
    Tag {
        state,
        counter,
        ..plain()
    }
}

/// The same with its ID flag set.
fn flagged(tag: Tag) -> Tag {
    Tag {
        id_flag: true,
        ..tag
    }
}

fn marked(mark: u8, tag: Tag) -> Tag {
    Tag { mark, ..tag }
}

fn permitted(address: u8, tag: Tag) -> Tag {
    Tag {
        permission: Some(address),
        ..tag
    }
}

/// Most replies are the plain tag's serial number.
fn reply_term(bytes: &[u8]) -> Term {
    if bytes == sealed(&SERIAL) {
        return Term::word("serial_sent");
    }
    stretch(bytes)
}

/// A tag that hears a frame, with a coin.
struct Step {
    before: Tag,
    frame: Vec<u8>,
    coin: bool,
}

fn step(before: Tag, frame: &[u8], coin: bool) -> Step {
    Step {
        before,
        frame: frame.to_vec(),
        coin,
    }
}

fn steps(name: Name, cases: &[(Tag, &[u8])]) -> Vec<Step> {
    cases
        .iter()
        .map(|(before, parameters)| {
            step(before.clone(), &sealed_with(name as u8, parameters), false)
        })
        .collect()
}

/// What is the same in all steps stands in the law, and not in the rows.
fn listing(about: &'static str, name: &'static str, steps: &[Step]) -> Listing {
    let frame = &steps[0].frame;
    let frames_differ = steps.iter().any(|step| step.frame != *frame);
    let coins_fall = steps.iter().any(|step| step.coin);
    let columns = [
        (true, "Tag", "before"),
        (frames_differ, "String", "frame"),
        (coins_fall, "Bool", "coin"),
        (true, "Tag", "after"),
        (true, "Option (List ℕ)", "reply"),
    ];
    let columns = columns.into_iter().filter(|(has_it, ..)| *has_it);
    let (types, names): (Vec<_>, Vec<_>) = columns.map(|(_, of, name)| (of, name)).unzip();
    let (types, names) = (types.join(" × "), names.join(", "));
    let frame = if frames_differ {
        Term::word("frame")
    } else {
        digits(frame)
    };
    let coin = if coins_fall { "coin" } else { "false" };
    let frame = frame.text();
    Listing {
        about,
        name,
        law: format!("{{X = {types}}}\n    (λ ({names}). Holds before {frame} {coin} after reply)"),
        rows: steps
            .iter()
            .map(|step| step_row(step, frames_differ, coins_fall))
            .collect(),
    }
}

fn step_row(step: &Step, has_frame: bool, has_coin: bool) -> Row {
    let mut after = step.before.clone();
    let reply = after.step(&Order::open(&step.frame), step.coin);
    let reply = reply.map(|reply| after.written(reply));
    let reply = maybe(reply.as_deref().map(reply_term));
    let (before, frame, coin, after) = (
        tag(&step.before),
        digits(&step.frame),
        truth(step.coin),
        tag(&after),
    );
    match (has_frame, has_coin) {
        (false, false) => row(&[before, after, reply]),
        (false, true) => row(&[before, coin, after, reply]),
        (true, false) => row_by("step", &[before, frame, after, reply]),
        (true, true) => row(&[before, frame, coin, after, reply]),
    }
}

/// Address, mask and word.
fn comparison(address: u8, mask: u8, word: [u8; 8]) -> Vec<u8> {
    [&[address, mask], word.as_slice()].concat()
}

/// The comparisons of both commands that compare: at the ends of the memory, and by single bits of a mask.
fn comparisons() -> [Vec<u8>; 12] {
    let last_differs = STRANGER;
    let mut first_differs = SERIAL;
    first_differs[0] = 0;
    let end = [0x74, 0x75, 0x76, 0x77, 0, 0, 0, 0];
    let round = [0x00, 0x40, 0x41, 0x42, 0x43, 0x44, 0x45, 0x46];
    [
        comparison(0x00, 0xFF, SERIAL),
        comparison(0x00, 0xFF, last_differs),
        comparison(0x00, 0xFE, last_differs),
        comparison(0x00, 0x01, last_differs),
        comparison(0x00, 0x80, first_differs),
        comparison(0x00, 0x7F, first_differs),
        comparison(0x00, 0x00, [0xEE; 8]),
        comparison(0x34, 0xFF, end),
        comparison(0x37, 0x80, [0x77; 8]),
        comparison(0x38, 0xFF, [0; 8]),
        comparison(0xFF, 0xFF, round),
        comparison(0xFF, 0x80, round),
    ]
}

fn selects() -> Listing {
    let comparisons = comparisons();
    let mut cases: Vec<(Tag, &[u8])> = comparisons
        .iter()
        .map(|parameters| (at(Ready, 0xFF), parameters.as_slice()))
        .collect();
    let fits = comparisons[0].as_slice();
    let differs = comparisons[1].as_slice();
    cases.push((flagged(at(Singulation, 0xFF)), differs));
    cases.push((marked(2, permitted(0x00, at(Singulation, 0x00))), fits));
    cases.push((marked(1, permitted(0x37, at(Inventoried, 0x01))), fits));
    listing(
        "SELECT, at the ends of the memory, by single bits of the mask, and in each state.",
        "Selects",
        &steps(Name::Select, &cases),
    )
}

fn unselects_ne() -> Listing {
    let comparisons = comparisons();
    let mut cases: Vec<(Tag, &[u8])> = comparisons
        .iter()
        .map(|parameters| (at(Singulation, 0x01), parameters.as_slice()))
        .collect();
    let fits = comparisons[0].as_slice();
    let differs = comparisons[1].as_slice();
    cases.push((marked(2, flagged(at(Singulation, 0xFF))), fits));
    cases.push((permitted(0x00, flagged(at(Singulation, 0xFF))), differs));
    cases.push((at(Ready, 0x01), fits));
    cases.push((marked(1, at(Inventoried, 0xFF)), differs));
    listing(
        "UNSELECT_NE, in the same ways.",
        "UnselectsNe",
        &steps(Name::UnselectNe, &cases),
    )
}

/// A tag in each state, with and without its flag, and with some counters.
fn flags() -> Vec<Tag> {
    let mut tags = Vec::new();
    for state in [Ready, Singulation, Inventoried] {
        for counter in [0x00, 0xFF] {
            tags.push(at(state, counter));
            tags.push(flagged(at(state, counter)));
        }
    }
    tags.push(marked(2, permitted(0x08, at(Singulation, 0x01))));
    tags.push(flagged(marked(1, permitted(0x08, at(Singulation, 0x01)))));
    tags
}

fn unselects_flag() -> Listing {
    let cases: Vec<(Tag, &[u8])> = flags()
        .into_iter()
        .map(|tag| (tag, [0x00, 0x00].as_slice()))
        .collect();
    listing(
        "UNSELECT_ID_FLAG, in each state, with the flag set and clear.",
        "UnselectsFlag",
        &steps(Name::UnselectIdFlag, &cases),
    )
}

fn unselects_no_flag() -> Listing {
    let cases: Vec<(Tag, &[u8])> = flags()
        .into_iter()
        .map(|tag| (tag, [0xFF, 0x01].as_slice()))
        .collect();
    listing(
        "UNSELECT_NOID_FLAG, in the same ways.",
        "UnselectsNoFlag",
        &steps(Name::UnselectNoIdFlag, &cases),
    )
}

fn queries() -> Listing {
    let frame = sealed_with(Name::Query as u8, &[]);
    let mut steps = Vec::new();
    for counter in [0x00, 0x01, 0xFE, 0xFF] {
        for coin in [false, true] {
            steps.push(step(at(Singulation, counter), &frame, coin));
        }
    }
    for (before, coin) in [
        (at(Ready, 0x00), false),
        (at(Ready, 0xFE), true),
        (at(Inventoried, 0x00), false),
        (marked(2, flagged(at(Inventoried, 0x01))), true),
        (
            marked(1, permitted(0x37, flagged(at(Singulation, 0x00)))),
            false,
        ),
    ] {
        steps.push(step(before, &frame, coin));
    }
    listing(
        "QUERY, with counters at their limits and both coins, and in each state.",
        "Queries",
        &steps,
    )
}

/// What SCROLL and REPEAT are sent to.
fn turns() -> Vec<(Tag, &'static [u8])> {
    [
        at(Singulation, 0x00),
        at(Singulation, 0x01),
        at(Singulation, 0x02),
        at(Singulation, 0xFE),
        at(Singulation, 0xFF),
        flagged(at(Singulation, 0x00)),
        marked(2, permitted(0x00, at(Singulation, 0x01))),
        marked(1, at(Singulation, 0x00)),
        at(Ready, 0x00),
        at(Ready, 0x01),
        flagged(at(Inventoried, 0x00)),
        permitted(0x37, at(Inventoried, 0x01)),
    ]
    .map(|tag| (tag, [].as_slice()))
    .into()
}

fn scrolls() -> Listing {
    listing(
        "SCROLL, with counters at their limits and in each state.",
        "Scrolls",
        &steps(Name::Scroll, &turns()),
    )
}

fn repeats() -> Listing {
    listing(
        "REPEAT, in the same ways.",
        "Repeats",
        &steps(Name::Repeat, &turns()),
    )
}

fn resets() -> Listing {
    let cases: Vec<(Tag, &[u8])> = flags()
        .into_iter()
        .map(|tag| (tag, [].as_slice()))
        .collect();
    listing(
        "RESET, in each state, with the flag set and clear.",
        "Resets",
        &steps(Name::Reset, &cases),
    )
}

/// A serial number and what stands behind it in a frame.
fn meant(serial: [u8; 8], rest: &[u8]) -> Vec<u8> {
    [serial.as_slice(), rest].concat()
}

/// The plain tag's frames of a command, each with the tag that hears it and what stands behind the serial number; the
/// same for a stranger as the last.
fn accesses(name: Name, cases: &[(Tag, &[u8])]) -> Vec<Step> {
    let mut serials: Vec<(Tag, Vec<u8>)> = cases
        .iter()
        .map(|(tag, rest)| (tag.clone(), meant(SERIAL, rest)))
        .collect();
    let (last, rest) = cases.last().expect("there are cases");
    serials.push((last.clone(), meant(STRANGER, rest)));
    let mut other_first = SERIAL;
    other_first[0] = 0xFF;
    serials.push((last.clone(), meant(other_first, rest)));
    let cases: Vec<(Tag, &[u8])> = serials
        .iter()
        .map(|(tag, parameters)| (tag.clone(), parameters.as_slice()))
        .collect();
    steps(name, &cases)
}

fn reads() -> Listing {
    let cases: [(Tag, &[u8]); 11] = [
        (at(Ready, 0x00), &[0x00]),
        (at(Ready, 0xFF), &[0x2F]),
        (at(Ready, 0x00), &[0x30]),
        (at(Ready, 0x00), &[0x31]),
        (at(Ready, 0x00), &[0x34]),
        (at(Ready, 0x00), &[0x37]),
        (at(Ready, 0x00), &[0x38]),
        (at(Ready, 0x00), &[0xFF]),
        (at(Singulation, 0x01), &[0x08]),
        (flagged(at(Inventoried, 0xFF)), &[0x08]),
        (marked(2, permitted(0x37, at(Ready, 0x00))), &[0x00]),
    ];
    listing(
        "READ, at the ends of the memory and in each state, and with other serial numbers.",
        "Reads",
        &accesses(Name::Read, &cases),
    )
}

fn flexible_reads() -> Listing {
    let cases: [(Tag, &[u8]); 12] = [
        (at(Ready, 0x00), &[0x00, 0x00]),
        (at(Ready, 0x00), &[0x00, 0x37]),
        (at(Ready, 0x00), &[0x00, 0x38]),
        (at(Ready, 0x00), &[0x00, 0xFF]),
        (at(Ready, 0x00), &[0x34, 0x03]),
        (at(Ready, 0x00), &[0x37, 0x00]),
        (at(Ready, 0x00), &[0x37, 0x01]),
        (at(Ready, 0x00), &[0x38, 0x00]),
        (at(Ready, 0x00), &[0xFF, 0x01]),
        (at(Singulation, 0x01), &[0x07, 0x01]),
        (flagged(at(Inventoried, 0xFF)), &[0x08, 0x00]),
        (marked(1, permitted(0x37, at(Ready, 0x00))), &[0x01, 0x00]),
    ];
    listing(
        "READ_FLEXIBLE, from one byte to 256, in the same ways.",
        "FlexibleReads",
        &accesses(Name::ReadFlexible, &cases),
    )
}

fn verifies() -> Listing {
    let cases: [(Tag, &[u8]); 11] = [
        (marked(0, at(Ready, 0x00)), &[0x00]),
        (marked(1, at(Ready, 0x00)), &[0x00]),
        (marked(2, at(Ready, 0x00)), &[0x00]),
        (marked(2, at(Ready, 0x00)), &[0x34]),
        (marked(2, at(Ready, 0x00)), &[0x35]),
        (marked(2, at(Ready, 0xFF)), &[0x37]),
        (marked(2, at(Ready, 0x00)), &[0x38]),
        (marked(2, at(Ready, 0x00)), &[0xFF]),
        (marked(2, at(Singulation, 0x01)), &[0x08]),
        (
            marked(1, permitted(0x08, flagged(at(Inventoried, 0xFF)))),
            &[0x08],
        ),
        (marked(2, permitted(0x08, at(Inventoried, 0x00))), &[0x08]),
    ];
    listing(
        "VERIFY, with each mark, in the same ways.",
        "Verifies",
        &accesses(Name::Verify, &cases),
    )
}

/// The plain tag with a lock at one address only.
fn locked(address: usize, tag: Tag) -> Tag {
    let mut locks = Locks([0; 7]);
    locks.0[address / 8] = 0x80 >> (address % 8);
    Tag { locks, ..tag }
}

fn writes() -> Listing {
    let data = [1, 2, 3, 4];
    let parameters = |address, mask| [&[address, mask], data.as_slice()].concat();
    let cases = [
        (at(Ready, 0x00), parameters(0x00, 0xF0)),
        (locked(0x37, at(Ready, 0x00)), parameters(0x00, 0xF0)),
        (at(Ready, 0xFF), parameters(0x04, 0xFF)),
        (at(Ready, 0x00), parameters(0x34, 0x00)),
        (at(Ready, 0x00), parameters(0x34, 0x80)),
        (at(Ready, 0x00), parameters(0x34, 0x10)),
        (at(Ready, 0x00), parameters(0x34, 0x01)),
        (marked(2, at(Ready, 0x00)), parameters(0x37, 0xFF)),
        (marked(2, at(Ready, 0x00)), parameters(0x38, 0xFF)),
        (at(Ready, 0x00), parameters(0xFC, 0xFF)),
        (at(Ready, 0x00), parameters(0xFF, 0xFF)),
        (marked(1, at(Ready, 0x00)), parameters(0x02, 0xF0)),
        (locked(0x0B, at(Ready, 0x00)), parameters(0x08, 0xE0)),
        (locked(0x0C, at(Ready, 0x00)), parameters(0x08, 0xF0)),
        (at(Singulation, 0x01), parameters(0x08, 0xF0)),
        (
            permitted(0x0C, flagged(at(Inventoried, 0xFF))),
            parameters(0x08, 0x60),
        ),
    ];
    let cases: Vec<(Tag, &[u8])> = cases
        .iter()
        .map(|(tag, rest)| (tag.clone(), rest.as_slice()))
        .collect();
    listing(
        "WRITE, at the ends of the memory, off a multiple of 4, by single bits of the mask, and over locked bytes.",
        "Writes",
        &accesses(Name::Write, &cases),
    )
}

fn locks() -> Listing {
    let cases: [(Tag, &[u8]); 12] = [
        (at(Inventoried, 0x00), &[0x08]),
        (permitted(0x08, at(Inventoried, 0x00)), &[0x08]),
        (permitted(0x09, at(Inventoried, 0x00)), &[0x08]),
        (permitted(0x00, at(Inventoried, 0x00)), &[0x00]),
        (permitted(0x34, at(Inventoried, 0xFF)), &[0x34]),
        (permitted(0x37, at(Inventoried, 0x00)), &[0x37]),
        (marked(2, permitted(0x38, at(Inventoried, 0x00))), &[0x38]),
        (marked(2, permitted(0xFF, at(Inventoried, 0x00))), &[0xFF]),
        (marked(2, at(Inventoried, 0x00)), &[0x08]),
        (permitted(0x08, at(Ready, 0x00)), &[0x08]),
        (marked(1, permitted(0x08, at(Singulation, 0x01))), &[0x08]),
        (
            marked(1, permitted(0x02, flagged(at(Inventoried, 0x01)))),
            &[0x02],
        ),
    ];
    listing(
        "LOCK, with no permission, another and the same, at the ends of the memory and in each state.",
        "LocksTried",
        &accesses(Name::Lock, &cases),
    )
}

fn lock_queries() -> Listing {
    let cases: [(Tag, &[u8]); 12] = [
        (at(Ready, 0x00), &[0x00]),
        (at(Ready, 0x00), &[0x01]),
        (at(Ready, 0x00), &[0x02]),
        (marked(2, at(Ready, 0x00)), &[0x00]),
        (marked(2, at(Ready, 0x00)), &[0x02]),
        (marked(1, at(Ready, 0x00)), &[0x02]),
        (at(Ready, 0xFF), &[0x37]),
        (at(Ready, 0x00), &[0x38]),
        (marked(2, at(Ready, 0x00)), &[0xFF]),
        (locked(0x37, at(Singulation, 0x01)), &[0x37]),
        (locked(0x36, flagged(at(Inventoried, 0xFF))), &[0x37]),
        (marked(1, permitted(0x38, at(Inventoried, 0x00))), &[0x34]),
    ];
    listing(
        "QLOCK, of bytes that are locked, that are not, and that are not there, with each mark.",
        "LockQueries",
        &accesses(Name::QLock, &cases),
    )
}

fn no_frames() -> Listing {
    let busy = |state| marked(2, permitted(0x08, flagged(at(state, 0xFF))));
    let mut steps = Vec::new();
    for frame in [
        vec![],
        vec![0x08, 0x9F],
        vec![0x08, 0x9F, 0x06],
        sealed(&[0x01]),
        sealed(&[0x00]),
        sealed_with(Name::Query as u8, &[0x00]),
    ] {
        for state in [Singulation, Inventoried] {
            steps.push(step(busy(state), &frame, false));
        }
    }
    steps.push(step(marked(1, at(Ready, 0x00)), &[], true));
    listing(
        "Stubs, a wrong check value, an unknown code and wrong lengths.",
        "NoFrames",
        &steps,
    )
}
