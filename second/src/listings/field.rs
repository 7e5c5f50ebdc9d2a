//! Sends to tables of tags, what is on the air, and coins.

use super::crowd::{
    air, bench, heard, hearing, hearing_term, query, selected, tags_in, tags_term, toss,
};
use super::listing::{file as file_of, row, row_by, Listing, Row};
use super::term::{digits, number, stretch, text, truth, wide, Term};
use super::words::OLD;
use crate::field::{Field, Hearing, REPLY_ROOM};
use crate::frame::{sealed_with, Name};
use crate::layers::{Pair, Spoiler};
use crate::tag::Tag;

const HEAD: &str = "\
-- Sends and gaps at the limits, by the second implementation, which wrote this file. Assumes nothing.
use Prim.Native.String.{String}
use Rattle.std.specs.Prelude.{◌≡◌, ℕ, Bool, true, false, cond, List, [], ◌∷◌, ◌++◌, replicate, Some, Ok, Err}
use Rattle.std.specs.Prelude.{codes, Result}
use Rattle.std.specs.List.{AllByRecursion}
use Rattle.protocol.specs.declared.refusal.Refusal.{Refusal}
use Rattle.protocol.specs.declared.refusal.Refusal.TheVariants.{Buffer}
use Rattle.frame.specs.Openings.{opening}
use Rattle.record.specs.declared.State.TheVariants.{Ready, Singulation, Inventoried}
use Rattle.record.specs.declared.Tag.{Tag}
use Rattle.field.specs.declared.hearing.Hearing.{Hearing}
use Rattle.field.specs.declared.hearing.Hearing.TheVariants.{Silence, Lone, Clash}
use Rattle.field.specs.Airs.{Air, silent, one, many, mixed, hearing_number, hearing_name, MayHear}
use Rattle.field.specs.Airs.{plain_hearing, together}
use Rattle.field.specs.Sends.{coin_at, on_air, is_short, tags_after_send, buffer_after_send}
use Rattle.worked_cases.specs.Words.{bytes, used, numbered, numbered_from}

-- What a send gives where every lone reply is heard as lone.
abbrev pub given : ℕ → Air → Result Hearing Refusal
given room air = cond (is_short room) (Err Buffer) (Ok (plain_hearing air))

-- Tags, a frame, a row of coins, how long the reply buffer is; then the tags after the send, what is heard where every
-- lone reply is heard as lone, and the buffer after it.
abbrev pub SendCase : Type 0
SendCase = List Tag × String × ℕ × ℕ × List Tag × Result Hearing Refusal × List ℕ

abbrev pub Sent : SendCase → Type 0
Sent (before, frame, row, room, after, result, left) =
    let air = on_air (opening (bytes frame)) row before in
    (tags_after_send room (bytes frame) row before ≡ after) × (given room air ≡ result)
    × (buffer_after_send result air (used room) ≡ left)

abbrev pub send : List Tag → String → ℕ → ℕ → List Tag → Result Hearing Refusal → List ℕ → SendCase
send before frame row room after result left = (before, frame, row, room, after, result, left)
";

pub fn file() -> String {
    let listings = [
        sends(),
        coins(),
        airs(),
        heard_airs(),
        hearings(),
        together(),
    ];
    file_of(HEAD, &listings)
}

fn send_row(before: Vec<Tag>, frame: &[u8], coins: u64, room: usize) -> Row {
    let mut field = bench(before.clone());
    let mut buffer = vec![OLD; room];
    let result = match field.send(frame, coins, &mut buffer) {
        Ok(heard) => Term::call("Ok", &[hearing_term(heard)]),
        Err(_) => Term::call("Err", &[Term::word("Buffer")]),
    };
    row_by(
        "send",
        &[
            tags_term(&before),
            digits(frame),
            wide(coins),
            number(room),
            tags_term(&tags_in(&field)),
            result,
            stretch(&buffer),
        ],
    )
}

fn sends() -> Listing {
    let query = query();
    let read = |number| sealed_with(Name::Read as u8, &[0, 0, 0, 0, 0, 0, 0, number, 0x00]);
    let longest = sealed_with(Name::ReadFlexible as u8, &[0, 0, 0, 0, 0, 0, 0, 1, 0, 0xFF]);
    let last = 1 << 63;
    Listing {
        about: "Sends to no tag, one, two and 64, at both ends of a row, and with buffers that are short, exact and long.",
        name: "Sends",
        law: "Sent".into(),
        rows: vec![
            send_row(vec![], &query, 0, REPLY_ROOM),
            send_row(selected(1..2), &query, 0, REPLY_ROOM),
            send_row(selected(1..2), &query, 1, REPLY_ROOM),
            send_row(selected(1..2), &query, 2, REPLY_ROOM),
            send_row(selected(1..3), &query, 0, REPLY_ROOM),
            send_row(selected(1..3), &query, 1, REPLY_ROOM + 2),
            send_row(selected(1..3), &query, 2, REPLY_ROOM),
            send_row(selected(1..3), &query, u64::MAX, REPLY_ROOM),
            send_row(selected(1..3), &query, 0, REPLY_ROOM - 1),
            send_row(selected(1..2), &query, 1, 0),
            send_row(selected(1..3), &read(2), 0, REPLY_ROOM),
            send_row(selected(1..3), &longest, 0, REPLY_ROOM + 2),
            send_row(selected(1..3), &[], 0, REPLY_ROOM),
            send_row(selected(0..64), &query, last, REPLY_ROOM),
            send_row(selected(0..64), &query, u64::MAX - last, REPLY_ROOM),
        ],
    }
}

fn coins() -> Listing {
    let mut rows = Vec::new();
    for coins in [1, 2, 1 << 63, u64::MAX - 1] {
        let mut field = bench(selected(0..64));
        toss(&mut field, coins);
        for place in [0, 1, 62, 63] {
            let lost = field.tag(place).counter > 0;
            rows.push(row(&[wide(coins), number(place), truth(lost)]));
        }
    }
    Listing {
        about: "A row of coins, a place, and its coin.",
        name: "Coins",
        law: "{X = ℕ × ℕ × Bool} (λ (row, place, coin). coin_at row place ≡ coin)".into(),
        rows,
    }
}

fn hearings() -> Listing {
    let listed = |each: Hearing| {
        row(&[
            hearing_term(each),
            number(each as u8),
            text(&each.to_string()),
        ])
    };
    Listing {
        about: "The hearings, with their numbers and names.",
        name: "HearingsListed",
        law: "{X = Hearing × ℕ × String}\n    (λ (hearing, number, name). (hearing_number hearing ≡ number) × (hearing_name hearing ≡ codes name))".into(),
        rows: [Hearing::Silence, Hearing::Lone, Hearing::Clash]
            .map(listed)
            .into(),
    }
}

/// Groups of which none, one and two answer.
fn groups(first: u8) -> [Vec<Tag>; 3] {
    [0, 1, 2].map(|count| selected(first..first + count))
}

fn airs() -> Listing {
    let mut rows = Vec::new();
    for left in groups(1) {
        for right in groups(8) {
            let all = [left.clone(), right.clone()].concat();
            let on_air = |tags: Vec<Tag>| heard(&mut bench(tags), air);
            rows.push(row(&[on_air(left.clone()), on_air(right), on_air(all)]));
        }
    }
    Listing {
        about: "What two groups of tags put on the air, and what they do together.",
        name: "MixedAirs",
        law: "{X = Air × Air × Air} (λ (left, right, both). mixed left right ≡ both)".into(),
        rows,
    }
}

fn heard_airs() -> Listing {
    let mut rows = Vec::new();
    for group in groups(1) {
        let on_air = heard(&mut bench(group.clone()), air);
        let plain = heard(&mut bench(group.clone()), hearing);
        let mut spoiler = Spoiler::new(1, bench(group)).expect("there is a period");
        let spoiled = heard(&mut spoiler, hearing);
        let plainly = hearing_term(plain);
        rows.push(row(&[on_air.clone(), plainly.clone(), plainly.clone()]));
        if spoiled != plain {
            rows.push(row(&[on_air, hearing_term(spoiled), plainly]));
        }
    }
    Listing {
        about: "What is on the air, what is heard of it by a bench or by a spoiler of all, and what a bench hears.",
        name: "HeardAirs",
        law: "{X = Air × Hearing × Hearing} (λ (air, any, plain). MayHear air any × (plain_hearing air ≡ plain))".into(),
        rows,
    }
}

fn together() -> Listing {
    let mut rows = Vec::new();
    for left in groups(1) {
        for right in groups(8) {
            let alone = [&left, &right].map(|side| heard(&mut bench(side.clone()), hearing));
            let pair = Pair::new(bench(left.clone()), bench(right));
            let mut pair = pair.expect("there are not too many places");
            let both = heard(&mut pair, hearing);
            rows.push(row(&[alone[0], alone[1], both].map(hearing_term)));
        }
    }
    Listing {
        about: "What two groups are heard as alone, and at once.",
        name: "HeardTogether",
        law:
            "{X = Hearing × Hearing × Hearing} (λ (left, right, both). together left right ≡ both)"
                .into(),
        rows,
    }
}
