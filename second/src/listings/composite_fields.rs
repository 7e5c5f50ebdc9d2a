//! Pairs and spoilers.

use super::crowd::{bench, heard, hearing, hearing_term, selected, tags_in, tags_term, toss};
use super::listing::{file as file_of, row, Listing};
use super::term::{maybe, number, wide};
use crate::field::Hearing;
use crate::layers::{Pair, Spoiler};

const HEAD: &str = "\
-- Pairs and spoilers at the limits, by the second implementation, which wrote this file. Assumes nothing.
use Rattle.std.specs.Prelude.{◌≡◌, ℕ, cond, List, [], ◌∷◌, Some, None, Option}
use Rattle.std.specs.List.{AllByRecursion}
use Rattle.record.specs.declared.State.TheVariants.{Singulation}
use Rattle.record.specs.declared.Tag.{Tag}
use Rattle.field.specs.declared.hearing.Hearing.{Hearing}
use Rattle.field.specs.declared.hearing.Hearing.TheVariants.{Silence, Lone, Clash}
use Rattle.field.specs.Sends.{row_behind}
use Rattle.composite_fields.specs.Pairs.{fits, paired}
use Rattle.composite_fields.specs.Spoilers.{lone_count, spoiled}
use Rattle.worked_cases.specs.Words.{numbered, numbered_from}

-- The tags of a pair, if it is made.
abbrev pub pair_made : List Tag → List Tag → Option (List Tag)
pair_made left right = cond (fits left right) (Some (paired left right)) None
";

pub fn file() -> String {
    let listings = [pairs(), rows_behind(), lones(), spoils()];
    file_of(HEAD, &listings)
}

fn pairs() -> Listing {
    let sides = [
        (0, 0),
        (0, 1),
        (1, 0),
        (2, 1),
        (0, 64),
        (64, 0),
        (63, 1),
        (64, 1),
        (1, 64),
        (32, 33),
    ];
    let paired = |&(left, right): &(u8, u8)| {
        let (left, right) = (selected(0..left), selected(left..left + right));
        let pair = Pair::new(bench(left.clone()), bench(right.clone()));
        let tags = pair.ok().map(|pair| tags_term(&tags_in(&pair)));
        row(&[tags_term(&left), tags_term(&right), maybe(tags)])
    };
    Listing {
        about: "Two sides, and the tags of the pair, if there are not too many for one.",
        name: "PairsMade",
        law: "{X = List Tag × List Tag × Option (List Tag)} (λ (left, right, made). pair_made left right ≡ made)".into(),
        rows: sides.iter().map(paired).collect(),
    }
}

/// What so many tags that answer are heard as.
fn heard_alone(count: u8) -> Hearing {
    heard(&mut bench(selected(0..count)), hearing)
}

fn rows_behind() -> Listing {
    let mut rows = Vec::new();
    for border in [0, 1, 63, 64] {
        for coins in [1, 1 << 63, u64::MAX] {
            let (left, right) = (bench(selected(0..border)), bench(selected(border..64)));
            let mut pair = Pair::new(left, right).expect("64 places are not too many");
            toss(&mut pair, coins);
            let right = tags_in(&pair).split_off(border.into());
            let behind = right
                .iter()
                .rev()
                .fold(0, |row, tag| row << 1 | u64::from(tag.counter));
            rows.push(row(&[number(border), wide(coins), wide(behind)]));
        }
    }
    Listing {
        about:
            "How many places there are on the left of a pair, its row, and the row of its right.",
        name: "RowsBehind",
        law: "{X = ℕ × ℕ × ℕ} (λ (border, row, behind). row_behind border row ≡ behind)".into(),
        rows,
    }
}

/// What a spoiler hears of a bench that it hears so many lone replies of before.
fn spoiled_after(period: u16, before: u32, count: u8) -> Hearing {
    let mut spoiler = Spoiler::new(period, bench(selected(0..1))).expect("there is a period");
    for _ in 0..before {
        heard(&mut spoiler, hearing);
    }
    let mut next = spoiler.over(bench(selected(0..count)));
    heard(&mut next, hearing)
}

fn lones() -> Listing {
    let counted = |count: u8| {
        let spoiler = Spoiler::new(2, bench(selected(0..count)));
        let mut spoiler = spoiler.expect("there is a period");
        heard(&mut spoiler, hearing);
        let mut next = spoiler.over(bench(selected(0..1)));
        let is_second = heard(&mut next, hearing) == Hearing::Clash;
        row(&[
            hearing_term(heard_alone(count)),
            number(u8::from(is_second)),
        ])
    };
    Listing {
        about: "What is heard from below, and how many lone replies that is.",
        name: "LonesCounted",
        law: "{X = Hearing × ℕ} (λ (below, count). lone_count below ≡ count)".into(),
        rows: [0, 1, 2].map(counted).into(),
    }
}

fn spoils() -> Listing {
    let cases = [
        (1, 1, 1),
        (1, 2, 1),
        (1, 1, 0),
        (1, 1, 2),
        (2, 1, 1),
        (2, 2, 1),
        (2, 3, 1),
        (2, 4, 1),
        (2, 2, 0),
        (2, 2, 2),
        (3, 2, 1),
        (3, 3, 1),
        (u16::MAX, 65_534, 1),
        (u16::MAX, 65_535, 1),
        (u16::MAX, 65_536, 1),
    ];
    let spoiled = |&(period, which, count): &(u16, u32, u8)| {
        let heard = spoiled_after(period, which - 1, count);
        row(&[
            number(period),
            number(which),
            hearing_term(heard_alone(count)),
            hearing_term(heard),
        ])
    };
    Listing {
        about:
            "A period, which lone reply it would be, what is heard from below, and what is heard.",
        name: "HeardSpoiled",
        law: "{X = ℕ × ℕ × Hearing × Hearing}\n    (λ (period, which, below, heard). spoiled period which below ≡ heard)".into(),
        rows: cases.iter().map(spoiled).collect(),
    }
}
