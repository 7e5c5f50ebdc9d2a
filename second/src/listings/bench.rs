//! Looking a serial number up in a table, and gaps for all tags of one.

use super::crowd::{bench, numbered, selected, tags_in, tags_term};
use super::listing::{file as file_of, row, Listing, Row};
use super::term::{digits, maybe, number};
use crate::field::Field;
use crate::order::Serial;
use crate::tag::{State, Tag};

const HEAD: &str = "\
-- Tables at the limits, by the second implementation, which wrote this file. Assumes nothing.
use Prim.Native.String.{String}
use Rattle.std.specs.Prelude.{◌≡◌, ℕ, List, [], ◌∷◌, Some, None, Option}
use Rattle.std.specs.List.{AllByRecursion}
use Rattle.record.specs.declared.State.TheVariants.{Ready, Singulation, Inventoried}
use Rattle.record.specs.declared.Tag.{Tag}
use Rattle.field.specs.Sends.{after_gap_all}
use Rattle.bench.specs.Tables.{place_of}
use Rattle.worked_cases.specs.Words.{bytes, flagged, numbered, numbered_from}
";

pub fn file() -> String {
    file_of(HEAD, &[finds(), gaps()])
}

fn find(table: &[Tag], serial: &Serial) -> Row {
    let place = table.iter().position(|tag| tag.serial() == serial);
    row(&[tags_term(table), digits(serial), maybe(place.map(number))])
}

fn finds() -> Listing {
    let ends = |last| [0, 0, 0, 0, 0, 0, 0, last];
    let twice = [
        numbered(2, State::Ready, 0),
        numbered(1, State::Singulation, 0xFF),
        numbered(1, State::Inventoried, 0),
    ];
    let full = selected(0..64);
    Listing {
        about: "Tables of none to 64 tags, a serial number, and the first place that has it.",
        name: "Finds",
        law: "{X = List Tag × String × Option ℕ} (λ (table, serial, place). place_of table (bytes serial) ≡ place)".into(),
        rows: vec![
            find(&[], &ends(0)),
            find(&selected(1..2), &ends(1)),
            find(&selected(1..2), &ends(2)),
            find(&selected(1..3), &ends(2)),
            find(&selected(1..3), &[1, 0, 0, 0, 0, 0, 0, 2]),
            find(&twice, &ends(1)),
            find(&twice, &ends(2)),
            find(&full, &ends(0)),
            find(&full, &ends(63)),
            find(&full, &ends(64)),
        ],
    }
}

fn gaps() -> Listing {
    let busy = |number| Tag {
        id_flag: true,
        ..numbered(number, State::Inventoried, 0xFF)
    };
    let mut rows = Vec::new();
    for before in [
        vec![],
        vec![busy(1)],
        vec![busy(1), numbered(2, State::Singulation, 1)],
    ] {
        for microseconds in [249, 250, 3_999_999, 4_000_000] {
            let mut field = bench(before.clone());
            field.gap(microseconds);
            rows.push(row(&[
                tags_term(&before),
                number(microseconds),
                tags_term(&tags_in(&field)),
            ]));
        }
    }
    Listing {
        about: "Tags, a gap in microseconds, and the tags after it.",
        name: "GapsForAll",
        law: "{X = List Tag × ℕ × List Tag}\n    (λ (before, microseconds, after). after_gap_all microseconds before ≡ after)".into(),
        rows,
    }
}
