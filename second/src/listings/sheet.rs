//! Printed sheets, line by line.

use super::listing::{file as file_of, row, Listing, Row};
use super::term::{digits, number, stretch, text, Term};
use super::words::{report_term, slots_term, OLD};
use crate::field::Hearing;
use crate::frame::{Name, Refusal};
use crate::order::Serial;
use crate::sheet::Sheet;
use crate::sweep::{Outcome, Slot, Stop};

const HEAD: &str = "\
-- Sheets at the limits, by the second implementation, which wrote this file. Assumes nothing.
use Prim.Native.String.{String}
use Rattle.std.specs.Prelude.{◌≡◌, ℕ, List, [], ◌∷◌, ◌++◌, map, replicate, codes}
use Rattle.std.specs.List.{flat_map, AllByRecursion}
use Rattle.protocol.specs.declared.command.Command.{Command}
use Rattle.protocol.specs.declared.command.Command.TheVariants.{Select, Query, Scroll, Write}
use Rattle.protocol.specs.Refusals.{WriteResult, wrote, not_written}
use Rattle.frame.specs.Makings.{result_of, buffer_after, writing}
use Rattle.field.specs.declared.hearing.Hearing.{Hearing}
use Rattle.field.specs.declared.hearing.Hearing.TheVariants.{Silence, Lone, Clash}
use Rattle.slot.specs.declared.ending.End.TheVariants.{Whole, Stopped}
use Rattle.slot.specs.declared.ending.Report.{Report}
use Rattle.slot.specs.declared.ending.Stop.TheVariants.{Deep, Spent, Full}
use Rattle.sheet.specs.Sheets.{column, sheet}
use Rattle.worked_cases.specs.Words.{bytes, used, slot_row, report_of}

-- Texts, each ended by a line feed.
abbrev pub lines : List String → List ℕ
lines texts = flat_map (λ text. codes text ++ 10 ∷ []) texts

-- The sheet of one line whose rooms are tried.
abbrev pub short_sheet : List ℕ
short_sheet = sheet [] [] (report_of Whole 1 0 0 3)
";

pub fn file() -> String {
    file_of(HEAD, &[columns(), sheets(), rooms()])
}

fn columns() -> Listing {
    let mut rows = Vec::new();
    for (width, of_width) in [(6, "6"), (4, "4")] {
        for value in [
            0, 7, 10, 99, 100, 255, 9_999, 10_000, 65_535, 999_999, 1_000_000,
        ] {
            let printed = format!("{value:width$}");
            rows.push(row(&[number(of_width), number(value), text(&printed)]));
        }
    }
    Listing {
        about: "A width, a number of one to seven digits, and its column.",
        name: "Columns",
        law: "{X = ℕ × ℕ × String} (λ (width, number, text). column width number ≡ codes text)"
            .into(),
        rows,
    }
}

fn sheet_row(slots: &[Slot], serials: &[Serial], outcome: Outcome) -> Row {
    let sheet = Sheet {
        slots,
        serials,
        outcome,
    };
    let printed = sheet.to_string();
    row(&[
        slots_term(slots),
        Term::list(
            &serials
                .iter()
                .map(|serial| digits(serial))
                .collect::<Vec<_>>(),
        ),
        report_term(&outcome),
        lines_term(&printed),
    ])
}

fn lines_term(printed: &str) -> Term {
    Term::list(&printed.lines().map(text).collect::<Vec<_>>())
}

fn slot(name: Name, hearing: Hearing, waiting: u8) -> Slot {
    Slot {
        name,
        hearing,
        waiting,
    }
}

fn outcome(end: Result<(), Stop>, slots: [usize; 3], commands: u16) -> Outcome {
    let [lone, silent, clash] = slots;
    Outcome {
        end,
        lone,
        silent,
        clash,
        commands,
    }
}

fn sheets() -> Listing {
    let spent = Err(Stop::Spent);
    let two = [
        slot(Name::Select, Hearing::Clash, 0),
        slot(Name::Query, Hearing::Lone, 1),
        slot(Name::Scroll, Hearing::Lone, 0),
    ];
    let found = |last| [239, 4, 0, 0, 0, 0, 0, last];
    let mixed = [
        slot(Name::Write, Hearing::Silence, 255),
        slot(Name::Query, Hearing::Clash, 99),
    ];
    let ten = [slot(Name::Scroll, Hearing::Silence, 10); 10];
    Listing {
        about: "Sheets with no line but the last, with slots and serial numbers, and with numbers of one to seven digits.",
        name: "SheetsPrinted",
        law: "{X = List (Command × Hearing × ℕ) × List String × Report × List String}\n    (λ (slots, serials, report, printed). sheet (map slot_row slots) (map bytes serials) report ≡ lines printed)".into(),
        rows: vec![
            sheet_row(&[], &[], outcome(Ok(()), [0, 0, 0], 0)),
            sheet_row(&[], &[], outcome(spent, [1, 12, 123], 1_234)),
            sheet_row(&[], &[], outcome(Err(Stop::TooDeep), [12_345, 123_456, 1_234_567], u16::MAX)),
            sheet_row(&[], &[], outcome(Err(Stop::Full), [999_999, 1_000_000, 65_535], 10)),
            sheet_row(&two, &[found(1), found(2)], outcome(Ok(()), [2, 0, 1], 6)),
            sheet_row(&two[..1], &[], outcome(spent, [0, 0, 1], 1)),
            sheet_row(&mixed, &[[0, 1, 9, 10, 99, 100, 254, 255]], outcome(spent, [0, 1, 1], 2)),
            sheet_row(&[], &[[0; 8], [255; 8]], outcome(spent, [0, 0, 0], 0)),
            sheet_row(&ten, &[], outcome(Err(Stop::Full), [0, 10, 0], 10)),
        ],
    }
}

fn rooms() -> Listing {
    let outcome = outcome(Ok(()), [1, 0, 0], 3);
    let sheet = Sheet {
        slots: &[],
        serials: &[],
        outcome,
    };
    let printed = sheet.to_string();
    let printing = |&room: &usize| {
        let Some(behind) = room.checked_sub(printed.len()) else {
            let answer = Term::call("not_written", &[number(Refusal::NoRoom as u8)]);
            return row(&[number(room), answer, stretch(&vec![OLD; room])]);
        };
        let answer = Term::call("wrote", &[number(printed.len())]);
        let lines = Term::call("lines", &[lines_term(&printed)]);
        if behind == 0 {
            return row(&[number(room), answer, lines]);
        }
        let after = Term::joined(&[lines, stretch(&vec![OLD; behind])]);
        row(&[number(room), answer, after])
    };
    Listing {
        about: "How long a buffer is, the answer of writing a sheet of one line, and the buffer after it.",
        name: "SheetRooms",
        law: "{X = ℕ × WriteResult × List ℕ}\n    (λ (room, answer, after). (result_of (writing short_sheet room) ≡ answer)\n    × (buffer_after (writing short_sheet room) (used room) ≡ after))".into(),
        rows: [31, 30, 0, 33].iter().map(printing).collect(),
    }
}
