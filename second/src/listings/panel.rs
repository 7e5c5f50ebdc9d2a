//! What the panel is shown of a frame.

use super::listing::{file as file_of, row_by, Listing, Row};
use super::term::{number, single_stretch};
use super::words::OLD;
use crate::frame::{open, sealed, sealed_with, Opened, Refusal, COMMANDS};

const HEAD: &str = "\
-- What the panel is shown at the limits, by the second implementation, which wrote this file. Assumes nothing.
use Rattle.std.specs.Prelude.{◌≡◌, ℕ, List, [], ◌∷◌, ◌++◌, replicate}
use Rattle.std.specs.List.{AllByRecursion}
use Rattle.frame.specs.Openings.{opening}
use Rattle.panel.specs.Shown.{status_of, shown_after}

-- A frame, how many bytes the panel has, the answer, and those bytes after it.
abbrev pub shown : List ℕ → ℕ → ℕ → List ℕ → List ℕ × ℕ × ℕ × List ℕ
shown frame room answer after = (frame, room, answer, after)
";

/// The parameters in the order in which the panel has them.
const PLACES: [&str; 7] = [
    "SNR",
    "ADDRESS",
    "BYTE_MASK",
    "WORD_DATA",
    "BLOCK_DATA",
    "LENGTH",
    "IGNORED",
];

/// The code, and two bytes for each parameter.
const SHOWN: usize = 1 + 2 * PLACES.len();

pub fn file() -> String {
    file_of(HEAD, &[shown_frames()])
}

fn shown(opened: &Opened) -> [u8; SHOWN] {
    let mut shown = [0; SHOWN];
    shown[0] = opened.name as u8;
    for part in &opened.parts {
        let place = PLACES.iter().position(|&name| name == part.name);
        let first = 1 + 2 * place.expect("every parameter has a place");
        shown[first] = part.offset as u8;
        shown[first + 1] = part.length as u8;
    }
    shown
}

/// What the panel is answered: 0, or the number of a refusal.
fn show(frame: &[u8], buffer: &mut [u8]) -> Result<(), Refusal> {
    let opened = open(frame)?;
    let front = buffer.get_mut(..SHOWN).ok_or(Refusal::NoRoom)?;
    front.copy_from_slice(&shown(&opened));
    Ok(())
}

fn row(frame: &[u8], room: usize) -> Row {
    let mut after = vec![OLD; room];
    let answer = show(frame, &mut after)
        .err()
        .map_or(0, |refusal| refusal as u8);
    row_by(
        "shown",
        &[
            single_stretch(frame),
            number(room),
            number(answer),
            single_stretch(&after),
        ],
    )
}

fn shown_frames() -> Listing {
    let mut rows: Vec<Row> = COMMANDS
        .iter()
        .map(|command| {
            let parameters = vec![0x5A; command.parameters_length()];
            row(&sealed_with(command.code, &parameters), SHOWN)
        })
        .collect();
    let query = sealed(&[0x08]);
    for room in [SHOWN + 1, SHOWN - 1, 0] {
        rows.push(row(&query, room));
    }
    for frame in [
        vec![],
        vec![0x09, 0x8F, 0x27],
        sealed(&[0x01]),
        sealed(&[0x00]),
    ] {
        rows.push(row(&frame, SHOWN));
        rows.push(row(&frame, 0));
    }
    Listing {
        about: "A frame of each command, room that is longer and one byte short, and each refusal.",
        name: "ShownFrames",
        law: "{X = List ℕ × ℕ × ℕ × List ℕ}\n    (λ (frame, room, answer, after). (status_of (opening frame) room ≡ answer)\n    × (shown_after (opening frame) (replicate room 0xa5) ≡ after))".into(),
        rows,
    }
}
