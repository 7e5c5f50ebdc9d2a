//! Opening and making, with every refusal.

use super::listing::{file as file_of, row, Listing, Row};
use super::term::{byte, command, digits, number, parameter, stretch, Term};
use super::words::OLD;
use crate::frame::{make, open, sealed, sealed_with, Part, COMMANDS};

const HEAD: &str = "\
-- Opening and making at the limits, by the second implementation, which wrote this file. Assumes nothing.
use Prim.Native.String.{String}
use Rattle.std.specs.Prelude.{◌≡◌, ℕ, List, [], ◌∷◌, ◌++◌, replicate}
use Rattle.std.specs.List.{AllByRecursion}
use Rattle.protocol.specs.declared.command.Command.TheVariants.{Select, UnselectNe, UnselectIdFlag, UnselectNoidFlag}
use Rattle.protocol.specs.declared.command.Command.TheVariants.{Query, Scroll, Repeat, Reset, Read, Verify, Lock}
use Rattle.protocol.specs.declared.command.Command.TheVariants.{Qlock, ReadFlexible, Write}
use Rattle.protocol.specs.declared.command.Parameter.{Parameter}
use Rattle.protocol.specs.declared.command.Parameter.TheVariants.{Serial, Address, Mask, Word, Data, Length, Ignored}
use Rattle.protocol.specs.Refusals.{WriteResult, wrote, not_written}
use Rattle.frame.specs.Makings.{making, result_of, buffer_after}
use Rattle.frame.specs.Openings.{Opening, refused, opened, opening}
use Rattle.frame.specs.Parts.{Part}
use Rattle.frame.specs.Writing.{overlaid}
use Rattle.worked_cases.specs.Words.{bytes, used}

abbrev pub part : Parameter → ℕ → String → Part
part parameter offset held = record { parameter = parameter; offset = offset; bytes = bytes held }
";

/// The longest parameters of a command.
const MOST: usize = 14;

pub fn file() -> String {
    file_of(
        HEAD,
        &[opened_frames(), refused_frames(), makings(), laid_bytes()],
    )
}

/// So many bytes, no two alike.
fn counted(length: usize) -> Vec<u8> {
    (0..length).map(|place| place as u8 + 0x30).collect()
}

/// What opening shows, or the number of its refusal.
fn opening(bytes: &[u8]) -> Term {
    match open(bytes) {
        Err(refusal) => number(refusal as u8),
        Ok(opened) => {
            let parts: Vec<Term> = opened
                .parts
                .iter()
                .map(|part| part_term(part, bytes))
                .collect();
            let code = byte(opened.name as u8);
            Term::call("opened", &[code, command(opened.name), Term::list(&parts)])
        }
    }
}

fn part_term(part: &Part, frame: &[u8]) -> Term {
    let held = &frame[part.offset..part.offset + part.length];
    Term::call(
        "part",
        &[parameter(part.name), number(part.offset), digits(held)],
    )
}

fn opened_row(frame: &[u8]) -> Row {
    row(&[digits(frame), opening(frame)])
}

fn opened_frames() -> Listing {
    let frame = |command: &crate::frame::Command| {
        let parameters = counted(command.parameters_length());
        opened_row(&sealed_with(command.code, &parameters))
    };
    Listing {
        about: "A frame of each command, and what opening shows of it.",
        name: "OpenedFrames",
        law: "{X = String × Opening} (λ (frame, shown). opening (bytes frame) ≡ shown)".into(),
        rows: COMMANDS.iter().map(frame).collect(),
    }
}

fn refused_frames() -> Listing {
    let mut frames: Vec<Vec<u8>> = vec![
        vec![],
        vec![0x09],
        vec![0x00, 0x00],
        vec![0x09, 0x8F],
        vec![0x09, 0x8F, 0x27],
        vec![0x09, 0x26, 0x8F],
        vec![0x09, 0x70, 0xD9],
        vec![0x01, 0x00, 0x00],
    ];
    for code in [0x01, 0x04, 0x1C, 0x50, 0xFF] {
        frames.push(sealed(&[code]));
    }
    for (code, length) in [
        (0x00, 0),
        (0x00, 9),
        (0x08, 1),
        (0x19, 1),
        (0x0C, 10),
        (0x51, 9),
        (0x1B, MOST - 1),
        (0x1B, MOST + 1),
        (0xFF, MOST),
    ] {
        frames.push(sealed_with(code, &counted(length)));
    }
    Listing {
        about: "Byte strings that open as nothing, each with the number of its refusal.",
        name: "RefusedFrames",
        law: "{X = String × ℕ} (λ (frame, number). opening (bytes frame) ≡ refused number)".into(),
        rows: frames.iter().map(|frame| opened_row(frame)).collect(),
    }
}

fn made_row(code: u8, length: usize, room: usize) -> Row {
    let parameters = counted(length);
    let mut after = vec![OLD; room];
    let answer = match make(code, &parameters, &mut after) {
        Ok(length) => Term::call("wrote", &[number(length)]),
        Err(refusal) => Term::call("not_written", &[number(refusal as u8)]),
    };
    row(&[
        byte(code),
        digits(&parameters),
        number(room),
        answer,
        stretch(&after),
    ])
}

fn makings() -> Listing {
    let rows = [
        (0x09, 0, 3),
        (0x09, 0, 2),
        (0x09, 0, 0),
        (0x09, 0, 8),
        (0x00, 10, 13),
        (0x00, 10, 12),
        (0x19, 2, 6),
        (0x51, 10, 13),
        (0x1B, MOST, 17),
        (0x1B, MOST, 16),
        (0x1B, MOST, 24),
        (0x1B, MOST - 1, 17),
        (0x1B, MOST + 1, 0),
        (0x08, 1, 8),
        (0x01, 0, 8),
        (0xFF, MOST + 3, 0),
    ];
    Listing {
        about: "A code and parameters, how long the buffer is, the answer of making, and the buffer after it: with room enough, with\n-- room one byte short, and with what makes no frame.",
        name: "MadeFrames",
        law: "{X = ℕ × String × ℕ × WriteResult × List ℕ}\n    (λ (code, parameters, room, answer, after).\n    (result_of (making code (bytes parameters) room) ≡ answer)\n    × (buffer_after (making code (bytes parameters) room) (used room) ≡ after))".into(),
        rows: rows
            .iter()
            .map(|&(code, length, room)| made_row(code, length, room))
            .collect(),
    }
}

fn laid_bytes() -> Listing {
    let laid = |&(room, place, length): &(usize, usize, usize)| {
        let given = counted(length);
        let mut after = vec![OLD; room];
        after[place..place + length].copy_from_slice(&given);
        row(&[number(room), number(place), digits(&given), stretch(&after)])
    };
    Listing {
        about: "How long a buffer is, a place in it, bytes, and the buffer once they are overlaid over it there.",
        name: "LaidBytes",
        law: "{X = ℕ × ℕ × String × List ℕ}\n    (λ (room, place, given, after). overlaid (used room) place (bytes given) ≡ after)".into(),
        rows: [
            (0, 0, 0),
            (4, 0, 0),
            (4, 4, 0),
            (4, 0, 4),
            (4, 3, 1),
            (9, 2, 3),
        ]
        .iter()
        .map(laid)
        .collect(),
    }
}

#[cfg(test)]
mod tests {
    use super::*;
    use crate::frame::Refusal;

    #[test]
    fn every_refusal_of_opening_is_listed() {
        let text = file();
        for refusal in [
            Refusal::TooShort,
            Refusal::WrongCheck,
            Refusal::UnknownCode,
            Refusal::WrongLength,
        ] {
            assert!(text.contains(&format!("\", {})", refusal as u8)));
        }
    }
}
