//! Commands, parameters and refusals, each whole, and codes that no command has.

use super::listing::{file as file_of, row, Listing, Row};
use super::term::{byte, command, number, parameter, text, Term};
use crate::cases::UNKNOWN_CODES;
use crate::field;
use crate::frame::{self, Command, Name, COMMANDS};
use crate::sweep;

const HEAD: &str = "\
-- The words of the protocol, by the second implementation, which wrote this file. Assumes nothing.
use Prim.Native.String.{String}
use Rattle.std.specs.Prelude.{◌≡◌, ℕ, List, [], ◌∷◌, map, Some, None, codes}
use Rattle.std.specs.List.{AllByRecursion}
use Rattle.protocol.specs.declared.command.Command.{Command}
use Rattle.protocol.specs.declared.command.Command.TheVariants.{Select, UnselectNe, UnselectIdFlag, UnselectNoidFlag}
use Rattle.protocol.specs.declared.command.Command.TheVariants.{Query, Scroll, Repeat, Reset, Read, Verify, Lock}
use Rattle.protocol.specs.declared.command.Command.TheVariants.{Qlock, ReadFlexible, Write}
use Rattle.protocol.specs.declared.command.Parameter.{Parameter}
use Rattle.protocol.specs.declared.command.Parameter.TheVariants.{Serial, Address, Mask, Word, Data, Length, Ignored}
use Rattle.protocol.specs.declared.refusal.Refusal.{Refusal}
use Rattle.protocol.specs.declared.refusal.Refusal.TheVariants as refusal
use Rattle.protocol.specs.Commands.{code_of, layout, size_of, length_of, commands}
use Rattle.protocol.specs.Commands.{command_with_code, entry_of, first_entry}
use Rattle.protocol.specs.Names.{command_name, parameter_name, refusal_name}
use Rattle.protocol.specs.Refusals.{number_of}
";

/// What is said of a command, and what is found by its code.
const COMMAND_LAW: &str = "{X = Command × String × ℕ × List Parameter × ℕ}
    (λ (command, name, code, parameters, length).
    (command_name command ≡ codes name) × (code_of command ≡ code) × (layout command ≡ parameters)
    × (length_of command ≡ length) × (command_with_code code ≡ Some command)
    × (first_entry code (map entry_of commands)
    ≡ Some (record { command = command; code = code; length = length })))";

pub fn file() -> String {
    file_of(
        HEAD,
        &[commands(), unknown_codes(), parameters(), refusals()],
    )
}

/// As the chip's users know them.
fn name(name: Name) -> &'static str {
    match name {
        Name::Select => "SELECT",
        Name::UnselectNe => "UNSELECT_NE",
        Name::UnselectIdFlag => "UNSELECT_ID_FLAG",
        Name::UnselectNoIdFlag => "UNSELECT_NOID_FLAG",
        Name::Query => "QUERY",
        Name::Scroll => "SCROLL",
        Name::Repeat => "REPEAT",
        Name::Reset => "RESET",
        Name::Read => "READ",
        Name::Verify => "VERIFY",
        Name::Lock => "LOCK",
        Name::QLock => "QLOCK",
        Name::ReadFlexible => "READ_FLEXIBLE",
        Name::Write => "WRITE",
    }
}

fn commands() -> Listing {
    let listed = |each: &Command| {
        let parameters: Vec<Term> = each
            .parts()
            .iter()
            .map(|part| parameter(part.name))
            .collect();
        row(&[
            command(each.name),
            text(name(each.name)),
            byte(each.code),
            Term::list(&parameters),
            number(each.frame_length()),
        ])
    };
    Listing {
        about: "The fourteen commands, each with its name, its code, its parameters in their order, and its frame's length.",
        name: "CommandsListed",
        law: COMMAND_LAW.into(),
        rows: COMMANDS.iter().map(listed).collect(),
    }
}

fn unknown_codes() -> Listing {
    Listing {
        about: "Codes that no command has, most of them one bit away from one.",
        name: "UnknownCodes",
        law: "(λ code. (command_with_code code ≡ None) × (first_entry code (map entry_of commands) ≡ None))"
            .into(),
        rows: UNKNOWN_CODES
            .iter()
            .map(|&code| row(&[byte(code)]))
            .collect(),
    }
}

fn parameters() -> Listing {
    let mut rows: Vec<Row> = Vec::new();
    for part in COMMANDS.iter().flat_map(Command::parts) {
        let row = row(&[parameter(part.name), text(part.name), number(part.length)]);
        if !rows.contains(&row) {
            rows.push(row);
        }
    }
    Listing {
        about: "The parameters, with their names and how many bytes each has.",
        name: "ParametersListed",
        law: "{X = Parameter × String × ℕ}\n    (λ (parameter, name, size). (parameter_name parameter ≡ codes name) × (size_of parameter ≡ size))".into(),
        rows,
    }
}

/// The refusals by the words for them, with their numbers.
pub const REFUSALS: [(&str, u8); 8] = [
    ("Stub", frame::Refusal::TooShort as u8),
    ("Check", frame::Refusal::WrongCheck as u8),
    ("Code", frame::Refusal::UnknownCode as u8),
    ("Length", frame::Refusal::WrongLength as u8),
    ("Buffer", frame::Refusal::NoRoom as u8),
    ("Crowd", field::Refusal::TooManyPlaces as u8),
    ("Coins", sweep::Refusal::WrongNumberOfRows as u8),
    ("Period", field::Refusal::NoPeriod as u8),
];

/// A refusal by the word for it.
pub fn refusal(word: &str) -> Term {
    Term::word(format!("refusal.{word}"))
}

fn refusals() -> Listing {
    let listed = |&(word, of_it): &(&str, u8)| {
        row(&[refusal(word), number(of_it), text(&word.to_lowercase())])
    };
    Listing {
        about: "The refusals, with their numbers and names.",
        name: "RefusalsListed",
        law: "{X = Refusal × ℕ × String}\n    (λ (refusal, number, name). (number_of refusal ≡ number) × (refusal_name refusal ≡ codes name))".into(),
        rows: REFUSALS.iter().map(listed).collect(),
    }
}
