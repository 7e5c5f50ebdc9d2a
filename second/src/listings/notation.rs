//! What texts spell, how bytes are shown, and what is sent.

use super::listing::{file as file_of, row, Listing, Row};
use super::protocol::{refusal, REFUSALS};
use super::term::{
    byte, digits, locks, mark, maybe, number, plain, stretch, tag, text, truth, Term,
};
use crate::frame::{make, LONGEST};
use crate::question::hex;
use crate::reading;
use crate::tag::{Reply, Tag, MEMORY_LENGTH};

const HEAD: &str = "\
-- What is spelt and sent, by the second implementation, which wrote this file. Assumes nothing.
use Prim.Native.String.{String}
use Rattle.std.specs.Prelude.{◌≡◌, ℕ, Bool, true, false, List, [], ◌∷◌, ◌++◌, replicate, Option, Some, None, codes}
use Rattle.std.specs.List.{AllByRecursion, range_with_len}
use Rattle.hex.specs.declared.error.FromHexError.{FromHexError}
use Rattle.hex.specs.declared.error.FromHexError.TheVariants.{InvalidHexCharacter, OddLength}
use Rattle.hex.specs.declared.error.FromHexError.TheVariants.{InvalidStringLength, OutOfMemory}
use Rattle.protocol.specs.declared.refusal.Refusal.TheVariants as refusal
use Rattle.record.specs.declared.State.TheVariants.{Ready}
use Rattle.record.specs.declared.Tag.{Tag}
use Rattle.record.specs.declared.WriteMark.{WriteMark}
use Rattle.record.specs.declared.WriteMark.TheVariants.{Clear, Fading, Fresh}
use Rattle.reply.specs.declared.Reply.{Reply}
use Rattle.reply.specs.declared.Reply.TheVariants.{Serial, Memory, Status}
use Rattle.notation.specs.declared.error.NotationError.{NotationError}
use Rattle.notation.specs.declared.error.NotationError.TheVariants as notation_error
use Rattle.notation.specs.Hexadecimal.{shown, has_small, SpellsBytes, SpellsArray, SpellsByte}
use Rattle.notation.specs.Errors.{error_text, line_text, of_hex}
use Rattle.notation.specs.Samples.{numbered_serial, numbered_memory, sample_serial, sample_memory}
use Rattle.notation.specs.Encodings.{IsFrame, IsNoFrame, reply_bytes}
use Rattle.notation.specs.Words.{SpellsBit, SpellsMark, SpellsPermission, SpellsLocks}
use Rattle.worked_cases.specs.Words.{bytes, locked_in, tag_in}
";

pub fn file() -> String {
    file_of(
        HEAD,
        &[
            shown_bytes(),
            small_letters(),
            spelt_bytes(),
            spelt_arrays(),
            spelt_single(),
            spelt_bits(),
            spelt_marks(),
            spelt_permissions(),
            spelt_locks(),
            errors(),
            errors_of_hex(),
            lines(),
            numbered_tags(),
            sample(),
            frames(),
            no_frames(),
            replies(),
        ],
    )
}

/// A text with what it spells.
fn spelt<T>(word: &str, read: impl Fn(&str) -> Option<T>, term: impl Fn(T) -> Term) -> Row {
    let value = read(word).expect("the text spells something");
    row(&[text(word), term(value)])
}

fn shown_bytes() -> Listing {
    let shown = |bytes: &[u8], between: &str| {
        if bytes.is_empty() {
            return hex(bytes);
        }
        let each: Vec<String> = bytes.iter().map(|&byte| hex(&[byte])).collect();
        each.join(between)
    };
    let mut rows = Vec::new();
    for between in ["", " "] {
        for all in [
            &[] as &[u8],
            &[0x00],
            &[0x0F, 0xFF],
            &[0x01, 0x23, 0x45, 0x67, 0x89, 0xAB, 0xCD, 0xEF],
        ] {
            rows.push(row(&[
                text(between),
                digits(all),
                text(&shown(all, between)),
            ]));
        }
    }
    Listing {
        about: "What stands between bytes, the bytes, and how they are shown.",
        name: "ShownBytes",
        law: "{X = String × String × String}\n    (λ (between, all, text). shown (codes between) (bytes all) ≡ codes text)".into(),
        rows,
    }
}

fn small_letters() -> Listing {
    let listed = |word: &&str| {
        let small = word.chars().any(|letter| letter.is_ascii_lowercase());
        row(&[text(word), truth(small)])
    };
    Listing {
        about: "Texts, and whether they have small letters.",
        name: "SmallLetters",
        law: "{X = String × Bool} (λ (text, small). has_small (codes text) ≡ small)".into(),
        rows: ["", "-", "09AF", "AZ@[", "a", "z", "`{", "0Fa"]
            .iter()
            .map(listed)
            .collect(),
    }
}

fn spelt_bytes() -> Listing {
    Listing {
        about: "Texts, and the bytes that they spell.",
        name: "SpeltBytes",
        law: "{X = String × String} (λ (text, spelt). SpellsBytes (codes text) (bytes spelt))"
            .into(),
        rows: ["-", "", "00", "0F", "FF", "0123456789ABCDEF"]
            .map(|word| spelt(word, reading::bytes, |all| digits(&all)))
            .to_vec(),
    }
}

fn spelt_arrays() -> Listing {
    let listed = |word: &str| {
        let all = reading::bytes(word).expect("the text spells bytes");
        row(&[number(all.len()), text(word), digits(&all)])
    };
    Listing {
        about: "Numbers of bytes, and texts that spell so many.",
        name: "SpeltArrays",
        law: "{X = ℕ × String × String} (λ (count, text, spelt). SpellsArray count (codes text) (bytes spelt))".into(),
        rows: ["", "FF00", "C0000000000001"].map(listed).to_vec(),
    }
}

fn spelt_single() -> Listing {
    Listing {
        about: "Texts, and the one byte that they spell.",
        name: "SpeltSingle",
        law: "{X = String × ℕ} (λ (text, spelt). SpellsByte (codes text) spelt)".into(),
        rows: ["00", "0A", "A0", "FF"]
            .map(|word| spelt(word, reading::byte, byte))
            .to_vec(),
    }
}

fn spelt_bits() -> Listing {
    Listing {
        about: "The two texts that spell a bit.",
        name: "SpeltBits",
        law: "{X = String × Bool} (λ (text, spelt). SpellsBit (codes text) spelt)".into(),
        rows: ["0", "1"]
            .map(|word| spelt(word, reading::bit, truth))
            .to_vec(),
    }
}

fn spelt_marks() -> Listing {
    Listing {
        about: "The three texts that spell a write mark.",
        name: "SpeltMarks",
        law: "{X = String × WriteMark} (λ (text, spelt). SpellsMark (codes text) spelt)".into(),
        rows: ["0", "1", "2"]
            .map(|word| spelt(word, reading::mark_of, mark))
            .to_vec(),
    }
}

fn spelt_permissions() -> Listing {
    let permission = |address: Option<u8>| maybe(address.map(byte));
    Listing {
        about: "Texts, and the permission that they spell.",
        name: "SpeltPermissions",
        law: "{X = String × Option ℕ} (λ (text, spelt). SpellsPermission (codes text) spelt)"
            .into(),
        rows: ["-", "00", "FF"]
            .map(|word| spelt(word, reading::permission_of, permission))
            .to_vec(),
    }
}

fn spelt_locks() -> Listing {
    Listing {
        about: "Texts, and the locks that they spell: none, the first, the last, two where a byte begins, one in the middle, all.",
        name: "SpeltLocks",
        law: "{X = String × List Bool} (λ (text, spelt). SpellsLocks (codes text) spelt)".into(),
        rows: [
            "00000000000000",
            "80000000000000",
            "00000000000001",
            "01800000000000",
            "00000010000000",
            "FFFFFFFFFFFFFF",
        ]
        .map(|word| spelt(word, reading::locks, locks))
        .to_vec(),
    }
}

/// An error by its name, with what stands in it.
fn notation_error(name: &str, parts: &[Term]) -> Term {
    Term::call(&format!("notation_error.{name}"), parts)
}

fn errors() -> Listing {
    let mut rows: Vec<Row> = [
        ("Bytes", "not the bytes that are wanted, in hexadecimal"),
        ("Bit", "neither 0 nor 1"),
        ("Mark", "no write mark"),
        ("State", "no state"),
        ("Missing", "a word is missing"),
        ("Surplus", "a word too many"),
        ("Memory", "out of memory"),
    ]
    .map(|(name, told)| row(&[notation_error(name, &[]), text(told)]))
    .to_vec();
    // Those of making.
    rows.extend(["Code", "Length", "Buffer"].map(|word| {
        let told = text(&word.to_lowercase());
        row(&[notation_error("Refused", &[refusal(word)]), told])
    }));
    Listing {
        about: "The errors, and what is printed of each.",
        name: "ErrorsListed",
        law: "{X = NotationError × String} (λ (error, text). error_text error ≡ codes text)".into(),
        rows,
    }
}

fn errors_of_hex() -> Listing {
    let digit = Term::call("InvalidHexCharacter", &[number(u32::from('G')), number(1)]);
    Listing {
        about: "What the errors of reading hexadecimal are here.",
        name: "ErrorsOfHex",
        law: "{X = FromHexError × NotationError} (λ (error, here). of_hex error ≡ here)".into(),
        rows: [
            (digit, "Bytes"),
            (Term::word("OddLength"), "Bytes"),
            (Term::word("InvalidStringLength"), "Bytes"),
            (Term::word("OutOfMemory"), "Memory"),
        ]
        .map(|(error, name)| row(&[error, notation_error(name, &[])]))
        .to_vec(),
    }
}

fn lines() -> Listing {
    Listing {
        about: "Numbers of lines, and what is printed of each.",
        name: "LinesListed",
        law: "{X = ℕ × String} (λ (line, text). line_text line ≡ codes text)".into(),
        rows: [1, 10, 4_294_967_295_u32]
            .map(|line| row(&[number(line), text(&format!("line {line}"))]))
            .to_vec(),
    }
}

/// The serial number of a tag that the programs show, and its memory.
fn numbered(last: u8) -> ([u8; 8], [u8; MEMORY_LENGTH]) {
    let serial = [0xEF, 0x04, 0x02, 0, 0, 0, 0, last];
    let mut memory = [0; MEMORY_LENGTH];
    memory[..serial.len()].copy_from_slice(&serial);
    (serial, memory)
}

fn numbered_tags() -> Listing {
    let listed = |last: u8| {
        let (serial, memory) = numbered(last);
        row(&[byte(last), digits(&serial), stretch(&memory)])
    };
    Listing {
        about: "Last bytes of serial numbers, the serial numbers, and the memories of the tags.",
        name: "NumberedTags",
        law: "{X = ℕ × String × List ℕ}\n    (λ (last, serial, memory). (numbered_serial last ≡ bytes serial) × (numbered_memory last ≡ memory))".into(),
        rows: [0x00, 0x01, 0xFF].map(listed).to_vec(),
    }
}

fn sample() -> Listing {
    let (serial, memory) = numbered(0x01);
    Listing {
        about: "The sample's serial number and its memory.",
        name: "SampleListed",
        law: "{X = String × List ℕ}\n    (λ (serial, memory). (sample_serial ≡ bytes serial) × (sample_memory ≡ memory))".into(),
        rows: vec![row(&[digits(&serial), stretch(&memory)])],
    }
}

/// So many bytes, no two alike.
fn counted(length: u8) -> Vec<u8> {
    (0x30..0x30 + length).collect()
}

fn frames() -> Listing {
    let made = |(code, length): (u8, u8)| {
        let mut frame = vec![0; LONGEST];
        let made = make(code, &counted(length), &mut frame);
        frame.truncate(made.expect("the call makes a frame"));
        row(&[byte(code), digits(&counted(length)), digits(&frame)])
    };
    Listing {
        about: "Codes with parameters, and the frame of each.",
        name: "FramesListed",
        law: "{X = ℕ × String × String}\n    (λ (code, parameters, frame). IsFrame code (bytes parameters) (bytes frame))".into(),
        rows: [(0x09, 0), (0x00, 10), (0x1B, 14)].map(made).to_vec(),
    }
}

fn no_frames() -> Listing {
    let refused = |(code, length): (u8, u8)| {
        let made = make(code, &counted(length), &mut [0; LONGEST]);
        let number = made.expect_err("the call makes no frame") as u8;
        let (word, _) = REFUSALS
            .into_iter()
            .find(|(_, of_it)| *of_it == number)
            .expect("each refusal has a word");
        let error = notation_error("Refused", &[refusal(word)]);
        row(&[byte(code), digits(&counted(length)), error])
    };
    Listing {
        about: "Codes with parameters that make no frame, and the error of each.",
        name: "NoFramesListed",
        law: "{X = ℕ × String × NotationError} (λ (code, rest, error). IsNoFrame code (bytes rest) error)".into(),
        rows: [(0x01, 0), (0x09, 1), (0x1B, 15)].map(refused).to_vec(),
    }
}

fn replies() -> Listing {
    let sent = |teller: &Tag, told: Option<(Term, Reply)>| {
        let sent = told.as_ref().map(|&(_, reply)| teller.written(reply));
        row(&[
            tag(teller),
            maybe(told.map(|(term, _)| term)),
            stretch(&sent.unwrap_or_default()),
        ])
    };
    let memory = |address: u8, length: u16| {
        let term = Term::call("Memory", &[byte(address), number(length - 1)]);
        (term, Reply::Memory { address, length })
    };
    let status = |told: u8| (Term::call("Status", &[byte(told)]), Reply::Byte(told));
    let (_, serial) = memory(0x00, 8);
    let (_, sample) = numbered(0x01);
    Listing {
        about: "Tags, what each replies, if anything, and the bytes that are sent.",
        name: "RepliesListed",
        law:
            "{X = Tag × Option Reply × List ℕ} (λ (tag, reply, sent). reply_bytes tag reply ≡ sent)"
                .into(),
        rows: vec![
            sent(&plain(), None),
            sent(&plain(), Some(status(0x00))),
            sent(&Tag::new(sample), Some((Term::word("Serial"), serial))),
            sent(&plain(), Some(memory(0x37, 2))),
            sent(&plain(), Some(memory(0x00, 256))),
        ],
    }
}
