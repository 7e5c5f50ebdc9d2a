//! Bytes that are read of a memory, and replies written out.

use super::listing::{file as file_of, row, Listing, Row};
use super::term::{byte, number, plain, stretch, Term};
use super::words::OLD;
use crate::frame::Refusal;
use crate::tag::Reply;

const HEAD: &str = "\
-- Replies at the limits, by the second implementation, which wrote this file. Assumes nothing.
use Rattle.std.specs.Prelude.{◌≡◌, ℕ, List, [], ◌∷◌, ◌++◌, replicate}
use Rattle.std.specs.List.{AllByRecursion, range_with_len}
use Rattle.crc.specs.Check.{sealed}
use Rattle.protocol.specs.Refusals.{WriteResult, wrote, not_written}
use Rattle.frame.specs.Makings.{result_of, buffer_after, writing}
use Rattle.record.specs.declared.State.TheVariants.{Ready}
use Rattle.record.specs.Records.{bytes_from}
use Rattle.reply.specs.declared.Reply.{Reply}
use Rattle.reply.specs.declared.Reply.TheVariants.{Serial, Memory, Status}
use Rattle.reply.specs.Replies.{data_of}
use Rattle.worked_cases.specs.Words.{bytes, used, plain, tag_in}

-- What a plain tag sends for a reply.
abbrev pub told_by_plain : Reply → List ℕ
told_by_plain reply = sealed (data_of (tag_in Ready 0x00) reply)
";

pub fn file() -> String {
    file_of(HEAD, &[stretches(), replies()])
}

fn stretches() -> Listing {
    let cases = [
        (0x00, 1),
        (0x00, 8),
        (0x00, 56),
        (0x00, 57),
        (0x00, 256),
        (0x07, 2),
        (0x34, 4),
        (0x34, 8),
        (0x37, 1),
        (0x37, 2),
        (0x38, 4),
        (0xFF, 2),
    ];
    let read = |&(address, length): &(u8, u16)| {
        row(&[
            byte(address),
            number(length),
            stretch(&plain().stretch(address, length)),
        ])
    };
    Listing {
        about: "An address, how many bytes from there on, and these bytes of the plain memory.",
        name: "Stretches",
        law: "{X = ℕ × ℕ × List ℕ} (λ (address, length, held). bytes_from plain address length ≡ held)".into(),
        rows: cases.iter().map(read).collect(),
    }
}

/// The serial number as it is told, or bytes of the memory, or one byte.
fn told(reply: Reply, is_serial: bool) -> Term {
    match reply {
        Reply::Memory { .. } if is_serial => Term::word("Serial"),
        Reply::Memory { address, length } => {
            Term::call("Memory", &[byte(address), number(length - 1)])
        }
        Reply::Byte(status) => Term::call("Status", &[byte(status)]),
    }
}

fn reply_row(reply: Reply, is_serial: bool, room: usize) -> Row {
    let mut after = vec![OLD; room];
    let bytes = plain().written(reply);
    let answer = if bytes.len() > room {
        Term::call("not_written", &[number(Refusal::NoRoom as u8)])
    } else {
        after[..bytes.len()].copy_from_slice(&bytes);
        Term::call("wrote", &[number(bytes.len())])
    };
    row(&[
        told(reply, is_serial),
        number(room),
        answer,
        stretch(&after),
    ])
}

fn replies() -> Listing {
    let serial = Reply::Memory {
        address: 0x00,
        length: 8,
    };
    let mut rows: Vec<Row> = [10, 9, 0, 12]
        .iter()
        .map(|&room| reply_row(serial, true, room))
        .collect();
    for (address, length, room) in [
        (0x00, 1, 3),
        (0x00, 1, 2),
        (0x34, 4, 6),
        (0x34, 8, 10),
        (0x37, 2, 5),
        (0x38, 8, 10),
        (0xFF, 1, 3),
        (0x00, 256, 258),
        (0x00, 256, 257),
    ] {
        let reply = Reply::Memory { address, length };
        rows.push(reply_row(reply, false, room));
    }
    for (status, room) in [
        (0x00, 3),
        (0x00, 2),
        (0x00, 0),
        (0x01, 3),
        (0xFE, 3),
        (0xFF, 5),
    ] {
        rows.push(reply_row(Reply::Byte(status), false, room));
    }
    Listing {
        about: "Replies of each kind, from one byte to 256, how long the buffer is, the answer of writing, and the buffer after it.",
        name: "WrittenReplies",
        law: "{X = Reply × ℕ × WriteResult × List ℕ}\n    (λ (reply, room, answer, after). (result_of (writing (told_by_plain reply) room) ≡ answer)\n    × (buffer_after (writing (told_by_plain reply) room) (used room) ≡ after))".into(),
        rows,
    }
}
