//! The record of a tag: what is read of it, comparing and storing, the mark, gaps, and when two are alike.

use super::listing::{file as file_of, row, Listing};
use super::term::{
    busy, byte, digits, locks, mark, memory, number, plain, plain_memory, state, tag, text, truth,
};
use crate::frame::{sealed_with, Name, Refusal};
use crate::order::{selects, Comparison, Order};
use crate::tag::{Locks, State, Tag, MEMORY_LENGTH};

use State::{Inventoried, Ready, Singulation};

const HEAD: &str = "\
-- The record of a tag at the limits, by the second implementation, which wrote this file. Assumes nothing.
use Prim.Native.String.{String}
use Rattle.std.specs.Prelude.{◌≡◌, ℕ, Bool, true, false, List, [], ◌∷◌, replicate, Some, None, codes}
use Rattle.std.specs.List.{AllByRecursion}
use Rattle.record.specs.declared.State.{State}
use Rattle.record.specs.declared.State.TheVariants.{Ready, Singulation, Inventoried}
use Rattle.record.specs.declared.WriteMark.{WriteMark}
use Rattle.record.specs.declared.WriteMark.TheVariants.{Clear, Fading, Fresh}
use Rattle.record.specs.declared.Tag.{Tag}
use Rattle.record.specs.Alike.{alike}
use Rattle.record.specs.Gaps.{after_gap}
use Rattle.record.specs.Masks.{selects, matches, stored}
use Rattle.record.specs.Names.{state_name}
use Rattle.record.specs.Records.{byte_at, locked_at, serial_of, mark_number, fallen, is_write_ok, new_tag}
use Rattle.worked_cases.specs.Words.{bytes, plain, plain_but, locked_in, first_two, only_locked}
use Rattle.worked_cases.specs.Words.{tag_of, tag_in, flagged_in, busy}
";

pub fn file() -> String {
    file_of(
        HEAD,
        &[
            new_tags(),
            addresses(),
            selections(),
            comparisons(),
            storings(),
            marks(),
            states(),
            gaps(),
            likenesses(),
        ],
    )
}

fn new_tags() -> Listing {
    let memories = [plain_memory(), [0x00; MEMORY_LENGTH], [0xFF; MEMORY_LENGTH]];
    let made = |held: &[u8; MEMORY_LENGTH]| {
        let new = Tag::new(*held);
        row(&[memory(held), tag(&new), digits(new.serial())])
    };
    Listing {
        about: "56 bytes, the new tag that has them, and its serial number.",
        name: "NewTags",
        law: "{X = List ℕ × Tag × String}\n    (λ (memory, tag, serial). (new_tag memory ≡ tag) × (serial_of tag ≡ bytes serial))".into(),
        rows: memories.iter().map(made).collect(),
    }
}

fn addresses() -> Listing {
    let mut tags = vec![plain()];
    for locks in [[0x00; 7], [0xFF; 7]] {
        tags.push(Tag {
            locks: Locks(locks),
            ..plain()
        });
    }
    let mut rows = Vec::new();
    for each in &tags {
        for address in [0x00, 0x01, 0x02, 0x37, 0x38, 0xFF] {
            rows.push(row(&[
                locks(each.locks),
                byte(address),
                byte(each.byte(address.into())),
                truth(each.locks.locked(address.into())),
            ]));
        }
    }
    Listing {
        about: "The locks of a plain tag, an address, the byte there, and whether it is locked.",
        name: "Addresses",
        law: "{X = List Bool × ℕ × ℕ × Bool}\n    (λ (locks, address, held, locked). let tag = record (tag_in Ready 0x00) { locks = locks } in\n    (byte_at tag address ≡ held) × (locked_at tag address ≡ locked))".into(),
        rows,
    }
}

fn selections() -> Listing {
    let mut rows = Vec::new();
    for mask in [0x00, 0x80, 0x01, 0xFF] {
        for place in [0, 3, 4, 7] {
            let taken = selects(mask, place);
            rows.push(row(&[byte(mask), number(place), truth(taken)]));
        }
    }
    Listing {
        about: "A mask, a place, and whether the one selects the other.",
        name: "Selections",
        law: "{X = ℕ × ℕ × Bool} (λ (mask, place, selected). selects mask place ≡ selected)".into(),
        rows,
    }
}

fn comparisons() -> Listing {
    let serial = *plain().serial();
    let (mut first, mut last) = (serial, serial);
    first[0] = 0;
    last[7] = 0;
    let round = [0x00, 0x40, 0x41, 0x42, 0x43, 0x44, 0x45, 0x46];
    let cases = [
        (0x00, 0x00, [0; 8]),
        (0x00, 0xFF, serial),
        (0x00, 0xFF, first),
        (0x00, 0x80, first),
        (0x00, 0x7F, first),
        (0x00, 0xFF, last),
        (0x00, 0x01, last),
        (0x00, 0xFE, last),
        (0x34, 0xFF, [0x74, 0x75, 0x76, 0x77, 0, 0, 0, 0]),
        (0x34, 0xFF, [0x74, 0x75, 0x76, 0x77, 0, 0, 0, 1]),
        (0x37, 0x80, [0x77; 8]),
        (0x37, 0x01, [0x77; 8]),
        (0x38, 0xFF, [0; 8]),
        (0x38, 0x01, [0, 0, 0, 0, 0, 0, 0, 1]),
        (0xFF, 0xFF, round),
        (0xFF, 0xFF, [0; 8]),
    ];
    let compared = |&(address, mask, word): &(u8, u8, [u8; 8])| {
        let comparison = Comparison {
            address,
            mask,
            word,
        };
        row(&[
            byte(address),
            byte(mask),
            digits(&word),
            truth(plain().matches(&comparison)),
        ])
    };
    Listing {
        about: "An address, a mask and a word, and whether the plain memory matches.",
        name: "Comparisons",
        law: "{X = ℕ × ℕ × String × Bool}\n    (λ (address, mask, word, matched). matches plain address mask (bytes word) ≡ matched)".into(),
        rows: cases.iter().map(compared).collect(),
    }
}

fn storings() -> Listing {
    let open = Tag {
        locks: Locks([0; 7]),
        ..plain()
    };
    let data = [1, 2, 3, 4];
    let stored = |&(address, mask): &(u8, u8)| {
        let mut tag = open.clone();
        let parameters = [open.serial().as_slice(), &[address, mask], &data].concat();
        let frame = sealed_with(Name::Write as u8, &parameters);
        tag.step(&Order::open(&frame), false);
        row(&[
            byte(address),
            byte(mask),
            digits(&data),
            memory(&tag.memory),
        ])
    };
    let cases = [
        (0x00, 0x00),
        (0x00, 0x80),
        (0x00, 0x10),
        (0x00, 0x01),
        (0x00, 0xF0),
        (0x00, 0xFF),
        (0x04, 0x60),
        (0x08, 0xF0),
        (0x34, 0x80),
        (0x34, 0x10),
        (0x34, 0x0F),
        (0x34, 0xFF),
    ];
    Listing {
        about: "An address, a mask and four bytes, and the plain memory once those selected are stored.",
        name: "Storings",
        law: "{X = ℕ × ℕ × String × List ℕ}\n    (λ (address, mask, given, after). stored address mask (bytes given) plain 4 ≡ after)".into(),
        rows: cases.iter().map(stored).collect(),
    }
}

fn marks() -> Listing {
    let marked = |before: u8| {
        let mut tag = Tag {
            mark: before,
            ..plain()
        };
        let confirmed = tag.change_confirmed();
        tag.step(&Err(Refusal::UnknownCode), false);
        row(&[
            mark(before),
            number(before),
            mark(tag.mark),
            truth(confirmed),
        ])
    };
    Listing {
        about: "A mark, its number, the mark once it has fallen, and whether it is WRITE_OK.",
        name: "Marks",
        law: "{X = WriteMark × ℕ × WriteMark × Bool}\n    (λ (mark, number, after, allowed).\n    (mark_number mark ≡ number) × (fallen mark ≡ after) × (is_write_ok mark ≡ allowed))".into(),
        rows: (0..=2).map(marked).collect(),
    }
}

fn states() -> Listing {
    let named = |each: State| row(&[state(each), text(&each.to_string())]);
    Listing {
        about: "The states by their names.",
        name: "States",
        law: "{X = State × String} (λ (state, name). state_name state ≡ codes name)".into(),
        rows: [Ready, Singulation, Inventoried].map(named).into(),
    }
}

fn gaps() -> Listing {
    let mut rows = Vec::new();
    for before in [busy(Singulation), busy(Inventoried)] {
        for microseconds in [0, 249, 250, 3_999_999, 4_000_000, u32::MAX] {
            let mut after = before.clone();
            after.gap(microseconds);
            rows.push(row(&[tag(&before), number(microseconds), tag(&after)]));
        }
    }
    Listing {
        about: "A tag, a gap in microseconds, and the tag after it.",
        name: "Gaps",
        law: "{X = Tag × ℕ × Tag} (λ (before, microseconds, after). after_gap microseconds before ≡ after)".into(),
        rows,
    }
}

fn likenesses() -> Listing {
    let first = busy(Singulation);
    let mut others = vec![first.clone()];
    for address in [0, MEMORY_LENGTH - 1] {
        let mut other = first.clone();
        other.memory[address] ^= 1;
        others.push(other);
    }
    for locks in [[0x80, 0, 0, 0, 0, 0, 0], [0xC0, 0, 0, 0, 0, 0, 0x01]] {
        others.push(Tag {
            locks: Locks(locks),
            ..first.clone()
        });
    }
    others.push(busy(Ready));
    others.push(busy(Inventoried));
    others.push(Tag {
        id_flag: false,
        ..first.clone()
    });
    others.push(Tag {
        counter: 0xFE,
        ..first.clone()
    });
    others.push(Tag {
        mark: 1,
        ..first.clone()
    });
    for permission in [None, Some(0x36)] {
        others.push(Tag {
            permission,
            ..first.clone()
        });
    }
    let alike = |other: &Tag| row(&[tag(other), truth(first == *other)]);
    Listing {
        about: "Tags beside a busy one, and whether the two are alike: the same, and such as differ in one part.",
        name: "Likenesses",
        law: "{X = Tag × Bool} (λ (other, same). alike (busy Singulation) other ≡ same)".into(),
        rows: others.iter().map(alike).collect(),
    }
}
