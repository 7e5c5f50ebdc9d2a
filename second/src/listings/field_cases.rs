//! Fingerprints, the words of questions to a field, and the tags of fields that words tell.

use std::slice;

use super::crowd::{numbered, selected, tag_term, tags_in, tags_term};
use super::listing::{file as file_of, row, Listing, Row};
use super::term::{busy, number, plain, single_bytes, single_stretch, tag_like, text, wide, Term};
use crate::field_question::{take_in, Question};
use crate::fingerprint::Fingerprint;
use crate::nesting::Nesting;
use crate::reading;
use crate::sweep_question;
use crate::tag::{Locks, State, Tag};

const HEAD: &str = "\
-- Fingerprints, words and nestings, by the second implementation, which wrote this file. Assumes nothing.
use Prim.Native.String.{String}
use Rattle.std.proofs.Common.{lit≤}
use Rattle.std.specs.Prelude.{◌≡◌, ℕ, true, List, [], ◌∷◌, ◌++◌, map, replicate, Some, codes}
use Rattle.std.specs.List.{AllByRecursion, range_with_len}
use Rattle.record.specs.declared.State.{State}
use Rattle.record.specs.declared.State.TheVariants.{Singulation, Inventoried}
use Rattle.record.specs.declared.Tag.{Tag}
use Rattle.record.specs.declared.WriteMark.TheVariants.{Fresh}
use Rattle.record.specs.Records.{new_tag}
use Rattle.composite_fields.specs.declared.pair.Pair.{Pair}
use Rattle.composite_fields.specs.declared.spoiler.Spoiler.{Spoiler}
use Rattle.field_cases.specs.declared.building.Parts.{Parts}
use Rattle.field_cases.specs.declared.building.Parts.TheVariants as parts
use Rattle.field_cases.specs.declared.nesting.Node.{Node}
use Rattle.field_cases.specs.declared.nesting.Node.TheVariants as node
use Rattle.field_cases.specs.Builds.{parts_tags}
use Rattle.field_cases.specs.Fingerprints.{fingerprint, tags_fingerprint}
use Rattle.field_cases.specs.Nestings.{node_tags}
use Rattle.field_cases.specs.Questions.{first_word, behind_first, IsOneWord, SpellsRow, SpellsSending}

-- A new tag of the bytes 40 to 77, no two alike.
abbrev pub plain : Tag
plain = new_tag (range_with_len 0x40 56)

-- The same with every part set.
abbrev pub full : Tag
full =
    record plain {
      locks = replicate 56 true;
      state = Inventoried;
      identified = true;
      counter = 0xff;
      mark = Fresh;
      permission = Some 0x37;
    }

-- A tag of which only the serial number's last byte is not 00, in some state, with some counter.
abbrev pub numbered : ℕ → State → ℕ → Tag
numbered n state counter =
    record (new_tag (replicate 7 0x00 ++ n ∷ replicate 48 0x00)) { state = state; counter = counter }

-- So many of them, numbered on from this one.
abbrev pub numbered_from : ℕ → ℕ → State → ℕ → List Tag
numbered_from first count state counter = map (λ n. numbered n state counter) (range_with_len first count)

-- A spoiler that spoils each third lone reply and has heard none yet, and a pair, over what stands for fields.
abbrev pub spoiler : List Tag → Spoiler (List Tag)
spoiler tags = record { field = tags; period = 3; heard = 0; counting = lit≤ tt }

abbrev pub pair : List Tag → List Tag → Pair (List Tag) (List Tag)
pair left right = record { left = left; right = right }
";

pub fn file() -> String {
    file_of(
        HEAD,
        &[
            of_bytes(),
            of_tags(),
            split_words(),
            single_words(),
            rows_of_coins(),
            sendings(),
            parts(),
            nodes(),
        ],
    )
}

fn value(fingerprint: &Fingerprint) -> Term {
    wide(fingerprint.value())
}

fn of_bytes() -> Listing {
    let taken = |all: &[u8]| row(&[single_stretch(all), value(&Fingerprint::of(all))]);
    Listing {
        about: "Bytes, and their fingerprint.",
        name: "BytesTaken",
        law: "{X = List ℕ × ℕ} (λ (bytes, value). fingerprint bytes ≡ value)".into(),
        rows: vec![
            taken(&[]),
            taken(&[0x00]),
            taken(&[0xFF]),
            taken(b"foobar"),
            taken(&[0xA5; 300]),
        ],
    }
}

/// The plain tag with every part set.
fn full() -> Tag {
    Tag {
        locks: Locks([0xFF; 7]),
        ..busy(State::Inventoried)
    }
}

/// A tag that is plain but for some parts, or numbered.
fn taken_term(tag: &Tag) -> Term {
    let plain = plain();
    if *tag == full() {
        return Term::word("full");
    }
    if tag.memory == plain.memory {
        return tag_like(Term::word("plain"), &plain, tag);
    }
    tag_term(tag)
}

fn of_tags() -> Listing {
    let taken = |tags: &[Tag]| {
        let mut fingerprint = Fingerprint::new();
        for each in tags {
            take_in(&mut fingerprint, each);
        }
        let tags: Vec<Term> = tags.iter().map(taken_term).collect();
        row(&[Term::list(&tags), value(&fingerprint)])
    };
    let used = full();
    let permitted = Tag {
        permission: Some(0x00),
        ..plain()
    };
    let answering = numbered(1, State::Singulation, 0);
    Listing {
        about: "Tags, and their fingerprint.",
        name: "TagsTaken",
        law: "{X = List Tag × ℕ} (λ (tags, value). tags_fingerprint tags ≡ value)".into(),
        rows: vec![
            taken(&[]),
            taken(&[plain()]),
            taken(&[permitted]),
            taken(slice::from_ref(&used)),
            taken(&[used.clone(), answering.clone()]),
            taken(&[answering, used]),
        ],
    }
}

fn split_words() -> Listing {
    let split = |words: &str| {
        let (first, rest) = words.split_once(' ').expect("there is a space");
        row(&[text(words), text(first), text(rest)])
    };
    Listing {
        about: "Texts, what stands in front of the first space, and what stands behind it.",
        name: "SplitWords",
        law: "{X = String × String × String}\n    (λ (text, word, rest). (first_word (codes text) ≡ codes word) × (behind_first (codes text) ≡ codes rest))".into(),
        rows: ["gap 250", "send 00 0 -", " two", "one ", "a  b", " "]
            .map(split)
            .to_vec(),
    }
}

fn single_words() -> Listing {
    Listing {
        about: "Texts without a space.",
        name: "SingleWords",
        law: "(λ text. IsOneWord (codes text))".into(),
        rows: ["", "end"].map(|word| row(&[text(word)])).to_vec(),
    }
}

fn rows_of_coins() -> Listing {
    let spelt = |word: &str| {
        let coins = reading::row(word).expect("the text spells a row");
        row(&[text(word), wide(coins)])
    };
    Listing {
        about: "Texts, and the row of coins that they spell.",
        name: "SpeltRows",
        law: "{X = String × ℕ} (λ (text, row). SpellsRow (codes text) row)".into(),
        rows: [
            "0000000000000000",
            "0000000000000001",
            "8000000000000000",
            "0123456789ABCDEF",
            "FFFFFFFFFFFFFFFF",
        ]
        .map(spelt)
        .to_vec(),
    }
}

fn sendings() -> Listing {
    let spelt = |words: &str| {
        let read = reading::of_fields(&format!("send {words}"));
        let Some(sweep_question::Question::Field(Question::Send {
            row: coins,
            room,
            frame,
        })) = read
        else {
            panic!("the text spells a send");
        };
        row(&[text(words), wide(coins), number(room), single_bytes(&frame)])
    };
    Listing {
        about: "Texts, and the row of coins, the room and the frame that they spell.",
        name: "SpeltSendings",
        law: "{X = String × ℕ × ℕ × List ℕ}\n    (λ (text, row, room, frame). SpellsSending (codes text) row room frame)".into(),
        rows: [
            "0000000000000000 0 -",
            "0000000000000001 +9 00",
            "8000000000000000 260 098F26",
            "FFFFFFFFFFFFFFFF 0300 FF",
        ]
        .map(spelt)
        .to_vec(),
    }
}

/// Fields of one layer at most, in words.
const NESTINGS: [&str; 6] = [
    "bench 0",
    "bench 2",
    "spoiler 3 bench 2",
    "pair bench 0 bench 0",
    "pair bench 1 bench 2",
    "pair bench 60 bench 4",
];

/// A nesting as a term, and the tags of the field that it means.
fn nested(
    words: &str,
    bare: &str,
    spoiled: impl Fn(Term) -> Term,
    paired: impl Fn(Term, Term) -> Term,
) -> Row {
    let nesting = Nesting::read(words).expect("the words are right");
    let tags = selected(0..nesting.places() as u8);
    let term = match &nesting {
        Nesting::Spoiler(..) => spoiled(tags_term(&tags)),
        Nesting::Pair(left, _) => {
            let (left, right) = tags.split_at(left.places());
            paired(tags_term(left), tags_term(right))
        }
        _ => Term::call(bare, &[tags_term(&tags)]),
    };
    let field = nesting.make(&mut tags.into_iter());
    let field = field.expect("there are not too many tags");
    row(&[term, tags_term(&tags_in(&*field))])
}

fn parts() -> Listing {
    let nested = |words| {
        nested(
            words,
            "parts.Bare",
            |tags| Term::call("parts.Spoiled", &[tags, number(3)]),
            |left, right| Term::call("parts.Paired", &[left, right]),
        )
    };
    Listing {
        about: "What a layer is made of, and the tags of that.",
        name: "PartsTaken",
        law: "{X = Parts (List Tag) × List Tag} (λ (made, tags). parts_tags (λ field. field) made ≡ tags)".into(),
        rows: NESTINGS.map(nested).to_vec(),
    }
}

fn nodes() -> Listing {
    let nested = |words| {
        nested(
            words,
            "node.Bare",
            |tags| Term::call("node.Spoiled", &[Term::call("spoiler", &[tags])]),
            |left, right| Term::call("node.Paired", &[Term::call("pair", &[left, right])]),
        )
    };
    Listing {
        about: "Fields with a layer or none, and their tags.",
        name: "NodesNested",
        law: "{X = Node (List Tag) × List Tag} (λ (made, tags). node_tags (λ field. field) made ≡ tags)".into(),
        rows: NESTINGS.map(nested).to_vec(),
    }
}
