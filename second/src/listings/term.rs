//! Terms of the prover's language, spelt out.

use crate::frame::Name;
use crate::order::selects;
use crate::tag::{Locks, State, Tag, MEMORY_LENGTH};

/// So many in a row are worth a word.
const RUN: usize = 6;

/// So many that grow one by one are.
const GROWING_RUN: usize = 16;

/// So many bytes are few beside a memory.
const FEW: usize = 8;

/// How tightly the parts of a term hang together.
#[derive(Clone, Copy, PartialEq, PartialOrd)]
enum Tie {
    Infix,
    Call,
    Word,
}

#[derive(Clone)]
pub struct Term {
    text: String,
    tie: Tie,
}

impl Term {
    pub fn word(text: impl Into<String>) -> Term {
        Term {
            text: text.into(),
            tie: Tie::Word,
        }
    }

    pub fn call(function: &str, arguments: &[Term]) -> Term {
        let mut text = function.to_string();
        for argument in arguments {
            text += " ";
            text += &argument.argument();
        }
        Term {
            text,
            tie: Tie::Call,
        }
    }

    /// A record as another, but for some parts.
    pub fn changed(base: Term, changes: &[(&str, Term)]) -> Term {
        if changes.is_empty() {
            return base;
        }
        let changes: Vec<String> = changes
            .iter()
            .map(|(name, term)| format!("{name} = {}", term.text))
            .collect();
        Term {
            text: format!(
                "record {} {{ {} }}",
                base.tied(Tie::Word),
                changes.join("; ")
            ),
            tie: Tie::Call,
        }
    }

    /// What is to stand in brackets.
    pub fn open(text: String) -> Term {
        Term {
            text,
            tie: Tie::Infix,
        }
    }

    pub fn list(items: &[Term]) -> Term {
        if items.is_empty() {
            return Term::word("[]");
        }
        let items: Vec<String> = items.iter().map(|item| item.tied(Tie::Call)).collect();
        Term {
            text: format!("{} ∷ []", items.join(" ∷ ")),
            tie: Tie::Infix,
        }
    }

    /// Lists one behind another.
    pub fn joined(lists: &[Term]) -> Term {
        let Some((last, front)) = lists.split_last() else {
            return Term::list(&[]);
        };
        if front.is_empty() {
            return last.clone();
        }
        let front: String = front.iter().map(Term::before_others).collect();
        Term::open(front + &last.text)
    }

    /// A list as it stands in front of others.
    fn before_others(&self) -> String {
        match self.text.strip_suffix("[]") {
            Some(items) => items.to_string(),
            None => format!("{} ++ ", self.tied(Tie::Call)),
        }
    }

    pub fn tuple(parts: &[Term]) -> Term {
        let parts: Vec<&str> = parts.iter().map(Term::text).collect();
        Term::word(format!("({})", parts.join(", ")))
    }

    pub fn text(&self) -> &str {
        &self.text
    }

    /// As it stands behind a function.
    pub fn argument(&self) -> String {
        self.tied(Tie::Word)
    }

    /// In brackets, unless it hangs together as tightly as that.
    fn tied(&self, tie: Tie) -> String {
        if self.tie < tie {
            format!("({})", self.text)
        } else {
            self.text.clone()
        }
    }
}

pub fn byte(byte: u8) -> Term {
    Term::word(format!("0x{byte:02x}"))
}

/// What fits in two bytes, by all their digits.
pub fn two_bytes(number: u16) -> Term {
    Term::word(format!("0x{number:04x}"))
}

/// What may take eight bytes.
pub fn wide(number: u64) -> Term {
    Term::word(format!("0x{number:x}"))
}

pub fn number(number: impl ToString) -> Term {
    Term::word(number.to_string())
}

pub fn truth(truth: bool) -> Term {
    Term::word(truth.to_string())
}

pub fn maybe(term: Option<Term>) -> Term {
    term.map_or(Term::word("None"), |term| Term::call("Some", &[term]))
}

pub fn text(text: &str) -> Term {
    Term::word(format!("\"{text}\""))
}

/// A text that spells bytes.
pub fn digits(bytes: &[u8]) -> Term {
    let digits: String = bytes.iter().map(|byte| format!("{byte:02X}")).collect();
    text(&digits)
}

/// Bytes by the text that spells them.
pub fn bytes(bytes: &[u8]) -> Term {
    if bytes.is_empty() {
        return Term::list(&[]);
    }
    Term::call("bytes", &[digits(bytes)])
}

/// Bytes one by one.
pub fn single_bytes(bytes: &[u8]) -> Term {
    let items: Vec<Term> = bytes.iter().map(|&each| byte(each)).collect();
    Term::list(&items)
}

/// Bytes with a word for each run of equal or of growing ones.
pub fn stretch(all: &[u8]) -> Term {
    stretch_of(all, bytes)
}

/// The same with the bytes between them one by one.
pub fn single_stretch(all: &[u8]) -> Term {
    stretch_of(all, single_bytes)
}

fn stretch_of(all: &[u8], spelt: impl Fn(&[u8]) -> Term) -> Term {
    let mut lists = Vec::new();
    let mut between = 0;
    let mut place = 0;
    while place < all.len() {
        let Some((length, word)) = run_word(&all[place..]) else {
            place += 1;
            continue;
        };
        if between < place {
            lists.push(spelt(&all[between..place]));
        }
        lists.push(word);
        place += length;
        between = place;
    }
    if between < place {
        lists.push(spelt(&all[between..]));
    }
    Term::joined(&lists)
}

/// The run with which bytes begin, if it is worth a word: how long it is, and the word.
fn run_word(bytes: &[u8]) -> Option<(usize, Term)> {
    let first = byte(bytes[0]);
    let equal = run(bytes, |byte, _| i32::from(byte));
    if equal >= RUN {
        return Some((equal, Term::call("replicate", &[number(equal), first])));
    }
    let growing = run(bytes, |byte, place| i32::from(byte) - place);
    let word = || Term::call("range_with_len", &[first, number(growing)]);
    (growing >= GROWING_RUN).then(|| (growing, word()))
}

/// How many bytes from the first on have the same key.
fn run(bytes: &[u8], key: impl Fn(u8, i32) -> i32) -> usize {
    let keys = bytes.iter().zip(0..).map(|(&byte, place)| key(byte, place));
    keys.take_while(|&each| each == key(bytes[0], 0)).count()
}

pub fn command(name: Name) -> Term {
    Term::word(match name {
        Name::Select => "Select",
        Name::UnselectNe => "UnselectNe",
        Name::UnselectIdFlag => "UnselectIdFlag",
        Name::UnselectNoIdFlag => "UnselectNoidFlag",
        Name::Query => "Query",
        Name::Scroll => "Scroll",
        Name::Repeat => "Repeat",
        Name::Reset => "Reset",
        Name::Read => "Read",
        Name::Verify => "Verify",
        Name::Lock => "Lock",
        Name::QLock => "Qlock",
        Name::ReadFlexible => "ReadFlexible",
        Name::Write => "Write",
    })
}

/// A parameter by its name.
pub fn parameter(name: &str) -> Term {
    Term::word(match name {
        "SNR" => "Serial",
        "ADDRESS" => "Address",
        "BYTE_MASK" => "Mask",
        "WORD_DATA" => "Word",
        "BLOCK_DATA" => "Data",
        "LENGTH" => "Length",
        "IGNORED" => "Ignored",
        _ => panic!("no parameter is named {name}"),
    })
}

/// The memory of most tags in the cases: the bytes 40 to 77, each once.
pub fn plain_memory() -> [u8; MEMORY_LENGTH] {
    std::array::from_fn(|address| address as u8 + 0x40)
}

/// A new tag with that memory.
pub fn plain() -> Tag {
    Tag::new(plain_memory())
}

/// A tag of which nothing is clear.
pub fn busy(state: State) -> Tag {
    Tag {
        state,
        id_flag: true,
        counter: 0xFF,
        mark: 2,
        permission: Some(0x37),
        ..plain()
    }
}

pub fn memory(memory: &[u8; MEMORY_LENGTH]) -> Term {
    let plain = plain_memory();
    let differs = |&address: &usize| memory[address] != plain[address];
    let Some(first) = (0..MEMORY_LENGTH).find(differs) else {
        return Term::word("plain");
    };
    let last = (0..MEMORY_LENGTH).rfind(differs).unwrap_or(first);
    let others = &memory[first..=last];
    if others.len() > FEW {
        return stretch(memory);
    }
    Term::call("plain_but", &[byte(first as u8), digits(others)])
}

pub fn locks(locks: Locks) -> Term {
    if locks == plain().locks {
        return Term::word("first_two");
    }
    for (all, word) in [(0x00, "false"), (0xFF, "true")] {
        if locks == Locks([all; 7]) {
            return Term::call("replicate", &[number(MEMORY_LENGTH), Term::word(word)]);
        }
    }
    Term::call("locked_in", &[single_stretch(&locked_addresses(locks))])
}

fn locked_addresses(locks: Locks) -> Vec<u8> {
    (0..MEMORY_LENGTH)
        .filter(|&address| selects(locks.0[address / 8], address % 8))
        .map(|address| address as u8)
        .collect()
}

pub fn state(state: State) -> Term {
    Term::word(match state {
        State::Ready => "Ready",
        State::Singulation => "Singulation",
        State::Inventoried => "Inventoried",
    })
}

pub fn mark(mark: u8) -> Term {
    Term::word(["Clear", "Fading", "Fresh"][usize::from(mark)])
}

/// A tag by the shortest of some ways to tell it.
pub fn tag(tag: &Tag) -> Term {
    let quiet = Tag {
        state: tag.state,
        counter: tag.counter,
        ..plain()
    };
    let flagged = Tag {
        id_flag: true,
        ..quiet.clone()
    };
    let parts = [state(tag.state), byte(tag.counter)];
    let ways = [
        (Term::call("tag_in", &parts), quiet),
        (Term::call("flagged_in", &parts), flagged),
        (Term::call("busy", &parts[..1]), busy(tag.state)),
        (by_parts(tag), parts_of(tag)),
    ]
    .map(|(base, other)| locked_like(base, other, tag));
    let shortest = ways.into_iter().min_by_key(|way| way.text.len());
    shortest.expect("there are some ways")
}

/// A tag by another one, which has a word for its lock if it has only one.
fn locked_like(base: Term, other: Tag, tag: &Tag) -> Term {
    let [address] = locked_addresses(tag.locks)[..] else {
        return tag_like(base, &other, tag);
    };
    let base = Term::call("only_locked", &[byte(address), base]);
    let other = Tag {
        locks: tag.locks,
        ..other
    };
    tag_like(base, &other, tag)
}

/// The plain tag that is like a tag in all that changes most.
fn parts_of(tag: &Tag) -> Tag {
    Tag {
        memory: plain_memory(),
        locks: plain().locks,
        ..tag.clone()
    }
}

fn by_parts(tag: &Tag) -> Term {
    let parts = [
        state(tag.state),
        truth(tag.id_flag),
        byte(tag.counter),
        mark(tag.mark),
        maybe(tag.permission.map(byte)),
    ];
    Term::call("tag_of", &parts)
}

/// A tag by another one, of which there is a term, and the parts that differ from that.
pub fn tag_like(base: Term, other: &Tag, tag: &Tag) -> Term {
    let parts = [
        (tag.memory != other.memory, "memory", memory(&tag.memory)),
        (tag.locks != other.locks, "locks", locks(tag.locks)),
        (tag.state != other.state, "state", state(tag.state)),
        (
            tag.id_flag != other.id_flag,
            "identified",
            truth(tag.id_flag),
        ),
        (tag.counter != other.counter, "counter", byte(tag.counter)),
        (tag.mark != other.mark, "mark", mark(tag.mark)),
        (
            tag.permission != other.permission,
            "permission",
            maybe(tag.permission.map(byte)),
        ),
    ];
    let changes: Vec<(&str, Term)> = parts
        .into_iter()
        .filter(|(differs, ..)| *differs)
        .map(|(_, name, term)| (name, term))
        .collect();
    if let [("identified", _)] = changes[..] {
        if tag.id_flag {
            return Term::call("flagged", &[base]);
        }
    }
    Term::changed(base, &changes)
}

#[cfg(test)]
mod tests {
    use super::*;

    fn spelt(term: Term) -> String {
        term.text().to_string()
    }

    #[test]
    fn brackets_stand_where_they_are_needed() {
        let list = single_bytes(&[0x00, 0xFF]);
        assert_eq!(spelt(list.clone()), "0x00 ∷ 0xff ∷ []");
        let some = maybe(Some(list.clone()));
        assert_eq!(spelt(some.clone()), "Some (0x00 ∷ 0xff ∷ [])");
        let lists = [list.clone(), Term::word("[]")];
        assert_eq!(spelt(Term::list(&lists)), "(0x00 ∷ 0xff ∷ []) ∷ [] ∷ []");
        assert_eq!(spelt(Term::list(&[some])), "Some (0x00 ∷ 0xff ∷ []) ∷ []");
        assert_eq!(
            spelt(Term::tuple(&[list, maybe(None)])),
            "(0x00 ∷ 0xff ∷ [], None)"
        );
    }

    #[test]
    fn bytes_are_spelt() {
        assert_eq!(spelt(bytes(&[])), "[]");
        assert_eq!(spelt(digits(&[])), "\"\"");
        assert_eq!(spelt(bytes(&[0x09, 0x8F, 0x26])), "bytes \"098F26\"");
    }

    #[test]
    fn runs_have_a_word() {
        assert_eq!(spelt(stretch(&[])), "[]");
        assert_eq!(spelt(stretch(&[7, 7, 7])), "bytes \"070707\"");
        assert_eq!(spelt(stretch(&[7; 6])), "replicate 6 0x07");
        assert_eq!(spelt(stretch(&plain_memory())), "range_with_len 0x40 56");
        assert_eq!(
            spelt(stretch(&[9, 1, 4, 4, 4, 4, 4, 4, 5])),
            "bytes \"0901\" ++ replicate 6 0x04 ++ bytes \"05\""
        );
        assert_eq!(
            spelt(single_stretch(&[9, 1, 4, 4, 4, 4, 4, 4, 5])),
            "0x09 ∷ 0x01 ∷ replicate 6 0x04 ++ 0x05 ∷ []"
        );
    }

    #[test]
    fn tags_by_their_parts() {
        assert_eq!(spelt(tag(&plain())), "tag_in Ready 0x00");
        assert_eq!(spelt(tag(&busy(State::Ready))), "busy Ready");
        let mut other = plain();
        other.memory[0] = 0;
        other.locks = Locks([0x80, 0, 0, 0, 0, 0, 0x01]);
        other.id_flag = true;
        other.mark = 1;
        assert_eq!(
            spelt(tag(&other)),
            "record (tag_of Ready true 0x00 Fading None) { memory = plain_but 0x00 \"00\"; \
             locks = locked_in (0x00 ∷ 0x37 ∷ []) }"
        );
    }
}
