//! Questions whose answers are worked out by hand, on pages of text. This implementation must answer each as its page says;
//! what it then writes down holds every other implementation to the same.
//!
//! On a page `#` begins a line of comment. A question may be followed by lines `= ANSWER`, one for each line of its answer
//! without the fingerprints at its end, and, where there is a field, by lines `~ TAG`, one for each place of the field, in
//! the words of the question `tag`. Of a long answer the first lines may be told by `=` and the last ones by `=..`.

use std::fmt::Display;

use crate::tag::Tag;
use crate::{question, reading, sweep_question, tag_question};

const FRAMES: &str = include_str!("../by-hand/frames.txt");
const TAGS: &str = include_str!("../by-hand/tags.txt");
const FIELDS: &str = include_str!("../by-hand/fields.txt");

/// What can be asked, one question after another.
trait Subject {
    type Question: Display;

    fn read(line: &str) -> Option<Self::Question>;

    fn answer(&mut self, question: &Self::Question) -> String;

    /// How many fingerprints end the last line of the answer at most.
    fn fingerprints(_: &Self::Question) -> usize {
        0
    }

    /// The tags that there now are, place by place.
    fn tags(&self) -> Vec<String> {
        Vec::new()
    }
}

struct Frames;

impl Subject for Frames {
    type Question = question::Question;

    fn read(line: &str) -> Option<question::Question> {
        reading::of_frames(line)
    }

    fn answer(&mut self, question: &question::Question) -> String {
        question.answer()
    }
}

impl Subject for Tag {
    type Question = tag_question::Question;

    fn read(line: &str) -> Option<tag_question::Question> {
        reading::of_tags(line)
    }

    fn answer(&mut self, question: &tag_question::Question) -> String {
        question.answer(self)
    }
}

impl Subject for sweep_question::Play {
    type Question = sweep_question::Question;

    fn read(line: &str) -> Option<sweep_question::Question> {
        reading::of_fields(line)
    }

    fn answer(&mut self, question: &sweep_question::Question) -> String {
        question.answer(self)
    }

    fn fingerprints(question: &sweep_question::Question) -> usize {
        question.fingerprints()
    }

    fn tags(&self) -> Vec<String> {
        let field = &self.field.field;
        (0..field.places())
            .map(|place| reading::record(field.tag(place)))
            .collect()
    }
}

pub fn frames() -> Result<Vec<(String, String)>, String> {
    asked("frames.txt", FRAMES, Frames)
}

/// Asked of the tag that is there.
pub fn tags(tag: Tag) -> Result<Vec<(String, String)>, String> {
    asked("tags.txt", TAGS, tag)
}

pub fn fields() -> Result<Vec<(String, String)>, String> {
    asked("fields.txt", FIELDS, sweep_question::Play::new())
}

/// A question of a page, with what is to come of it.
struct Entry<'a> {
    line: usize,
    question: &'a str,
    answer: Vec<&'a str>,
    /// The answer's last lines, where some before them are left out.
    ending: Vec<&'a str>,
    tags: Vec<&'a str>,
}

impl Entry<'_> {
    /// Whether this answer, without its fingerprints, is as the page says.
    fn answered(&self, found: &[String]) -> Result<(), String> {
        if self.ending.is_empty() {
            return agree(&self.answer, found);
        }
        let last = found.len().checked_sub(self.ending.len());
        let last = last.filter(|&last| last >= self.answer.len());
        let (front, ending) = found.split_at(last.ok_or("its answer is shorter")?);
        agree(&self.answer, &front[..self.answer.len()])?;
        agree(&self.ending, ending)
    }
}

/// The questions of a page in their order.
fn entries(page: &str) -> Result<Vec<Entry<'_>>, String> {
    let mut entries: Vec<Entry> = Vec::new();
    for (number, text) in (1..).zip(page.lines()) {
        if text.is_empty() || text.starts_with('#') {
            continue;
        }
        let Some((mark, told)) = told(text) else {
            entries.push(Entry {
                line: number,
                question: text,
                answer: Vec::new(),
                ending: Vec::new(),
                tags: Vec::new(),
            });
            continue;
        };
        let asked = entries.last_mut();
        let entry = asked.ok_or(format!("line {number}: nothing is asked"))?;
        match mark {
            "=" => entry.answer.push(told),
            "=.." => entry.ending.push(told),
            _ => entry.tags.push(told),
        }
    }
    Ok(entries)
}

/// The mark of a line that tells what comes of a question, and what it tells.
fn told(line: &str) -> Option<(&str, &str)> {
    let (mark, told) = line.split_once(' ')?;
    ["=", "=..", "~"].contains(&mark).then_some((mark, told))
}

/// The questions of a page with the answers to them, which must be those of the page.
fn asked<S: Subject>(
    name: &str,
    page: &str,
    mut subject: S,
) -> Result<Vec<(String, String)>, String> {
    let mut lines = Vec::new();
    for entry in entries(page).map_err(|error| format!("{name}, {error}"))? {
        let at = |error: String| format!("{name}, line {}: {error}", entry.line);
        let question = S::read(entry.question).ok_or_else(|| at("no question".to_string()))?;
        if question.to_string() != entry.question {
            return Err(at(format!("it is written {question}")));
        }
        let answer = subject.answer(&question);
        let found = without(&answer, S::fingerprints(&question));
        entry.answered(&found).map_err(at)?;
        agree(&entry.tags, &subject.tags()).map_err(at)?;
        lines.push((entry.question.to_string(), answer));
    }
    Ok(lines)
}

/// The lines of an answer, without the fingerprints at its end, of which there are so many at most.
fn without(answer: &str, most: usize) -> Vec<String> {
    let mut text = answer;
    for _ in 0..most {
        text = match text.rsplit_once(' ') {
            Some((front, last)) if is_fingerprint(last) => front,
            _ => text,
        };
    }
    text.lines().map(str::to_string).collect()
}

fn is_fingerprint(word: &str) -> bool {
    word.len() == 16 && word.bytes().all(|byte| byte.is_ascii_hexdigit())
}

/// Whether all that a page tells is so; it may tell nothing.
fn agree(told: &[&str], found: &[String]) -> Result<(), String> {
    if told.is_empty() || told == found {
        return Ok(());
    }
    Err(format!("it is {found:?} and not {told:?}"))
}

#[cfg(test)]
mod tests {
    use super::*;
    use crate::tag::{Locks, MEMORY_LENGTH};

    fn new_tag() -> Tag {
        Tag::new([0; MEMORY_LENGTH])
    }

    fn of_tags(page: &str) -> Result<Vec<(String, String)>, String> {
        asked("page", page, new_tag())
    }

    #[test]
    fn every_page_is_answered_as_it_says() {
        for page in [frames(), tags(new_tag()), fields()] {
            assert!(page.expect("the answers are those of the page").len() > 1);
        }
    }

    #[test]
    fn the_tag_that_is_there_is_asked() {
        let bare = Tag {
            locks: Locks([0; 7]),
            ..new_tag()
        };
        let lines = tags(bare).expect("the answers are those of the page");
        assert!(lines[0].1.ends_with(" C0000000000000 -"), "{}", lines[0].1);
    }

    #[test]
    fn other_answers_are_told() {
        let page = |answer: &str| of_tags(&format!("# A word\n\nset READY 0 7F 0 -\n{answer}"));
        assert_eq!(page("").map(|lines| lines.len()), Ok(1));
        assert_eq!(
            page("= READY 0 7F 0 - = = -").map(|lines| lines.len()),
            Ok(1)
        );
        let error = page("= READY 0 7E 0 - = = -").expect_err("the counter is another");
        assert!(error.starts_with("page, line 3: it is "), "{error}");
        assert!(page("~ READY").is_err());
    }

    #[test]
    fn what_is_no_page() {
        for page in ["= READY", "step", "step 2 00", "gap 07", "gap -1"] {
            assert!(of_tags(page).is_err(), "{page}");
        }
    }

    #[test]
    fn fingerprints_are_left_out() {
        let answer = "a b\nc 0123456789ABCDEF 0123456789ABCDEF";
        assert_eq!(without(answer, 2), ["a b", "c"]);
        assert_eq!(without(answer, 1), ["a b", "c 0123456789ABCDEF"]);
        assert_eq!(without("refused 6", 1), ["refused 6"]);
    }

    #[test]
    fn the_end_of_an_answer() {
        let page = |told: &str| {
            let tag = "tag READY 0 00 0 - C0000000000000 EF04";
            let text = format!("{tag}\nfield single\nsweep 9 9 9 0000000000000000\n{told}");
            asked("page", &text, sweep_question::Play::new())
        };
        let slot = "= \x20    1     0     1     0\n";
        let number = "=..  239   4   0   0   0   0   0   0\n";
        let sums = "=.. \x20    0     1     0     0     3\n";
        for told in [
            "=.. swept".to_string(),
            format!("{sums}=.. swept"),
            format!("{number}{sums}=.. swept"),
            format!("{slot}=.. swept"),
            format!("{slot}{number}{sums}=.. swept"),
        ] {
            assert!(page(&told).is_ok(), "{told}");
        }
        for told in [
            sums.to_string(),
            format!("{number}=.. swept"),
            format!("{slot}{slot}{number}{sums}=.. swept"),
            format!("= swept\n{sums}=.. swept"),
            format!("{slot}= swept"),
        ] {
            assert!(page(&told).is_err(), "{told}");
        }
    }

    #[test]
    fn tags_of_a_field() {
        let page = |tags: &str| {
            let text = format!("tag READY 0 00 0 - C0000000000000 0102\nfield bench 1\n{tags}");
            asked("page", &text, sweep_question::Play::new())
        };
        assert!(page("= places 1\n~ READY 0 00 0 - C0000000000000 0102").is_ok());
        assert!(page("= places 1\n~ READY 0 01 0 - C0000000000000 0102").is_err());
        assert!(page("= places 2").is_err());
    }
}
