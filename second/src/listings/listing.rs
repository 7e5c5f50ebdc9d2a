//! Listings as the repository lays them out.

use std::fmt;

use super::layout::lines;
use super::term::Term;

/// A proposition over one listing: what is said of each row, and the rows.
pub struct Listing {
    /// What a reader is told of it.
    pub about: &'static str,
    pub name: &'static str,
    /// What is said of each row, as a term.
    pub law: String,
    pub rows: Vec<Row>,
}

impl fmt::Display for Listing {
    fn fmt(&self, out: &mut fmt::Formatter) -> fmt::Result {
        let Listing {
            about, name, law, ..
        } = self;
        write!(
            out,
            "\n-- {about}\nunfoldable pub {name} : Type 0\n{name} =\n    AllByRecursion {law}\n{}",
            lines(&self.rows)
        )
    }
}

/// What one case has, in the order in which the law names it.
#[derive(Clone, PartialEq)]
pub struct Row {
    /// The word that makes a row of its parts, where rows are longer than a line: a tuple over several lines has one for
    /// each part.
    pub word: Option<&'static str>,
    pub parts: Vec<String>,
}

impl Row {
    pub fn text(&self) -> String {
        let parts = &self.parts;
        match self.word {
            Some(word) => format!("{word} {}", parts.join(" ")),
            None if parts.len() == 1 => parts[0].clone(),
            None => format!("({})", parts.join(", ")),
        }
    }
}

pub fn row(parts: &[Term]) -> Row {
    Row {
        word: None,
        parts: parts.iter().map(|part| part.text().to_string()).collect(),
    }
}

/// A row by the word that makes it.
pub fn row_by(word: &'static str, parts: &[Term]) -> Row {
    Row {
        word: Some(word),
        parts: parts.iter().map(Term::argument).collect(),
    }
}

/// A file: what stands before the listings, and these.
pub fn file(head: &str, listings: &[Listing]) -> String {
    let listings: String = listings.iter().map(Listing::to_string).collect();
    head.to_string() + &listings
}
