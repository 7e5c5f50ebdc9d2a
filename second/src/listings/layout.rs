//! Rows of a listing on as few lines as they need, as the toolchain lays them out.

use super::listing::Row;

/// So many characters may stand on a line.
const WIDTH: usize = 119;

/// What stands in front of a row, of a part that has a line of its own, and of where such a part goes on.
const INDENT: &str = "    ";
const DEEPER: &str = "      ";
const DEEPEST: &str = "          ";

/// The rows as a list, from its bracket to its end.
pub fn lines(rows: &[Row]) -> String {
    let mut page = Page::new();
    for (place, row) in rows.iter().enumerate() {
        page.put_row(if place == 0 { "(" } else { "∷ " }, row);
    }
    page.put("∷ [])", INDENT);
    page.turn();
    page.lines
}

struct Page {
    /// Those that are full, each with its end.
    lines: String,
    /// The one that is being filled.
    line: String,
}

impl Page {
    fn new() -> Page {
        Page {
            lines: String::new(),
            line: String::new(),
        }
    }

    fn put_row(&mut self, front: &str, row: &Row) {
        let whole = front.to_string() + &row.text();
        if fits(INDENT, &whole) {
            self.put(&whole, INDENT);
            return;
        }
        self.turn();
        match row.word {
            Some(word) => self.put_call(&format!("{front}{word}"), &row.parts),
            None => self.put_tuple(front, &row.parts),
        }
    }

    /// A call over some lines.
    fn put_call(&mut self, front: &str, arguments: &[String]) {
        self.put(front, INDENT);
        for argument in arguments {
            self.put_term(argument, INDENT, INDENT);
        }
        self.turn();
    }

    /// A tuple with a line for each part.
    fn put_tuple(&mut self, front: &str, parts: &[String]) {
        self.put(&format!("{front}("), INDENT);
        for part in parts {
            self.turn();
            self.put_term(&format!("{part},"), DEEPER, DEEPEST);
        }
        self.turn();
        self.put(")", INDENT);
        self.turn();
    }

    /// A term, which goes on with another indent. It is cut where a list goes on if it does not fit on a line.
    fn put_term(&mut self, term: &str, indent: &str, deeper: &str) {
        if fits(indent, term) {
            self.put(term, indent);
            return;
        }
        let mut indent = indent;
        for piece in pieces(term) {
            self.put(&piece, indent);
            indent = deeper;
        }
    }

    /// Puts a piece behind what stands on the line, or on a new one if it does not fit.
    fn put(&mut self, piece: &str, indent: &str) {
        let behind = format!(" {piece}");
        if !self.line.is_empty() && fits(&self.line, &behind) {
            self.line += &behind;
            return;
        }
        self.turn();
        self.line = indent.to_string() + piece;
    }

    /// Begins a new line.
    fn turn(&mut self) {
        if !self.line.is_empty() {
            self.lines += &self.line;
            self.lines.push('\n');
            self.line.clear();
        }
    }
}

fn fits(front: &str, piece: &str) -> bool {
    front.chars().count() + piece.chars().count() <= WIDTH
}

/// A term cut in front of each `∷` and `++` that stands in as few brackets as any, but in no record.
fn pieces(term: &str) -> Vec<String> {
    let words: Vec<(&str, Option<usize>)> = term.split(' ').zip(depths_of_joins(term)).collect();
    let least = words.iter().filter_map(|(_, depth)| *depth).min();
    let mut pieces: Vec<String> = Vec::new();
    for (word, depth) in words {
        let joins = depth.is_some() && depth == least;
        match pieces.last_mut() {
            Some(last) if !joins => *last += &format!(" {word}"),
            _ => pieces.push(word.to_string()),
        }
    }
    pieces
}

/// For each word of a term in how many brackets it stands, if it is a `∷` or `++` and in no record.
fn depths_of_joins(term: &str) -> Vec<Option<usize>> {
    let mut opened = 0;
    let mut records = 0;
    let mut quoted = false;
    let mut depth_of = |word: &str| {
        let joins = !quoted && records == 0 && matches!(word, "∷" | "++");
        let found = joins.then_some(opened);
        let count = |sign: char| word.matches(sign).count();
        quoted ^= count('"') % 2 == 1;
        opened = opened + count('(') - count(')');
        records = records + count('{') - count('}');
        found
    };
    term.split(' ').map(|word| depth_of(word)).collect()
}

#[cfg(test)]
mod tests {
    use super::super::listing::{row, row_by};
    use super::super::term::{number, text, Term};
    use super::*;

    #[test]
    fn short_rows_share_a_line() {
        let rows: Vec<Row> = (1..3).map(|each| row(&[number(each), number(7)])).collect();
        assert_eq!(lines(&rows), "    ((1, 7) ∷ (2, 7) ∷ [])\n");
    }

    #[test]
    fn long_tuples_have_a_line_for_each_part() {
        let long = "x".repeat(80);
        let list = Term::list(&[text(&long), text("a b"), text(&long)]);
        let rows = [row(&[number(1)]), row(&[text(&long), list, number(2)])];
        assert_eq!(
            lines(&rows),
            format!(
                "    (1\n    ∷ (\n      \"{long}\",\n      \"{long}\" ∷ \"a b\"\n          \
                 ∷ \"{long}\" ∷ [],\n      2,\n    )\n    ∷ [])\n"
            )
        );
    }

    #[test]
    fn long_calls_go_on() {
        let long = "x".repeat(80);
        let rows = [row_by("f", &[text(&long), text(&long), number(2)])];
        assert_eq!(
            lines(&rows),
            format!("    (f \"{long}\"\n    \"{long}\" 2\n    ∷ [])\n")
        );
    }

    #[test]
    fn terms_are_cut_where_lists_go_on() {
        assert_eq!(
            pieces("f \"a ∷ b\" ∷ (g ∷ []) ∷ []"),
            ["f \"a ∷ b\"", "∷ (g ∷ [])", "∷ []"]
        );
        assert_eq!(
            pieces("f 1 (g ∷ h (i ∷ []) ∷ [])"),
            ["f 1 (g", "∷ h (i ∷ [])", "∷ [])"]
        );
        assert_eq!(
            pieces("((a, b) ∷ (c, d) ∷ [])"),
            ["((a, b)", "∷ (c, d)", "∷ [])"]
        );
    }
}
