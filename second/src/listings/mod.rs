//! Worked cases at the limits, each kind a proposition for the prover: whole files of definitions, one for each subject.

mod bench;
mod composite_fields;
mod crc;
mod crowd;
mod field;
mod field_cases;
mod frame;
mod layout;
mod listing;
mod notation;
mod panel;
mod protocol;
mod record;
mod reply;
mod sheet;
mod sweep;
mod tag;
mod term;
mod words;

/// The files of the crate of worked cases, by their modules.
fn subjects() -> [(&'static str, String); 13] {
    [
        ("Bench", bench::file()),
        ("CompositeFields", composite_fields::file()),
        ("Crc", crc::file()),
        ("Field", field::file()),
        ("Frame", frame::file()),
        ("Notation", notation::file()),
        ("Protocol", protocol::file()),
        ("Record", record::file()),
        ("Reply", reply::file()),
        ("Sheet", sheet::file()),
        ("Sweep", sweep::file()),
        ("Tag", tag::file()),
        ("Words", words::file()),
    ]
}

/// Each file by its path among the crates. What no crate can stand on has its own.
pub fn files() -> Vec<(String, String)> {
    let subjects = subjects();
    let modules = subjects.iter().map(|(name, _)| format!("pub mod {name}\n"));
    let mut files = vec![
        (
            "field_cases/specs/Listings.antt".to_string(),
            field_cases::file(),
        ),
        ("panel/specs/Listings.antt".to_string(), panel::file()),
        ("worked_cases/specs/Lib.antt".to_string(), modules.collect()),
    ];
    files.extend(subjects.map(|(name, text)| (format!("worked_cases/specs/{name}.antt"), text)));
    files
}

#[cfg(test)]
mod tests {
    use super::*;

    /// Whether a list ends just where the listing does.
    fn ends_once(listing: &str) -> bool {
        let end = "∷ [])\n\n";
        (listing.to_string() + "\n").matches(end).count() == 1
    }

    #[test]
    fn every_file_is_whole() {
        for (name, text) in files() {
            assert!(text.ends_with('\n') && !text.contains("()"), "{name}");
            let mut listings = text.split("AllByRecursion ").skip(1).peekable();
            let imports =
                ["AllByRecursion}", "AllByRecursion,"].map(|word| text.matches(word).count());
            assert_eq!(
                imports.iter().sum::<usize>(),
                usize::from(listings.peek().is_some()),
                "{name}"
            );
            assert!(listings.all(|listing| ends_once(listing)), "{name}");
        }
    }

    #[test]
    fn every_line_can_be_read() {
        for (name, text) in files() {
            let longest = text.lines().map(|line| line.chars().count()).max();
            assert!(longest < Some(120), "{name}: {longest:?}");
        }
    }
}
