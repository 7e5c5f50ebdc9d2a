//! Writes questions about the chip and the answers expected to them.

mod asked;
mod by_hand;
mod cases;
mod crc;
mod field;
mod field_acts;
mod field_asker;
mod field_cases;
mod field_question;
mod fingerprint;
mod frame;
mod layers;
mod list;
mod listener;
mod listings;
mod nesting;
mod order;
mod question;
mod random;
mod reading;
mod sheet;
mod speed;
mod sweep;
mod sweep_asker;
mod sweep_cases;
mod sweep_question;
mod sweep_speed;
mod tag;
mod tag_asker;
mod tag_cases;
mod tag_lives;
mod tag_question;

use std::ffi::OsString;
use std::path::{Path, PathBuf};
use std::process::ExitCode;
use std::{env, fs};

use speed::Load;

const USAGE: &str = "usage: second frames SEED INPUT_FILE OUTPUT_FILE
       second tags SEED INPUT_FILE OUTPUT_FILE
       second fields SEED INPUT_FILE OUTPUT_FILE
       second speed query SENDS
       second speed read SENDS
       second speed sweeps SWEEPS
       second listings FOLDER";

/// What the questions are about.
#[derive(Clone, Copy)]
enum Subject {
    Frames,
    Tags,
    /// Sweeps of them too.
    Fields,
}

/// Questions and answers that are wanted.
struct Job {
    subject: Subject,
    seed: u64,
    input: PathBuf,
    output: PathBuf,
}

/// How fast fields and sweeps are.
#[derive(Debug, PartialEq)]
enum Race {
    /// By sends of one kind.
    Sends {
        load: Load,
        sends: u64,
    },
    Sweeps {
        sweeps: u64,
    },
}

impl Race {
    /// The line that is printed.
    fn run(&self) -> String {
        match *self {
            Race::Sends { load, sends } => speed::run(load, sends).to_string(),
            Race::Sweeps { sweeps } => sweep_speed::run(sweeps).to_string(),
        }
    }
}

fn main() -> ExitCode {
    let words: Vec<OsString> = env::args_os().skip(1).collect();
    if asks_for_help(&words) {
        println!("{USAGE}");
        return ExitCode::SUCCESS;
    }
    if let Some(race) = understand_race(&words) {
        println!("{}", race.run());
        return ExitCode::SUCCESS;
    }
    let result = if let Some(folder) = understand_listings(&words) {
        write_listings(&folder)
    } else if let Some(job) = understand(&words) {
        run(&job)
    } else {
        eprintln!("second: {}\n{USAGE}", fault(&words));
        return ExitCode::from(2);
    };
    match result {
        Ok(()) => ExitCode::SUCCESS,
        Err(error) => {
            eprintln!("second: {error}");
            ExitCode::FAILURE
        }
    }
}

fn asks_for_help(words: &[OsString]) -> bool {
    words.first().is_some_and(|word| word == "--help")
}

/// What is wrong with words that are no job.
fn fault(words: &[OsString]) -> String {
    let Some(verb) = words.first() else {
        return "a word is missing".to_string();
    };
    let verb = verb.to_string_lossy();
    match verb.as_ref() {
        "frames" | "tags" | "fields" | "speed" | "listings" => {
            format!("wrong words behind {verb}")
        }
        _ => format!("unknown word: {verb}"),
    }
}

fn understand_race(words: &[OsString]) -> Option<Race> {
    let [verb, kind, times] = words else {
        return None;
    };
    let times = times.to_str()?.parse().ok()?;
    let sends = |load| Race::Sends { load, sends: times };
    match (verb.to_str()?, kind.to_str()?) {
        ("speed", "query") => Some(sends(Load::Query)),
        ("speed", "read") => Some(sends(Load::Read)),
        ("speed", "sweeps") => Some(Race::Sweeps { sweeps: times }),
        _ => None,
    }
}

/// The folder of the crates whose listings are wanted.
fn understand_listings(words: &[OsString]) -> Option<PathBuf> {
    let [verb, folder] = words else {
        return None;
    };
    (verb.to_str()? == "listings").then(|| folder.into())
}

fn understand(words: &[OsString]) -> Option<Job> {
    let [verb, seed, input, output] = words else {
        return None;
    };
    let subject = match verb.to_str()? {
        "frames" => Subject::Frames,
        "tags" => Subject::Tags,
        "fields" => Subject::Fields,
        _ => return None,
    };
    let seed = seed.to_str()?.parse().ok()?;
    Some(Job {
        subject,
        seed,
        input: input.into(),
        output: output.into(),
    })
}

fn run(job: &Job) -> Result<(), String> {
    let mut questions = String::new();
    let mut answers = String::new();
    for (question, answer) in lines(job)? {
        questions += &format!("{question}\n");
        answers += &format!("{answer}\n");
    }
    save(&job.input, &questions)?;
    save(&job.output, &answers)
}

/// Each question with its answer: those of the seed, and then those that are answered by hand.
fn lines(job: &Job) -> Result<Vec<(String, String)>, String> {
    let (mut lines, by_hand): (Vec<(String, String)>, _) = match job.subject {
        Subject::Frames => (
            cases::all(job.seed)
                .iter()
                .map(|question| (question.to_string(), question.answer()))
                .collect(),
            by_hand::frames()?,
        ),
        Subject::Tags => {
            let asker = tag_cases::asker(job.seed);
            let lines = asker.asked.into_iter();
            (
                lines
                    .map(|asked| (asked.question.to_string(), asked.answer))
                    .collect(),
                by_hand::tags(asker.tag)?,
            )
        }
        Subject::Fields => {
            let fields = field_cases::all(job.seed)
                .into_iter()
                .map(|asked| (asked.question.to_string(), asked.answer));
            let sweeps = sweep_cases::all(job.seed)
                .into_iter()
                .map(|asked| (asked.question.to_string(), asked.answer));
            (fields.chain(sweeps).collect(), by_hand::fields()?)
        }
    };
    lines.extend(by_hand);
    Ok(lines)
}

fn write_listings(folder: &Path) -> Result<(), String> {
    for (name, text) in listings::files() {
        let path = folder.join(name);
        let specs = path.parent().expect("a file lies in a folder");
        fs::create_dir_all(specs).map_err(|error| format!("{}: {error}", specs.display()))?;
        save(&path, &text)?;
    }
    Ok(())
}

fn save(path: &Path, text: &str) -> Result<(), String> {
    fs::write(path, text).map_err(|error| format!("{}: {error}", path.display()))
}

#[cfg(test)]
mod tests {
    use super::*;

    fn understood(line: &str) -> bool {
        let words: Vec<OsString> = line.split_whitespace().map(OsString::from).collect();
        understand(&words).is_some()
    }

    fn race(line: &str) -> Option<Race> {
        let words: Vec<OsString> = line.split_whitespace().map(OsString::from).collect();
        understand_race(&words)
    }

    fn asked(line: &str) -> Vec<(String, String)> {
        let words: Vec<OsString> = line.split_whitespace().map(OsString::from).collect();
        let job = understand(&words).expect("the arguments are right");
        lines(&job).expect("the pages are right")
    }

    #[test]
    fn help_is_the_first_word() {
        let asks = |line: &str| {
            let words: Vec<OsString> = line.split_whitespace().map(OsString::from).collect();
            asks_for_help(&words)
        };
        assert!(asks("--help"));
        assert!(asks("--help speed"));
        assert!(!asks("speed --help"));
        assert!(!asks("help"));
        assert!(!asks(""));
    }

    #[test]
    fn faults_are_told() {
        let told = |line: &str| {
            let words: Vec<OsString> = line.split_whitespace().map(OsString::from).collect();
            fault(&words)
        };
        assert_eq!(told(""), "a word is missing");
        assert_eq!(told("race query 7"), "unknown word: race");
        assert_eq!(told("speed write 7"), "wrong words behind speed");
        assert_eq!(told("frames"), "wrong words behind frames");
    }

    #[test]
    fn the_verb_settles_the_subject() {
        let first = |line: &str| asked(line)[0].0.clone();
        assert!(first("frames 1 q a").starts_with("check "));
        assert!(first("tags 1 q a").starts_with("step "));
    }

    #[test]
    fn questions_about_fields_begin_with_a_table() {
        let first = asked("fields 1 q a")[0].0.clone();
        assert!(["tag ", "find ", "field "]
            .iter()
            .any(|verb| first.starts_with(verb)));
    }

    /// A play ends between them, so no answer hangs on a question of the other kind.
    #[test]
    fn questions_about_sweeps_stand_behind_those_about_fields() {
        let asked = asked("fields 1 q a");
        let fields = field_cases::all(1);
        assert!(fields.last().is_some_and(|last| last.answer == "end"));
        let (fields, sweeps) = asked.split_at(fields.len());
        let is_sweep = |(question, _): &(String, String)| question.starts_with("sweep ");
        assert!(!fields.iter().any(is_sweep));
        assert!(sweeps.iter().any(is_sweep));
        assert!(sweeps[0].0.starts_with("tag "));
        assert!(asked.last().is_some_and(|(question, _)| question == "end"));
    }

    #[test]
    fn loads_and_numbers_of_sends() {
        let speed = |load, sends| Some(Race::Sends { load, sends });
        assert_eq!(race("speed query 7"), speed(Load::Query, 7));
        assert_eq!(race("speed read 0"), speed(Load::Read, 0));
        assert_eq!(race("speed sweeps 7"), Some(Race::Sweeps { sweeps: 7 }));
        assert_eq!(race("speed"), None);
        assert_eq!(race("speed query"), None);
        assert_eq!(race("speed 7 query"), None);
        assert_eq!(race("speed write 7"), None);
        assert_eq!(race("speed query -1"), None);
        assert_eq!(race("speed query 7 8"), None);
        assert_eq!(race("query 7"), None);
    }

    #[test]
    fn listings_take_a_folder() {
        let folder = |line: &str| {
            let words: Vec<OsString> = line.split_whitespace().map(OsString::from).collect();
            understand_listings(&words)
        };
        assert_eq!(folder("listings crates"), Some("crates".into()));
        assert_eq!(folder("listings"), None);
        assert_eq!(folder("listing crates"), None);
        assert_eq!(folder("listings crates 7"), None);
    }

    #[test]
    fn only_the_right_arguments_are_understood() {
        assert!(understood("frames 1 q a"));
        assert!(understood("tags 1 q a"));
        assert!(understood("frames 18446744073709551615 q a"));
        assert!(!understood("frames 18446744073709551616 q a"));
        assert!(!understood("frames x q a"));
        assert!(!understood("frames 1 q"));
        assert!(!understood("frames 1 q a b"));
        assert!(!understood("tags 1 q"));
        assert!(!understood("tag 1 q a"));
        assert!(!understood("words 1 q a"));
        assert!(!understood(""));
    }

    #[test]
    fn fields_take_as_many_arguments() {
        assert!(understood("fields 1 q a"));
        assert!(!understood("fields 1 q"));
        assert!(!understood("field 1 q a"));
    }

    #[test]
    fn sweeps_are_no_subject_of_their_own() {
        assert!(!understood("sweeps 1 q a"));
        assert!(!USAGE.contains("second sweeps SEED"));
    }
}
