//! Sweeps of small crowds, and what becomes of their tags.

use super::crowd::{bench, carrier, heard, hearing_term, numbered, tags_in, tags_term};
use super::listing::{file as file_of, row, row_by, Listing, Row};
use super::term::{command, digits, number, wide, Term};
use super::words::{report_term, slots_term};
use crate::field::{Field, Hearing};
use crate::frame::Name;
use crate::layers::Spoiler;
use crate::list::List;
use crate::listener::{Listener, Sent};
use crate::order::{Serial, SERIAL_LENGTH};
use crate::sweep::{run, Outcome, Slot};
use crate::tag::{State, Tag};

use State::{Inventoried, Ready, Singulation};

const HEAD: &str = "\
-- Sweeps at the limits, by the second implementation, which wrote this file. Assumes nothing.
use Prim.Native.String.{String}
use Rattle.std.specs.Prelude.{◌≡◌, ℕ, ◌+◌, true, false, List, [], ◌∷◌, ◌++◌, map, Some}
use Rattle.std.specs.List.{AllByRecursion, range_with_len}
use Rattle.protocol.specs.declared.command.Command.{Command}
use Rattle.protocol.specs.declared.command.Command.TheVariants.{Select, Query, Scroll}
use Rattle.record.specs.declared.State.TheVariants.{Ready, Singulation, Inventoried}
use Rattle.record.specs.declared.WriteMark.TheVariants.{Fading, Fresh}
use Rattle.record.specs.declared.Tag.{Tag}
use Rattle.field.specs.declared.hearing.Hearing.{Hearing}
use Rattle.field.specs.declared.hearing.Hearing.TheVariants.{Silence, Lone, Clash}
use Rattle.slot.specs.declared.ending.End.TheVariants.{Whole, Stopped}
use Rattle.slot.specs.declared.ending.Report.{Report}
use Rattle.slot.specs.declared.ending.Stop.TheVariants.{Spent, Full}
use Rattle.slot.specs.Commands.{query}
use Rattle.slot.specs.Rules.{Setting, SweepState, Action, in_clash, beginning, stops, opens, next_action, run_by}
use Rattle.slot.specs.Rules.{MayHearAll, replayed}
use Rattle.sweep.specs.Effects.{tag_after_sweep, due_serials}
use Rattle.sweep.specs.Tallies.{enough}
use Rattle.sweep.specs.Whole.{Reported}
use Rattle.worked_cases.specs.Words.{bytes, flagged, numbered, carrier, carriers_from, slot_row, report_of}

-- Recorded rows, a budget, and room for slots and for serial numbers.
abbrev pub setting_of : List ℕ → ℕ → ℕ → ℕ → Setting
setting_of rows budget slot_room serial_room =
    record { coins = rows; budget = budget; slot_room = slot_room; serial_room = serial_room }

-- What a sweep is given, the tags before it, and what is heard at each action; then its report, its slots and serial
-- numbers, the tags after it, and how many of its commands are READs.
abbrev pub SweepCase : Type 0
SweepCase =
    Setting × List Tag × List Hearing × Report × List (Command × Hearing × ℕ) × List String × List Tag × ℕ

abbrev pub swept :
    Setting → List Tag → List Hearing → Report → List (Command × Hearing × ℕ) → List String → List Tag → ℕ → SweepCase
swept set before hearings report slots serials after reads =
    (set, before, hearings, report, slots, serials, after, reads)

-- A sweep that has ended gives what the case tells.
abbrev pub Gives : SweepCase → SweepState → Type 0
Gives (set, before, hearings, report, slots, serials, after, reads) play =
    Reported (record { report = report; slots = map slot_row slots; serials = map bytes serials }) after play
    × (play.reads ≡ reads)

-- These hearings may come, and with them it gives that.
abbrev pub PlaysOut : SweepCase → Type 0
PlaysOut x = MayHearAll x.0 x.2 (beginning x.1) × Gives x (run_by x.0 x.2 (beginning x.1))

-- It gives that too by the rule alone, where every lone reply is heard as lone.
abbrev pub Replays : SweepCase → Type 0
Replays x = Gives x (replayed x.0 (enough x.0) (beginning x.1))

-- A sweep that has heard nothing but clashes, as so many groups wait. What the reader does next hangs on no tag.
abbrev pub clashing : ℕ → SweepState
clashing groups =
    record {
      phase = in_clash;
      waiting = groups;
      next = 1;
      commands = groups + 1;
      reads = 0;
      slots = map (λ waiting. slot_row (Query, Clash, waiting)) (range_with_len 0 (groups + 1));
      serials = [];
      tags = [];
    }
";

/// What stands in lists before a sweep.
const UNUSED: Slot = Slot {
    name: Name::Repeat,
    hearing: Hearing::Clash,
    waiting: 0xA5,
};

pub fn file() -> String {
    file_of(HEAD, &[sweeps(), spoiled_sweeps(), deep_sweeps(), fates()])
}

/// Rows of coins, a budget, and room for slots and for serial numbers.
#[derive(Clone, Copy)]
struct Setting<'a>(&'a [u64], u16, usize, usize);

/// What came of a sweep.
struct Swept {
    before: Vec<Tag>,
    outcome: Outcome,
    slots: Vec<Slot>,
    serials: Vec<Serial>,
    after: Vec<Tag>,
    sent: Vec<Sent>,
}

fn sweep(field: &mut dyn Field, setting: Setting) -> Swept {
    let Setting(rows, budget, slots, serials) = setting;
    let before = tags_in(field);
    let (mut slots, mut serials) = (vec![UNUSED; slots], vec![[0xA5; SERIAL_LENGTH]; serials]);
    let (mut slots, mut serials) = (List::new(&mut slots), List::new(&mut serials));
    let mut listener = Listener::new(field);
    let outcome = run(&mut listener, rows, budget, &mut slots, &mut serials);
    let sent = listener.sent;
    Swept {
        before,
        outcome: outcome.expect("the rows are not too many"),
        slots: slots.rows().to_vec(),
        serials: serials.rows().to_vec(),
        after: tags_in(field),
        sent,
    }
}

/// Tags that are READY.
fn ready(numbers: &[u8]) -> Vec<Tag> {
    let each = |&number: &u8| carrier(number, Ready, 0);
    numbers.iter().map(each).collect()
}

/// Tags of each kind: one that matches, one that was read before, one that does not match, and such a one that is in
/// SINGULATION. Two of them are due.
fn mixed() -> Vec<Tag> {
    vec![
        carrier(1, Ready, 0),
        Tag {
            id_flag: true,
            mark: 2,
            permission: Some(0x05),
            ..carrier(2, Inventoried, 3)
        },
        numbered(3, Ready, 0),
        numbered(4, Singulation, 9),
    ]
}

fn serials_term(serials: &[Serial]) -> Term {
    Term::list(
        &serials
            .iter()
            .map(|serial| digits(serial))
            .collect::<Vec<_>>(),
    )
}

fn setting_term(Setting(rows, budget, slots, serials): Setting) -> Term {
    let rows: Vec<Term> = rows.iter().map(|&row| wide(row)).collect();
    let rooms = (number(slots), number(serials));
    Term::call(
        "setting_of",
        &[Term::list(&rows), number(budget), rooms.0, rooms.1],
    )
}

fn is_read(sent: &&Sent) -> bool {
    sent.frame[0] == Name::Read as u8
}

/// What was heard at each action: nothing where a serial number is listed, or where the sweep stops.
fn hearings_term(swept: &Swept) -> Term {
    let mut all = Vec::new();
    for sent in &swept.sent {
        all.push(hearing_term(sent.heard));
        if sent.heard == Hearing::Lone && !is_read(&sent) {
            all.push(hearing_term(Hearing::Silence));
        }
    }
    let all_are_listed = swept.outcome.lone == swept.serials.len();
    if swept.outcome.end.is_err() && all_are_listed {
        all.push(hearing_term(Hearing::Silence));
    }
    Term::list(&all)
}

fn sweep_row(setting: Setting, swept: &Swept) -> Row {
    row_by(
        "swept",
        &[
            setting_term(setting),
            tags_term(&swept.before),
            hearings_term(swept),
            report_term(&swept.outcome),
            slots_term(&swept.slots),
            serials_term(&swept.serials),
            tags_term(&swept.after),
            number(swept.sent.iter().filter(is_read).count()),
        ],
    )
}

fn sweeps() -> Listing {
    let none = ready(&[]);
    let one = ready(&[1]);
    let two = ready(&[1, 2]);
    let twins = ready(&[1, 1]);
    let four = ready(&[1, 2, 3, 4]);
    let cases = [
        (&none, Setting(&[2], 2, 1, 0)),
        (&one, Setting(&[2], 3, 1, 1)),
        (&two, Setting(&[2], 6, 3, 2)),
        // The budget is spent before each kind of command.
        (&two, Setting(&[2], 0, 0, 0)),
        (&two, Setting(&[2], 1, 1, 0)),
        (&two, Setting(&[2], 2, 2, 1)),
        (&two, Setting(&[2], 3, 2, 1)),
        (&two, Setting(&[2], 4, 3, 2)),
        (&two, Setting(&[2], 5, 3, 2)),
        // A list is full.
        (&two, Setting(&[2], 1, 0, 0)),
        (&two, Setting(&[2], 2, 1, 0)),
        (&two, Setting(&[2], 4, 2, 1)),
        (&two, Setting(&[2], 2, 2, 0)),
        (&two, Setting(&[2], 4, 3, 1)),
        // All lose, come back, stay together, and the first row is drawn again.
        (&two, Setting(&[3, 0], 5, 5, 0)),
        (&four, Setting(&[0b1100, 0b1010], 14, 9, 4)),
        (&mixed(), Setting(&[1], 6, 3, 2)),
        (&twins, Setting(&[2], 4, 2, 1)),
    ];
    let row_of = |&(tags, setting): &(&Vec<Tag>, Setting)| {
        sweep_row(setting, &sweep(&mut bench(tags.clone()), setting))
    };
    Listing {
        about: "Sweeps of none to four tags that hear each lone reply as lone: whole, the budget spent before each kind of command,\n-- a list full.",
        name: "WorkedSweeps",
        law: "{X = SweepCase} (λ x. PlaysOut x × Replays x)".into(),
        rows: cases.iter().map(row_of).collect(),
    }
}

fn spoiled_sweeps() -> Listing {
    let cases = [
        // A READ is spoiled.
        (2, 0, &[1][..], Setting(&[2], 4, 1, 1)),
        // And the first reply before it.
        (2, 1, &[1], Setting(&[2], 6, 3, 1)),
        // The last of two tags is heard alone only behind one more split.
        (3, 0, &[1, 2], Setting(&[2], 9, 5, 2)),
        // No reply is ever heard alone.
        (1, 0, &[1], Setting(&[0, 1], 5, 5, 1)),
    ];
    let row_of = |&(period, before, numbers, setting): &(u16, u16, &[u8], Setting)| {
        let spoiler = Spoiler::new(period, bench(vec![numbered(1, Singulation, 0)]));
        let mut spoiler = spoiler.expect("there is a period");
        for _ in 0..before {
            heard(&mut spoiler, |_| ());
        }
        let mut field = spoiler.over(bench(ready(numbers)));
        sweep_row(setting, &sweep(&mut field, setting))
    };
    Listing {
        about: "Sweeps in which some lone replies are heard as clashes, as a spoiler hears them.",
        name: "SpoiledSweeps",
        law: "PlaysOut".into(),
        rows: cases.iter().map(row_of).collect(),
    }
}

/// What a reader does where so many groups wait behind a clash.
fn action(swept: &Swept, groups: usize) -> Term {
    assert_eq!(usize::from(swept.slots[groups].waiting), groups);
    let Some(slot) = swept.slots.get(groups + 1) else {
        return Term::call("stops", &[number(swept.outcome.number())]);
    };
    let coins = wide(swept.sent[groups + 1].row);
    let (sent, waiting) = (Term::word("query"), number(slot.waiting));
    Term::call(
        "opens",
        &[command(slot.name), sent, coins, waiting, number(1)],
    )
}

fn deep_sweeps() -> Listing {
    let cases = [
        (256, 256, 254),
        (u16::MAX, 257, 255),
        (256, 256, 255),
        (255, 256, 254),
        (256, 255, 254),
        (255, 255, 254),
    ];
    let row_of = |&(budget, room, groups): &(u16, usize, usize)| {
        let setting = Setting(&[0], budget, room, 0);
        let swept = sweep(&mut bench(ready(&[1, 2])), setting);
        row(&[
            setting_term(setting),
            number(groups),
            action(&swept, groups),
        ])
    };
    Listing {
        about: "What a sweep is given, how many groups wait behind a clash, and what the reader does: 7 comes before 8 and 9.",
        name: "DeepSweeps",
        law: "{X = Setting × ℕ × Action} (λ (set, groups, action). next_action set (clashing groups) ≡ action)".into(),
        rows: cases.iter().map(row_of).collect(),
    }
}

/// Where the tag of a serial number stands.
fn place(serial: &Serial, tags: &[Tag]) -> usize {
    let found = tags.iter().position(|tag| tag.memory.starts_with(serial));
    found.expect("what is listed is there")
}

fn fates() -> Listing {
    let states = [Ready, Singulation, Inventoried]
        .map(|state| carrier(state as u8, state, 7))
        .to_vec();
    let strangers = [Ready, Singulation, Inventoried]
        .map(|state| numbered(state as u8, state, 7))
        .to_vec();
    let marked = (1..3).map(|number| Tag {
        mark: number,
        permission: Some(number),
        ..carrier(number, Ready, 0)
    });
    let cases = [
        (ready(&[]), vec![2]),
        (ready(&[1]), vec![2]),
        (ready(&[1, 2]), vec![1]),
        (ready(&[1, 2, 3, 4, 5, 6, 7, 8]), vec![0xAA, 0xCC, 0xF0]),
        (states, vec![1, 2]),
        (strangers, vec![2]),
        (marked.collect(), vec![2]),
        (mixed(), vec![1]),
    ];
    let row_of = |(tags, rows): &(Vec<Tag>, Vec<u64>)| {
        let mut swept = sweep(&mut bench(tags.clone()), Setting(rows, u16::MAX, 400, 64));
        assert_eq!(swept.outcome.end, Ok(()), "the sweep is whole");
        swept.serials.sort_by_key(|serial| place(serial, tags));
        row(&[
            tags_term(tags),
            tags_term(&swept.after),
            serials_term(&swept.serials),
        ])
    };
    Listing {
        about: "Tags before a whole sweep, the tags after it, and what it lists, in the order of places.",
        name: "WorkedFates",
        law: "{X = List Tag × List Tag × List String}\n    (λ (before, after, serials). (map tag_after_sweep before ≡ after) × (due_serials before ≡ map bytes serials))".into(),
        rows: cases.iter().map(row_of).collect(),
    }
}
