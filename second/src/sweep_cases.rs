//! Which questions are asked about sweeps.

use crate::field::MOST_PLACES;
use crate::field_asker::Like;
use crate::field_cases::MOST_LAYERS;
use crate::nesting::Nesting;
use crate::sweep_asker::{Asked, Asker};
use crate::sweep_question::{Plan, SERIAL_STORE, SLOT_STORE};
use crate::tag::{Tag, MEMORY_LENGTH};

/// Small ones, each of another shape.
const SHAPES: [&str; 32] = [
    "bench 0",
    "single",
    "bench 1",
    "bench 2",
    "bench 3",
    "bench 5",
    "bench 8",
    "spoiler 1 single",
    "spoiler 1 bench 3",
    "spoiler 2 single",
    "spoiler 2 bench 3",
    "spoiler 3 bench 4",
    "spoiler 4 bench 4",
    "spoiler 5 bench 6",
    "spoiler 65535 bench 4",
    "spoiler 2 spoiler 2 bench 3",
    "spoiler 3 spoiler 2 bench 3",
    "spoiler 2 spoiler 3 spoiler 2 bench 2",
    "pair bench 0 bench 3",
    "pair bench 3 bench 0",
    "pair single single",
    "pair single bench 4",
    "pair bench 4 single",
    "pair spoiler 2 bench 2 bench 2",
    "pair single spoiler 3 bench 3",
    "pair spoiler 1 single bench 3",
    "pair spoiler 2 bench 2 spoiler 3 bench 2",
    "spoiler 2 pair single bench 2",
    "spoiler 4 pair spoiler 3 bench 2 bench 2",
    "pair pair single bench 2 pair bench 2 single",
    "pair spoiler 2 pair single single spoiler 2 pair single single",
    "spoiler 0 bench 2",
];

/// As many places as there can be.
const FULL: [&str; 6] = [
    "bench 64",
    "spoiler 3 bench 64",
    "pair bench 32 bench 32",
    "pair spoiler 2 bench 16 bench 48",
    "pair pair bench 16 bench 16 pair bench 16 bench 16",
    "pair bench 63 spoiler 4 single",
];

const LIKENESSES: [Like; 6] = [
    Like::New,
    Like::New,
    Like::New,
    Like::Used,
    Like::Used,
    Like::Twins,
];

const PERIODS: [u16; 11] = [1, 2, 2, 2, 3, 3, 4, 4, 5, 100, 65535];

/// How many tags a small field has.
const FEW: [usize; 16] = [0, 1, 1, 2, 2, 2, 3, 3, 3, 4, 4, 5, 5, 6, 7, 8];

/// How many fields of random shape, by their size.
const LARGE: usize = 20;
const SMALL: usize = 560;

/// All questions with their answers; the same seed gives the same ones.
pub fn all(seed: u64) -> Vec<Asked> {
    let mut asker = Asker::new(seed);
    asker.printed_sheet();
    asker.every_limit();
    asker.deep_sweeps();
    asker.endless_sweeps();
    asker.wrong_numbers_of_rows();
    asker.every_shape();
    asker.full_fields();
    asker.large_fields();
    asker.small_fields();
    asker.asked
}

fn shape(text: &str) -> Nesting {
    Nesting::read(text).expect("the words are right")
}

/// Never used; the numbers end the serial numbers.
fn tags(numbers: &[u8]) -> Vec<Tag> {
    let tag = |&number: &u8| {
        let mut memory = [0; MEMORY_LENGTH];
        memory[..8].copy_from_slice(&[0xEF, 0x04, 0x02, 0, 0, 0, 0, number]);
        Tag::new(memory)
    };
    numbers.iter().map(tag).collect()
}

/// With these limits and all that there is to lend.
fn plan(budget: u16, rows: &[u64]) -> Plan {
    Plan {
        budget,
        slots: SLOT_STORE,
        serials: SERIAL_STORE,
        rows: rows.to_vec(),
    }
}

/// Sweeps that are chosen one by one.
impl Asker {
    fn printed_sheet(&mut self) {
        self.play_with(&tags(&[1, 2]), &shape("bench 2"), |asker| {
            asker.sweep(plan(100, &[2]));
            asker.sweep(plan(100, &[2]));
            asker.gap(250);
            asker.sweep(plan(100, &[1]));
        });
    }

    /// Every budget and every room up to what is enough.
    fn every_limit(&mut self) {
        for text in [
            "bench 2",
            "spoiler 2 bench 2",
            "pair single spoiler 3 single",
        ] {
            self.play_with(&tags(&[1, 2]), &shape(text), |asker| {
                for budget in 0..=9 {
                    asker.every_room(budget);
                }
            });
        }
    }

    fn every_room(&mut self, budget: u16) {
        for slots in 0..=3 {
            for serials in 0..=2 {
                self.sweep(Plan {
                    slots,
                    serials,
                    ..plan(budget, &[2])
                });
                self.gap(250);
            }
        }
    }

    /// As many groups as can be counted, and one less.
    fn deep_sweeps(&mut self) {
        self.play_with(&tags(&[1, 2]), &shape("bench 2"), |asker| {
            for (budget, slots) in [
                (u16::MAX, SLOT_STORE),
                (256, 256),
                (u16::MAX, 256),
                (256, SLOT_STORE),
                (255, SLOT_STORE),
                (u16::MAX, 255),
                (255, 255),
            ] {
                asker.sweep(Plan {
                    slots,
                    ..plan(budget, &[0])
                });
            }
        });
        // The one coin that wins is tossed with all groups but one waiting.
        let mut rows = [0; 64];
        rows[2] = 1;
        self.play_with(&tags(&[1]), &shape("spoiler 1 single"), |asker| {
            asker.sweep(plan(u16::MAX, &rows));
        });
    }

    /// What would go on for ever.
    fn endless_sweeps(&mut self) {
        self.play_with(&tags(&[1, 1, 2]), &shape("bench 3"), |asker| {
            for budget in [3, 4, 300, u16::MAX] {
                asker.sweep(plan(budget, &[6]));
                asker.gap(250);
            }
        });
        self.play_with(&tags(&[1, 2]), &shape("bench 2"), |asker| {
            asker.sweep(plan(u16::MAX, &[u64::MAX]));
        });
        self.play_with(&tags(&[1]), &shape("spoiler 1 single"), |asker| {
            asker.sweep(plan(300, &[1, 0, 1]));
        });
    }

    fn wrong_numbers_of_rows(&mut self) {
        for text in ["bench 3", "pair single bench 2", "spoiler 2 bench 3"] {
            self.play(Like::New, &shape(text), |asker| {
                asker.refused_sweep(Vec::new());
                for count in [64, 65, 66, 128] {
                    let rows = asker.so_many_rows(count);
                    if count == 64 {
                        asker.sweep_with(rows);
                    } else {
                        asker.refused_sweep(rows);
                    }
                }
                asker.refused_sweep(Vec::new());
                asker.any_sweep();
            });
        }
    }
}

/// Fields of chosen and of random shape.
impl Asker {
    fn every_shape(&mut self) {
        for text in SHAPES {
            let like = self.random().pick(&LIKENESSES);
            for like in [Like::New, like] {
                self.play(like, &shape(text), |asker| asker.some_sweeps(4));
            }
        }
    }

    fn full_fields(&mut self) {
        for text in FULL {
            self.play(Like::New, &shape(text), |asker| {
                let rows: Vec<u64> = (0..64).map(|_| asker.random().word()).collect();
                asker.sweep(plan(u16::MAX, &rows));
                asker.gap(250);
                asker.some_sweeps(3);
            });
        }
    }

    fn large_fields(&mut self) {
        for _ in 0..LARGE {
            let places = self.random().between(9, MOST_PLACES - 1);
            self.random_field(places);
        }
    }

    fn small_fields(&mut self) {
        for _ in 0..SMALL {
            let places = self.random().pick(&FEW);
            self.random_field(places);
        }
    }

    fn random_field(&mut self, places: usize) {
        let mut nesting = Nesting::Bench(places);
        self.field(|field| nesting = field.any_shape(places, MOST_LAYERS, &PERIODS));
        let like = self.random().pick(&LIKENESSES);
        let times = self.random().between(2, 6);
        self.play(like, &nesting, |asker| asker.some_sweeps(times));
    }
}

#[cfg(test)]
mod tests {
    use std::collections::{HashMap, HashSet};
    use std::sync::LazyLock;

    use super::*;
    use crate::field::{Field, Hearing};
    use crate::field_question;
    use crate::frame::Name;
    use crate::list::List;
    use crate::listener::Listener;
    use crate::sheet::Sheet;
    use crate::sweep::{self, Outcome, Refusal, Slot, Stop};
    use crate::sweep_asker::{steps, Step, STEPS};
    use crate::sweep_question::{Play, Question};
    use crate::tag::State;

    /// A sweep with what it met and what came of it.
    struct Swept {
        plan: Plan,
        nesting: Nesting,
        before: Vec<Tag>,
        outcome: Result<Outcome, Refusal>,
        slots: Vec<Slot>,
        serials: usize,
        steps: Vec<Step>,
        /// Whether the last reading, if there is one, was heard alone.
        read: bool,
    }

    impl Swept {
        fn stop(&self) -> Option<Stop> {
            self.outcome.ok()?.end.err()
        }

        fn whole(&self) -> bool {
            self.outcome.is_ok_and(|outcome| outcome.end.is_ok())
        }

        /// The command that would have come next.
        fn next(&self) -> Step {
            let Some(slot) = self.slots.last() else {
                return Step::Slot(Name::Select);
            };
            let read = matches!(self.steps.last(), Some(Step::Read | Step::ReadAgain));
            match slot.hearing {
                Hearing::Clash => Step::Slot(Name::Query),
                Hearing::Lone if !read => Step::Read,
                Hearing::Lone if !self.read => Step::ReadAgain,
                _ if slot.waiting > 0 => Step::Slot(Name::Scroll),
                _ => Step::Close,
            }
        }

        fn repeats_readings(&self) -> bool {
            self.steps.contains(&Step::ReadAgain)
        }

        fn spent(&self) -> bool {
            self.steps.len() == usize::from(self.plan.budget)
        }
    }

    fn tags_of(field: &dyn Field) -> Vec<Tag> {
        (0..field.places())
            .map(|place| field.tag(place).clone())
            .collect()
    }

    /// Does the sweep with an ear to the field, and compares what is answered.
    fn listen(play: &mut Play, nesting: &Nesting, plan: &Plan, answer: &str) -> Swept {
        let before = tags_of(&*play.field.field);
        let mut slots = List::new(&mut play.stores.slots[..plan.slots]);
        let mut serials = List::new(&mut play.stores.serials[..plan.serials]);
        let mut listener = Listener::new(&mut *play.field.field);
        let outcome = sweep::run(
            &mut listener,
            &plan.rows,
            plan.budget,
            &mut slots,
            &mut serials,
        );
        let sent = listener.sent;
        let start = match outcome {
            Ok(outcome) => {
                let (slots, serials) = (slots.rows(), serials.rows());
                let sheet = Sheet {
                    slots,
                    serials,
                    outcome,
                };
                format!("{sheet}swept ")
            }
            Err(_) => "refused 10 ".to_string(),
        };
        assert!(answer.starts_with(&start), "{answer}");
        let read = sent.iter().rfind(|sent| sent.frame[0] == Name::Read as u8);
        Swept {
            plan: plan.clone(),
            nesting: nesting.clone(),
            before,
            outcome,
            slots: slots.rows().to_vec(),
            serials: serials.rows().len(),
            steps: steps(&sent),
            read: read.is_some_and(|read| read.heard == Hearing::Lone),
        }
    }

    fn sweeps(seed: u64) -> Vec<Swept> {
        let mut play = Play::new();
        let mut nesting = Nesting::Bench(0);
        let mut swept = Vec::new();
        for Asked { question, answer } in all(seed) {
            match &question {
                Question::Sweep(plan) => swept.push(listen(&mut play, &nesting, plan, &answer)),
                Question::Field(about) => {
                    if let field_question::Question::Field(made) = about {
                        nesting = made.clone();
                    }
                    assert_eq!(question.answer(&mut play), answer);
                }
            }
        }
        swept
    }

    /// Those whose answers are stored; many tests look at them.
    static STORED: LazyLock<Vec<Swept>> = LazyLock::new(|| sweeps(1));

    fn count(swept: &[Swept], fits: impl Fn(&&Swept) -> bool) -> usize {
        swept.iter().filter(fits).count()
    }

    #[test]
    fn the_seed_settles_everything() {
        let texts = |seed| -> Vec<_> { all(seed).iter().map(Asked::texts).collect() };
        assert!(texts(1) == texts(1));
        assert!(texts(1) != texts(2));
    }

    #[test]
    fn neither_too_few_nor_too_much() {
        for seed in 1..=4 {
            let asked = all(seed);
            let size = |text: fn(&Asked) -> String| -> usize {
                asked.iter().map(|asked| text(asked).len() + 1).sum()
            };
            let questions = size(|asked| asked.question.to_string());
            let answers = size(|asked| asked.answer.clone());
            let sweeps = asked
                .iter()
                .filter(|asked| matches!(asked.question, Question::Sweep(_)))
                .count();
            assert!((2800..=3300).contains(&sweeps), "{sweeps} sweeps");
            assert!(questions < 1_500_000, "{questions} bytes are asked");
            assert!(answers < 1_600_000, "{answers} bytes are answered");
        }
    }

    #[test]
    fn lines_come_in_plays() {
        let mut places = 0;
        let mut made = false;
        for Asked { question, answer } in all(1) {
            match question {
                Question::Field(field_question::Question::Tag { tag, told }) => {
                    places += 1;
                    assert!(!made && tag.memory[told..].iter().all(|&byte| byte == 0));
                }
                Question::Field(field_question::Question::Field(nesting)) => {
                    assert!(!made && nesting.places() == places);
                    made = true;
                }
                Question::Field(field_question::Question::Find(_)) => panic!("found nothing"),
                Question::Field(field_question::Question::End) => {
                    assert!(made && answer == "end");
                    (places, made) = (0, false);
                }
                Question::Field(_) => assert!(made),
                Question::Sweep(plan) => {
                    assert!(made && plan.slots <= SLOT_STORE && plan.serials <= SERIAL_STORE);
                }
            }
        }
        assert!(!made && places == 0);
    }

    #[test]
    fn the_printed_sheet_comes_first() {
        let asked = all(1);
        let sweep = asked
            .iter()
            .find(|asked| matches!(asked.question, Question::Sweep(_)))
            .expect("there are sweeps");
        assert_eq!(
            sweep.question.to_string(),
            "sweep 100 400 80 0000000000000002"
        );
        let sheet = "     1     0     2     0
     2     8     1     1
     3     9     1     0
 239   4   2   0   0   0   0   1
 239   4   2   0   0   0   0   2
     0     2     0     1     6
swept ";
        assert!(sweep.answer.starts_with(sheet));
    }

    #[test]
    fn every_end_is_common() {
        for seed in 1..=3 {
            let swept = &sweeps(seed);
            assert!(count(swept, |swept| swept.whole()) >= 800);
            for (stop, least) in [(Stop::TooDeep, 8), (Stop::Spent, 900), (Stop::Full, 300)] {
                let stopped = count(swept, |swept| swept.stop() == Some(stop));
                assert!(stopped >= least, "{stopped} times {stop:?}");
            }
            for rows in [0, 65, 66] {
                let refused =
                    |swept: &&Swept| swept.outcome.is_err() && swept.plan.rows.len() == rows;
                assert!(count(swept, refused) >= 3, "{rows} rows");
            }
            assert!(swept.iter().all(|swept| {
                let right = (1..=64).contains(&swept.plan.rows.len());
                right == swept.outcome.is_ok()
            }));
        }
    }

    #[test]
    fn the_budget_is_spent_before_every_command() {
        let swept = &*STORED;
        let mut times: HashMap<Step, usize> = HashMap::new();
        for swept in swept {
            if swept.stop() == Some(Stop::Spent) {
                assert!(swept.spent());
                *times.entry(swept.next()).or_default() += 1;
            }
        }
        for step in STEPS {
            let times = times.get(&step).copied().unwrap_or(0);
            assert!(times >= 25, "{times} times before {step:?}");
        }
    }

    #[test]
    fn each_list_is_full_before_every_command_that_it_stops() {
        let swept = &*STORED;
        let mut times: HashMap<Step, usize> = HashMap::new();
        for swept in swept {
            if swept.stop() == Some(Stop::Full) {
                let next = swept.next();
                let full = match next {
                    Step::Slot(_) => swept.slots.len() == swept.plan.slots,
                    Step::Read => swept.serials == swept.plan.serials,
                    other => panic!("no list stops {other:?}"),
                };
                assert!(full);
                *times.entry(next).or_default() += 1;
            }
        }
        for step in &STEPS[..4] {
            let times = times.get(step).copied().unwrap_or(0);
            assert!(times >= 20, "{times} times before {step:?}");
        }
    }

    #[test]
    fn what_stops_a_sweep_comes_in_its_order() {
        let swept = &*STORED;
        let full = |swept: &Swept| swept.slots.len() == swept.plan.slots;
        let slot = |swept: &Swept| matches!(swept.next(), Step::Slot(_));
        let stopped = |stop, fits: &dyn Fn(&Swept) -> bool| {
            count(swept, |swept| swept.stop() == Some(stop) && fits(swept))
        };
        let spent_and_full = |swept: &Swept| slot(swept) && full(swept);
        assert!(stopped(Stop::Spent, &spent_and_full) >= 30);
        let listed_and_spent = |swept: &Swept| swept.next() == Step::Read && swept.spent();
        assert!(stopped(Stop::Full, &listed_and_spent) >= 10);
        assert!(stopped(Stop::TooDeep, &|swept| swept.spent() && full(swept)) >= 1);
        assert!(stopped(Stop::TooDeep, &|swept| swept.spent() && !full(swept)) >= 1);
        assert!(stopped(Stop::TooDeep, &|swept| !swept.spent() && full(swept)) >= 1);
    }

    #[test]
    fn limits_are_just_enough_and_one_too_few() {
        let swept = &*STORED;
        let tight = |swept: &&Swept| {
            swept.whole()
                && swept.spent()
                && swept.slots.len() == swept.plan.slots
                && swept.serials == swept.plan.serials
        };
        assert!(count(swept, tight) >= 20);
        assert!(count(swept, |swept| swept.whole() && swept.spent()) >= 100);
        let closing =
            |swept: &&Swept| swept.stop() == Some(Stop::Spent) && swept.next() == Step::Close;
        assert!(count(swept, closing) >= 100);
        let later = |swept: &&Swept| {
            let full = swept.stop() == Some(Stop::Full);
            full && swept.next() == Step::Read && swept.serials >= 2
        };
        assert!(count(swept, later) >= 10);
    }

    #[test]
    fn whole_sweeps_are_of_every_kind() {
        let swept = &*STORED;
        let whole =
            |fits: &dyn Fn(&Swept) -> bool| count(swept, |swept| swept.whole() && fits(swept));
        let heard =
            |hearing| move |swept: &Swept| swept.slots.iter().any(|slot| slot.hearing == hearing);
        for hearing in [Hearing::Silence, Hearing::Lone, Hearing::Clash] {
            assert!(whole(&heard(hearing)) >= 300, "{hearing:?}");
        }
        assert!(whole(&|swept| swept.repeats_readings()) >= 80);
        assert!(whole(&|swept| swept.serials >= 5) >= 60);
        assert!(whole(&|swept| swept.serials == 0 && !swept.before.is_empty()) >= 30);
        assert!(whole(&|swept| swept.before.len() == MOST_PLACES) >= FULL.len());
        let wraps = |swept: &Swept| {
            let queries = swept.steps.iter().filter(|&&step| step == STEPS[1]);
            queries.count() > swept.plan.rows.len()
        };
        assert!(whole(&wraps) >= 40);
        let most_rows = |swept: &Swept| swept.plan.rows.len() == 64 && wraps(swept);
        assert!(whole(&most_rows) >= 3);
    }

    #[test]
    fn crowds_and_rows_are_of_every_size() {
        let swept = &*STORED;
        for places in 0..=8 {
            let fits = |swept: &&Swept| swept.before.len() == places;
            assert!(count(swept, fits) >= 100, "{places} places");
        }
        assert!(count(swept, |swept| swept.before.len() > 8) >= 60);
        for rows in [1, 2, 3, 4, 5, 6, 63, 64] {
            let fits = |swept: &&Swept| swept.plan.rows.len() == rows;
            assert!(count(swept, fits) >= 60, "{rows} rows");
        }
    }

    #[test]
    fn sweeps_meet_tags_in_every_condition() {
        let mut seen = HashSet::new();
        for swept in STORED.iter() {
            for tag in &swept.before {
                let matching = tag.memory.starts_with(&[0xEF, 0x04]);
                seen.insert((tag.state, tag.id_flag, matching, tag.counter > 0));
            }
        }
        for state in [State::Ready, State::Singulation, State::Inventoried] {
            for case in 0..8 {
                let case = (state, case & 1 == 1, case & 2 == 2, case & 4 == 4);
                assert!(seen.contains(&case), "{case:?}");
            }
        }
    }

    #[test]
    fn equal_serial_numbers_keep_a_reading_going() {
        let swept = &*STORED;
        let twins = |swept: &&Swept| {
            let serials: HashSet<_> = swept.before.iter().map(Tag::serial).collect();
            serials.len() < swept.before.len()
        };
        assert!(count(swept, twins) >= 200);
        let going_on = |swept: &&Swept| {
            let spent = swept.stop() == Some(Stop::Spent);
            twins(swept) && spent && swept.next() == Step::ReadAgain
        };
        assert!(count(swept, going_on) >= 20);
        let longest = swept.iter().map(|swept| swept.steps.len()).max();
        assert_eq!(longest, Some(usize::from(u16::MAX)));
    }

    #[test]
    fn every_field_is_swept() {
        let mut words = HashSet::new();
        for swept in STORED.iter() {
            let text = swept.nesting.to_string();
            for period in [1, 2, 3, 4, 5, 100, 65535] {
                let spoiler = format!("spoiler {period} ");
                if text.contains(&spoiler) {
                    words.insert(spoiler);
                }
            }
            for part in [
                "pair pair ",
                "pair spoiler ",
                "single pair ",
                "single spoiler ",
            ] {
                if text.contains(part) {
                    words.insert(part.to_string());
                }
            }
            for outer in [2, 3, 4, 5] {
                for inner in ["spoiler", "pair", "single", "bench"] {
                    let part = format!("spoiler {outer} {inner} ");
                    if format!("{text} ").contains(&part) {
                        words.insert(inner.to_string());
                    }
                }
            }
        }
        assert_eq!(words.len(), 7 + 4 + 4, "{words:?}");
    }

    #[test]
    fn the_deepest_group_is_left_again() {
        let left = |swept: &&Swept| {
            let mut slots = swept.slots.iter();
            slots.any(|slot| slot.waiting == u8::MAX && slot.hearing == Hearing::Silence)
        };
        assert!(count(&STORED, left) >= 1);
    }
}
