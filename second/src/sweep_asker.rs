//! Asks for sweeps, and foresees what each of them would send.

use crate::asked;
use crate::field_asker::{self, Like};
use crate::field_question;
use crate::frame::{self, Name};
use crate::list::List;
use crate::listener::{Listener, Sent};
use crate::nesting::Nesting;
use crate::random::Random;
use crate::sweep::{self, Stop, MOST_ROWS};
use crate::sweep_question::{Plan, Play, Question, Stores, SERIAL_STORE, SLOT_STORE};
use crate::tag::Tag;

/// How many commands are foreseen.
const FORESIGHT: u16 = 400;

/// More commands make a long sheet, and so they are mostly cut short.
const LONG: usize = 60;
const SHORT: usize = 40;

/// How seldom a long sweep is not cut short.
const RARITY: usize = 60;

/// Long enough for every tag to be selected anew.
const LONG_GAPS: [u32; 7] = [250, 250, 251, 3_999_999, 4_000_000, 4_000_001, u32::MAX];
const SHORT_GAPS: [u32; 3] = [0, 1, 249];

/// A command of a sweep.
#[derive(Clone, Copy, Debug, PartialEq, Eq, Hash)]
pub enum Step {
    Slot(Name),
    Read,
    ReadAgain,
    Close,
}

pub const STEPS: [Step; 6] = [
    Step::Slot(Name::Select),
    Step::Slot(Name::Query),
    Step::Slot(Name::Scroll),
    Step::Read,
    Step::ReadAgain,
    Step::Close,
];

pub fn steps(sent: &[Sent]) -> Vec<Step> {
    let mut steps = Vec::new();
    for sent in sent {
        let opened = frame::open(&sent.frame).expect("a sweep sends right frames");
        let reading = matches!(steps.last(), Some(Step::Read | Step::ReadAgain));
        steps.push(match opened.name {
            Name::Read if reading => Step::ReadAgain,
            Name::Read => Step::Read,
            Name::Repeat => Step::Close,
            name => Step::Slot(name),
        });
    }
    steps
}

/// What a sweep that has enough of everything does, or its beginning if it is long.
pub struct Foreseen {
    steps: Vec<Step>,
    /// Whether that is all.
    ends: bool,
}

impl Foreseen {
    fn is_long(&self) -> bool {
        self.steps.len() > LONG
    }

    /// How many slots the first so many commands open.
    fn slots(&self, commands: usize) -> usize {
        let steps = self.steps[..commands].iter();
        steps.filter(|step| matches!(step, Step::Slot(_))).count()
    }

    /// How many serial numbers are listed before the first so many commands are sent.
    fn serials(&self, commands: usize) -> usize {
        let steps = self.steps[..commands].iter();
        steps.filter(|&&step| step == Step::Read).count()
    }

    /// Leaves what the first so many commands need.
    fn tighten(&self, plan: &mut Plan, tight: Tight, commands: usize) {
        match tight {
            Tight::Nothing => {}
            Tight::Commands => plan.budget = commands as u16,
            Tight::Slots => plan.slots = self.slots(commands),
            Tight::Serials => plan.serials = self.serials(commands),
            Tight::Everything => {
                for each in [Tight::Commands, Tight::Slots, Tight::Serials] {
                    self.tighten(plan, each, commands);
                }
            }
        }
    }
}

/// Of what a sweep has only so much as some of its commands need.
#[derive(Clone, Copy)]
enum Tight {
    Nothing,
    Commands,
    Slots,
    Serials,
    Everything,
}

const TIGHT: [Tight; 10] = [
    Tight::Nothing,
    Tight::Nothing,
    Tight::Nothing,
    Tight::Commands,
    Tight::Commands,
    Tight::Commands,
    Tight::Slots,
    Tight::Serials,
    Tight::Serials,
    Tight::Everything,
];

/// Where a long sweep is cut short, this does it.
const TIGHT_IF_LONG: [Tight; 5] = [
    Tight::Commands,
    Tight::Commands,
    Tight::Slots,
    Tight::Everything,
    Tight::Everything,
];

pub struct Asker {
    /// Asks all that is not about sweeps.
    crowd: field_asker::Asker,
    stores: Stores,
    pub asked: Vec<Asked>,
    /// How much had been asked before this play.
    begun: usize,
}

pub type Asked = asked::Asked<Question>;

/// The ways to put a question.
impl Asker {
    pub fn new(seed: u64) -> Asker {
        Asker {
            crowd: field_asker::Asker::new(seed),
            stores: Stores::new(),
            asked: Vec::new(),
            begun: 0,
        }
    }

    pub fn random(&mut self) -> &mut Random {
        self.crowd.random()
    }

    /// Asks what is not about sweeps.
    pub fn field(&mut self, acts: impl FnOnce(&mut field_asker::Asker)) {
        acts(&mut self.crowd);
        for field_asker::Asked { question, answer } in self.crowd.asked.drain(..) {
            let question = Question::Field(question);
            self.asked.push(Asked { question, answer });
        }
    }

    pub fn sweep(&mut self, plan: Plan) {
        let answer = self.stores.sweep(&plan, &mut self.crowd.play);
        let question = Question::Sweep(plan);
        self.asked.push(Asked { question, answer });
    }

    pub fn gap(&mut self, microseconds: u32) {
        self.field(|field| field.gap(microseconds));
    }

    /// Tags of this kind, the field, what is done with it, and the end.
    pub fn play(&mut self, like: Like, nesting: &Nesting, acts: impl FnOnce(&mut Asker)) {
        self.begun = self.asked.len();
        for _ in 0..nesting.places() {
            self.any_tag(like);
        }
        self.play_on(nesting, acts);
    }

    /// The same with these tags, of which the serial numbers are told.
    pub fn play_with(&mut self, tags: &[Tag], nesting: &Nesting, acts: impl FnOnce(&mut Asker)) {
        self.begun = self.asked.len();
        for tag in tags {
            self.tag(tag.clone(), tag.serial().len());
        }
        self.play_on(nesting, acts);
    }

    fn play_on(&mut self, nesting: &Nesting, acts: impl FnOnce(&mut Asker)) {
        self.field(|field| field.ask(field_question::Question::Field(nesting.clone())));
        acts(self);
        self.field(|field| field.ask(field_question::Question::End));
        self.stores = Stores::new();
    }

    /// Now and then one that no sweep selects.
    fn any_tag(&mut self, like: Like) {
        let (mut tag, told) = self.crowd.any_tag(like);
        let random = self.random();
        if told > 0 && random.one_in(8) {
            tag.memory[random.between(0, 1)] ^= 1 << random.between(0, 7);
        }
        self.tag(tag, told);
    }

    fn tag(&mut self, tag: Tag, told: usize) {
        self.field(|field| field.ask(field_question::Question::Tag { tag, told }));
    }
}

/// Rows of coins.
impl Asker {
    /// As many as they may be, or nearly.
    pub fn rows(&mut self) -> Vec<u64> {
        let random = self.random();
        let few = random.between(1, 4);
        let some = random.between(5, 16);
        let any = random.between(1, MOST_ROWS);
        let many = random.pick(&[any, any, 63, 64]);
        let count = random.pick(&[few, few, few, some, some, some, some, many]);
        self.so_many_rows(count)
    }

    pub fn so_many_rows(&mut self, count: usize) -> Vec<u64> {
        let kind = self.random().between(0, 11);
        (0..count).map(|_| self.row(kind)).collect()
    }

    /// Wrong by their number alone.
    pub fn wrong_rows(&mut self) -> Vec<u64> {
        let count = self.random().pick(&[0, 0, 0, 65, 65, 66, 70]);
        self.so_many_rows(count)
    }

    fn row(&mut self, kind: usize) -> u64 {
        let random = self.random();
        match kind {
            0 => 0,
            1 => u64::MAX,
            2 | 3 => random.word() & random.word() & random.word(),
            4 => random.word() | random.word(),
            5 => self.crowd.row(),
            _ => random.word(),
        }
    }
}

/// Plans.
impl Asker {
    /// Some sweeps one after the other, and what may come between them.
    pub fn some_sweeps(&mut self, times: usize) {
        for _ in 0..times {
            self.any_sweep();
            self.meanwhile();
        }
    }

    pub fn any_sweep(&mut self) {
        if self.random().one_in(40) {
            let rows = self.wrong_rows();
            return self.refused_sweep(rows);
        }
        let rows = self.rows();
        self.sweep_with(rows);
    }

    /// With any limits, as none of them is reached.
    pub fn refused_sweep(&mut self, rows: Vec<u64>) {
        let random = self.random();
        let budget = random.pick(&[0, 1, 100, u16::MAX]);
        let slots = random.pick(&[0, 1, SLOT_STORE]);
        let serials = random.pick(&[0, 1, SERIAL_STORE]);
        self.sweep(Plan {
            budget,
            slots,
            serials,
            rows,
        });
    }

    /// With enough of everything, or with no more of something than is needed, or less.
    pub fn sweep_with(&mut self, rows: Vec<u64>) {
        let foreseen = self.foresee(&rows);
        let mut plan = self.plenty(&foreseen, rows);
        let cut = foreseen.is_long() && !self.random().one_in(RARITY);
        let stop = self.stop(&foreseen, cut);
        let tight = if cut { &TIGHT_IF_LONG[..] } else { &TIGHT };
        let tight = self.random().pick(tight);
        foreseen.tighten(&mut plan, tight, stop);
        self.sweep(plan);
    }

    fn foresee(&self, rows: &[u64]) -> Foreseen {
        let mut play = self.again();
        let mut listener = Listener::new(&mut *play.field.field);
        let outcome = sweep::run(
            &mut listener,
            rows,
            FORESIGHT,
            &mut List::new(&mut play.stores.slots),
            &mut List::new(&mut play.stores.serials),
        );
        let end = outcome.expect("the number of rows is right").end;
        Foreseen {
            steps: steps(&listener.sent),
            ends: matches!(end, Ok(()) | Err(Stop::TooDeep)),
        }
    }

    /// The same play from its beginning up to now.
    fn again(&self) -> Play {
        let mut play = Play::new();
        for asked in &self.asked[self.begun..] {
            asked.question.answer(&mut play);
        }
        play
    }

    /// Enough of everything, sometimes only just.
    fn plenty(&mut self, foreseen: &Foreseen, rows: Vec<u64>) -> Plan {
        let commands = foreseen.steps.len();
        let slots = foreseen.slots(commands);
        let serials = foreseen.serials(commands);
        let random = self.random();
        let more = random.between(1, 9);
        let most = usize::from(u16::MAX);
        let budget = random.pick(&[commands, commands + 1, commands + more, 1000, most]);
        Plan {
            budget: if foreseen.ends {
                budget as u16
            } else {
                FORESIGHT
            },
            slots: random
                .pick(&[slots, slots + more, SLOT_STORE])
                .min(SLOT_STORE),
            serials: random
                .pick(&[serials, serials + more, SERIAL_STORE])
                .min(SERIAL_STORE),
            rows,
        }
    }

    /// How many commands are to be sent; all that there are would be just enough.
    fn stop(&mut self, foreseen: &Foreseen, cut: bool) -> usize {
        let all = foreseen.steps.len();
        let most = if cut { all.min(SHORT) } else { all };
        let random = self.random();
        let any = random.between(0, most);
        let kind = random.pick(&STEPS);
        let steps = foreseen.steps[..most].iter().enumerate();
        let before: Vec<usize> = steps
            .filter(|&(_, &step)| step == kind)
            .map(|(index, _)| index)
            .collect();
        let before_kind = if before.is_empty() {
            any
        } else {
            random.pick(&before)
        };
        random.pick(&[most, most.saturating_sub(1), any, before_kind, before_kind])
    }

    /// What may happen between two sweeps, mostly a gap.
    pub fn meanwhile(&mut self) {
        let random = self.random();
        let long = random.pick(&LONG_GAPS);
        let short = random.pick(&SHORT_GAPS);
        let times = random.between(1, 3);
        match random.between(0, 9) {
            0..=5 => self.gap(long),
            6 => self.gap(short),
            7 => self.field(|field| field.some_sends(times)),
            8 => self.field(|field| match field.any_place() {
                Some(place) => field.again_and_again(place, times),
                None => field.any_frame(),
            }),
            _ => {}
        }
    }
}

#[cfg(test)]
mod tests {
    use std::collections::HashSet;

    use super::*;
    use crate::field::Hearing;
    use crate::frame::sealed_with;
    use crate::tag::{State, MEMORY_LENGTH};

    const SELECT: Step = Step::Slot(Name::Select);
    const QUERY: Step = Step::Slot(Name::Query);
    const SCROLL: Step = Step::Slot(Name::Scroll);

    fn two_tags() -> Vec<Tag> {
        let tag = |number| {
            let mut memory = [0; MEMORY_LENGTH];
            memory[..8].copy_from_slice(&[0xEF, 0x04, 2, 0, 0, 0, 0, number]);
            Tag::new(memory)
        };
        vec![tag(1), tag(2)]
    }

    fn on(text: &str, acts: impl FnOnce(&mut Asker)) -> Vec<Asked> {
        let nesting = Nesting::read(text).expect("the words are right");
        let mut asker = Asker::new(3);
        asker.play_with(&two_tags(), &nesting, acts);
        asker.asked
    }

    fn plan(budget: u16, rows: Vec<u64>) -> Plan {
        Plan {
            budget,
            slots: SLOT_STORE,
            serials: SERIAL_STORE,
            rows,
        }
    }

    /// The plans of many sweeps with these rows.
    fn plans(text: &str, rows: &[u64]) -> Vec<Plan> {
        let asked = on(text, |asker| {
            for _ in 0..300 {
                asker.sweep_with(rows.to_vec());
                asker.gap(250);
            }
        });
        let plan = |asked: Asked| match asked.question {
            Question::Sweep(plan) => Some(plan),
            Question::Field(_) => None,
        };
        asked.into_iter().filter_map(plan).collect()
    }

    #[test]
    fn commands_are_told_apart() {
        let sent = |frame: Vec<u8>| Sent {
            frame,
            row: 0,
            heard: Hearing::Clash,
        };
        let call = |name: Name| sent(sealed_with(name as u8, &[]));
        let read = || sent(sealed_with(Name::Read as u8, &[0; 9]));
        let select = || sent(sealed_with(Name::Select as u8, &[0; 10]));
        let all = [
            select(),
            read(),
            read(),
            read(),
            call(Name::Scroll),
            read(),
            call(Name::Query),
            call(Name::Repeat),
        ];
        let again = Step::ReadAgain;
        let expected = [
            SELECT,
            Step::Read,
            again,
            again,
            SCROLL,
            Step::Read,
            QUERY,
            Step::Close,
        ];
        assert_eq!(steps(&all), expected);
        assert!(STEPS.iter().all(|step| expected.contains(step)));
    }

    #[test]
    fn a_sweep_is_foreseen_and_not_done() {
        on("bench 2", |asker| {
            let before = asker.crowd.play.digest();
            let foreseen = asker.foresee(&[2]);
            let steps = [SELECT, QUERY, Step::Read, SCROLL, Step::Read, Step::Close];
            assert_eq!(foreseen.steps, steps);
            assert!(foreseen.ends && !foreseen.is_long());
            assert_eq!(asker.crowd.play.digest(), before);
            let counts = |at| (foreseen.slots(at), foreseen.serials(at));
            let counts: Vec<(usize, usize)> = (0..=6).map(counts).collect();
            assert_eq!(
                counts,
                [(0, 0), (1, 0), (2, 0), (2, 1), (3, 1), (3, 2), (3, 2)]
            );
        });
    }

    #[test]
    fn foresight_knows_what_went_before() {
        on("spoiler 2 bench 2", |asker| {
            asker.sweep(plan(3, vec![2]));
            let taken = asker.crowd.play.field.tag(0).state;
            assert_eq!(taken, State::Inventoried);
            let foreseen = asker.foresee(&[2]);
            assert_eq!(
                foreseen.steps,
                [SELECT, Step::Read, Step::ReadAgain, Step::Close]
            );
            asker.gap(250);
            assert_eq!(asker.foresee(&[2]).steps[..2], [SELECT, QUERY]);
        });
    }

    #[test]
    fn foresight_is_limited() {
        on("bench 2", |asker| {
            let foreseen = asker.foresee(&[u64::MAX]);
            assert_eq!(foreseen.steps.len(), usize::from(FORESIGHT));
            assert!(foreseen.is_long() && !foreseen.ends);
            let deep = asker.foresee(&[0]);
            assert!(deep.steps.len() == 256 && deep.ends);
        });
    }

    #[test]
    fn limits_are_met_missed_and_passed() {
        let plans = plans("bench 2", &[2]);
        let budgets: HashSet<u16> = plans.iter().map(|plan| plan.budget).collect();
        let slots: HashSet<usize> = plans.iter().map(|plan| plan.slots).collect();
        let serials: HashSet<usize> = plans.iter().map(|plan| plan.serials).collect();
        for budget in [0, 1, 2, 3, 4, 5, 6, 7, 1000, u16::MAX] {
            assert!(budgets.contains(&budget), "{budget}");
        }
        assert!((0..=4).chain([400]).all(|room| slots.contains(&room)));
        assert!((0..=3).chain([80]).all(|room| serials.contains(&room)));
    }

    #[test]
    fn endless_sweeps_are_mostly_cut_short() {
        let plans = plans("bench 2", &[u64::MAX]);
        let short = |plan: &&Plan| usize::from(plan.budget) <= SHORT || plan.slots <= SHORT;
        assert!(plans.iter().all(|plan| plan.budget <= FORESIGHT));
        assert!(plans.iter().filter(short).count() >= 270);
    }

    #[test]
    fn rows_of_every_kind_and_number() {
        let mut asker = Asker::new(4);
        let rows: Vec<Vec<u64>> = (0..500).map(|_| asker.rows()).collect();
        let counts: HashSet<usize> = rows.iter().map(Vec::len).collect();
        assert!(counts.iter().all(|count| (1..=MOST_ROWS).contains(count)));
        assert!([1, 2, 3, 63, 64].iter().all(|count| counts.contains(count)));
        for word in [0, u64::MAX] {
            assert!(rows.iter().any(|rows| rows.iter().all(|&row| row == word)));
        }
        let wrong: HashSet<usize> = (0..100).map(|_| asker.wrong_rows().len()).collect();
        assert_eq!(wrong, HashSet::from([0, 65, 66, 70]));
    }

    #[test]
    fn a_play_ends_with_new_stores() {
        let asked = on("bench 2", |asker| {
            asker.sweep(plan(100, vec![2]));
            assert_ne!(asker.stores.serials[0], [0xA5; 8]);
        });
        assert_eq!(asked.last().map(|asked| &*asked.answer), Some("end"));
        let mut play = Play::new();
        for Asked { question, answer } in asked {
            assert_eq!(question.answer(&mut play), answer);
        }
    }
}
