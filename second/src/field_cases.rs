//! Which questions are asked about fields.

use crate::field::MOST_PLACES;
use crate::field_asker::{Asked, Asker, Like};
use crate::frame::{sealed_with, Name};
use crate::nesting::Nesting;

/// Fields that cannot be made, some for more than one reason.
const REFUSED: [&str; 20] = [
    "bench 65",
    "pair bench 64 single",
    "pair single bench 64",
    "pair bench 63 bench 2",
    "pair bench 64 bench 64",
    "pair bench 32 pair single bench 32",
    "pair bench 0 bench 65",
    "spoiler 2 pair bench 33 bench 32",
    "spoiler 0 bench 0",
    "spoiler 0 single",
    "spoiler 0 bench 4",
    "spoiler 0 pair single single",
    "pair single spoiler 0 single",
    "pair spoiler 0 bench 2 spoiler 0 single",
    "spoiler 3 spoiler 0 spoiler 0 single",
    "spoiler 0 bench 65",
    "spoiler 0 pair bench 64 single",
    "pair bench 64 spoiler 0 single",
    "pair spoiler 0 single bench 65",
    "pair bench 65 spoiler 0 single",
];

/// As many places as there can be.
const FULL: [&str; 14] = [
    "bench 64",
    "pair bench 0 bench 64",
    "pair bench 64 bench 0",
    "pair single bench 63",
    "pair bench 63 single",
    "pair bench 32 bench 32",
    "pair pair bench 16 bench 16 pair bench 16 bench 16",
    "pair pair pair single single bench 61 single",
    "pair single pair single pair bench 61 single",
    "pair bench 0 pair bench 64 bench 0",
    "pair pair bench 63 bench 0 spoiler 2 single",
    "pair spoiler 2 single spoiler 3 bench 63",
    "spoiler 5 pair bench 62 bench 2",
    "spoiler 2 spoiler 3 bench 64",
];

/// Small ones, each of another shape.
const SHAPES: [&str; 28] = [
    "bench 0",
    "single",
    "bench 1",
    "bench 2",
    "bench 8",
    "spoiler 1 single",
    "spoiler 2 single",
    "spoiler 3 bench 2",
    "spoiler 5 bench 3",
    "spoiler 65535 single",
    "spoiler 2 bench 0",
    "spoiler 2 spoiler 2 single",
    "spoiler 2 spoiler 3 single",
    "spoiler 3 spoiler 2 bench 2",
    "spoiler 2 spoiler 2 spoiler 2 single",
    "pair bench 0 bench 0",
    "pair bench 0 single",
    "pair single bench 0",
    "pair single single",
    "pair spoiler 2 single single",
    "pair single spoiler 2 single",
    "pair spoiler 2 single spoiler 3 single",
    "pair spoiler 1 bench 2 single",
    "spoiler 2 pair single single",
    "spoiler 2 pair spoiler 2 single spoiler 3 single",
    "pair spoiler 2 spoiler 2 single spoiler 3 bench 2",
    "pair spoiler 2 pair single single spoiler 2 pair single single",
    "pair pair pair single single single single",
];

const LIKENESSES: [Like; 5] = [Like::New, Like::New, Like::Used, Like::Used, Like::Twins];

const PERIODS: [u16; 8] = [1, 2, 2, 3, 3, 5, 5, 65535];

/// How many layers there may be above a leaf.
pub const MOST_LAYERS: usize = 3;

/// How many fields of random shape, by their size.
const LARGE: usize = 20;
const SMALL: usize = 105;

/// All questions with their answers; the same seed gives the same ones.
pub fn all(seed: u64) -> Vec<Asked> {
    let mut asker = Asker::new(seed);
    asker.shapes();
    asker.long_frames_and_replies();
    asker.gaps_and_damage();
    asker.refused_fields();
    asker.full_fields();
    asker.large_fields();
    asker.small_fields();
    asker.asked
}

fn shape(text: &str) -> Nesting {
    Nesting::read(text).expect("the words are right")
}

/// Fields of chosen shape.
impl Asker {
    fn shapes(&mut self) {
        for text in SHAPES {
            let nesting = shape(text);
            self.play(Like::New, &nesting, |asker| asker.every_act());
            let like = self.random().pick(&LIKENESSES);
            self.play(like, &nesting, |asker| asker.count_replies());
        }
    }

    fn every_act(&mut self) {
        self.every_damage();
        let Some(last) = self.places().checked_sub(1) else {
            return self.some_sends(4);
        };
        self.places_apart(&[0, last]);
        self.rooms(last);
        self.any_change(0);
        self.pick_out(last);
        self.round(20);
        if last < 2 {
            self.every_command(last);
            self.lengths(0);
        }
        if last == 0 {
            self.every_change(0);
        }
    }

    /// Enough lone replies to see how each side of the field counts them.
    fn count_replies(&mut self) {
        let Some(last) = self.places().checked_sub(1) else {
            return self.some_sends(4);
        };
        self.again_and_again(0, 8);
        self.duet(0, last);
        self.read_everyone();
        self.again_and_again(last, 8);
        self.duet(last, 0);
        self.read_everyone();
    }

    fn long_frames_and_replies(&mut self) {
        self.play(Like::New, &shape("pair single bench 2"), |asker| {
            asker.long_frames();
            for place in 0..asker.places() {
                asker.lengths(place);
            }
            asker.start_over();
            asker.long_frames();
            asker.call(Name::Repeat);
        });
    }

    fn gaps_and_damage(&mut self) {
        for text in ["bench 3", "pair single spoiler 2 bench 2"] {
            self.play(Like::New, &shape(text), |asker| asker.every_gap(0, 2));
            self.play(Like::New, &shape(text), |asker| asker.every_damage_anew(1));
        }
    }

    fn refused_fields(&mut self) {
        for text in REFUSED {
            let nesting = shape(text);
            let many = nesting.places() > 8;
            let like = if many { Like::Empty } else { Like::Used };
            self.play(like, &nesting, |asker| {
                asker.some_sends(3);
                asker.any_gap();
            });
        }
    }

    fn full_fields(&mut self) {
        for (index, text) in FULL.into_iter().enumerate() {
            let like = if index % 2 == 0 {
                Like::New
            } else {
                Like::Used
            };
            let most = if index % 6 == 0 { 360 } else { 20 };
            self.play(like, &shape(text), |asker| {
                asker.places_apart(&[0, 1, 15, 16, 31, 32, 62, 63]);
                asker.leave_out(63);
                asker.duet(0, 63);
                asker.again_and_again(63, 4);
                asker.any_change(62);
                asker.rooms(1);
                asker.round(most);
            });
        }
    }

    /// Each of these places alone, then all together again.
    fn places_apart(&mut self, places: &[usize]) {
        self.start_over();
        for &place in places {
            self.single_out(place);
            // Never refused, or the next would not be alone.
            let row = self.row();
            self.toss(row, sealed_with(Name::Scroll as u8, &[]));
        }
    }
}

/// Fields of random shape.
impl Asker {
    fn large_fields(&mut self) {
        for _ in 0..LARGE {
            let places = self.random().between(9, MOST_PLACES - 1);
            self.random_field(places);
        }
    }

    fn small_fields(&mut self) {
        for _ in 0..SMALL {
            let places = self.random().between(0, 8);
            self.random_field(places);
        }
    }

    fn random_field(&mut self, places: usize) {
        let nesting = self.any_shape(places, MOST_LAYERS, &PERIODS);
        let like = self.random().pick(&LIKENESSES);
        let acts = self.random().between(2, 4);
        self.play(like, &nesting, |asker| {
            for _ in 0..acts {
                asker.any_act();
            }
        });
    }

    /// With so many layers at most, and spoilers of these periods.
    pub fn any_shape(&mut self, places: usize, layers: usize, periods: &[u16]) -> Nesting {
        match self.random().between(0, 6) {
            _ if layers == 0 => self.leaf(places),
            0 => self.leaf(places),
            1 | 2 => {
                let period = self.period(periods);
                Nesting::spoiler(period, self.any_shape(places, layers - 1, periods))
            }
            _ => {
                let left = self.split(places);
                let left_side = self.any_shape(left, layers - 1, periods);
                let right_side = self.any_shape(places - left, layers - 1, periods);
                Nesting::pair(left_side, right_side)
            }
        }
    }

    /// Seldom one that no spoiler can have.
    fn period(&mut self, periods: &[u16]) -> u16 {
        if self.random().one_in(40) {
            return 0;
        }
        self.random().pick(periods)
    }

    fn leaf(&mut self, places: usize) -> Nesting {
        if places == 1 && !self.random().one_in(4) {
            return Nesting::Single;
        }
        Nesting::Bench(places)
    }

    /// How many places go to the left.
    fn split(&mut self, places: usize) -> usize {
        let any = self.random().between(0, places);
        let one = places.min(1);
        self.random()
            .pick(&[0, one, places - one, places, any, any, any])
    }

    fn any_act(&mut self) {
        let (Some(place), Some(other)) = (self.any_place(), self.any_place()) else {
            return self.some_sends(3);
        };
        match self.random().between(0, 16) {
            0 => self.round(20),
            1 => self.places_apart(&[place, other]),
            2 => self.duet(place, other),
            3..=6 => self.again_and_again(place, 10),
            7 | 8 => self.any_change(place),
            9 => self.rooms(place),
            10 => self.read_everyone(),
            11 => self.groups(),
            12 => self.every_damage(),
            13 => self.leave_out(place),
            14 => self.pick_out(place),
            15 => self.gaps(),
            _ => self.some_sends(10),
        }
        self.some_sends(2);
    }
}

#[cfg(test)]
mod tests {
    use std::collections::HashSet;

    use super::*;
    use crate::field::{Hearing, Refusal};
    use crate::field_question::{Play, Question};
    use crate::frame::{self, COMMANDS};
    use crate::order::{Access, Order};
    use crate::tag::{State, Tag};
    use crate::tag_cases::GAPS;

    /// A send with what it met and what came of it.
    struct Sent {
        /// The field, or an empty bench where it was refused.
        nesting: Nesting,
        before: Vec<Tag>,
        after: Vec<Tag>,
        row: u64,
        room: usize,
        name: Result<Name, frame::Refusal>,
        order: Result<Order, frame::Refusal>,
        heard: Result<Hearing, Refusal>,
        /// What the same field without its spoilers heard.
        plain: Result<Hearing, Refusal>,
    }

    impl Sent {
        /// The place of the only selected tag in turn.
        fn winner(&self) -> Option<usize> {
            let in_turn = |place: &usize| {
                let tag = &self.after[*place];
                tag.state == State::Singulation && tag.counter == 0
            };
            let mut places = (0..self.after.len()).filter(in_turn);
            places.next().filter(|_| places.next().is_none())
        }
    }

    fn tags(play: &Play) -> Vec<Tag> {
        let places = 0..play.field.places();
        places.map(|place| play.field.tag(place).clone()).collect()
    }

    fn unspoiled(nesting: &Nesting) -> Nesting {
        match nesting {
            Nesting::Pair(left, right) => Nesting::pair(unspoiled(left), unspoiled(right)),
            Nesting::Spoiler(_, inner) => unspoiled(inner),
            leaf => leaf.clone(),
        }
    }

    /// Two plays side by side, of which the second has no spoilers.
    struct Both {
        nesting: Nesting,
        play: Play,
        plain: Play,
        sent: Vec<Sent>,
    }

    impl Both {
        fn make(&mut self, nesting: &Nesting, answer: &str) {
            let made = answer.starts_with("places");
            self.nesting = if made {
                nesting.clone()
            } else {
                Nesting::Bench(0)
            };
            Question::Field(unspoiled(&self.nesting)).answer(&mut self.plain);
        }

        fn send(&mut self, before: Vec<Tag>, row: u64, room: usize, frame: &[u8]) {
            let after = tags(&self.play);
            assert_eq!(after, tags(&self.plain));
            if self.play.heard != Ok(Hearing::Clash) {
                assert_eq!(self.play.buffer, self.plain.buffer);
            }
            self.sent.push(Sent {
                nesting: self.nesting.clone(),
                before,
                after,
                row,
                room,
                name: frame::open(frame).map(|opened| opened.name),
                order: Order::open(frame),
                heard: self.play.heard,
                plain: self.plain.heard,
            });
        }
    }

    fn sends(seed: u64) -> Vec<Sent> {
        let mut both = Both {
            nesting: Nesting::Bench(0),
            play: Play::new(),
            plain: Play::new(),
            sent: Vec::new(),
        };
        for Asked { question, answer } in all(seed) {
            let before = tags(&both.play);
            assert_eq!(question.answer(&mut both.play), answer);
            if let Question::Field(nesting) = &question {
                both.make(nesting, &answer);
                continue;
            }
            // After a refused send the buffers would differ for good, being kept.
            both.plain.buffer = both.play.buffer;
            question.answer(&mut both.plain);
            if let Question::Send { row, room, frame } = &question {
                both.send(before, *row, *room, frame);
            }
        }
        both.sent
    }

    fn nestings(seed: u64) -> Vec<(Nesting, String)> {
        let field = |asked: Asked| match asked.question {
            Question::Field(nesting) => Some((nesting, asked.answer)),
            _ => None,
        };
        all(seed).into_iter().filter_map(field).collect()
    }

    /// All parts, the whole among them.
    fn parts(nesting: &Nesting) -> Vec<&Nesting> {
        let mut all = vec![nesting];
        match nesting {
            Nesting::Pair(left, right) => {
                all.extend(parts(left));
                all.extend(parts(right));
            }
            Nesting::Spoiler(_, inner) => all.extend(parts(inner)),
            _ => {}
        }
        all
    }

    fn layers(nesting: &Nesting) -> usize {
        match nesting {
            Nesting::Pair(left, right) => 1 + layers(left).max(layers(right)),
            Nesting::Spoiler(_, inner) => 1 + layers(inner),
            _ => 0,
        }
    }

    #[test]
    fn the_seed_settles_everything() {
        let texts = |seed| -> Vec<_> { all(seed).iter().map(Asked::texts).collect() };
        assert!(texts(1) == texts(1));
        assert!(texts(1) != texts(2));
    }

    #[test]
    fn neither_too_few_nor_too_much() {
        for seed in 1..=8 {
            let asked = all(seed);
            let size: usize = asked.iter().map(Asked::size).sum();
            let count = |fits: fn(&Question) -> bool| {
                asked.iter().filter(|asked| fits(&asked.question)).count()
            };
            let sends = count(|question| matches!(question, Question::Send { .. }));
            let gaps = count(|question| matches!(question, Question::Gap(_)));
            let finds = count(|question| matches!(question, Question::Find(_)));
            let lines = asked.len();
            assert!((10_000..=14_000).contains(&lines), "{lines} lines");
            assert!(sends >= 7000, "{sends} sends");
            assert!(gaps >= 350 && finds >= 200, "{gaps} gaps, {finds} finds");
            assert!(size < 1_500_000, "{size} bytes");
        }
    }

    #[test]
    fn lines_come_in_plays() {
        let mut places = 0;
        let mut made = false;
        for Asked { question, answer } in all(3) {
            match question {
                Question::Tag { tag, told } => {
                    places += 1;
                    assert!(!made && tag.memory[told..].iter().all(|&byte| byte == 0));
                }
                Question::Find(_) => assert!(!made),
                Question::Field(nesting) => {
                    assert!(!made && nesting.places() == places);
                    assert!(layers(&nesting) <= MOST_LAYERS);
                    made = true;
                }
                Question::Send { room, .. } => assert!(made && room <= 300),
                Question::Gap(_) => assert!(made),
                Question::End => {
                    assert!(made && answer == "end");
                    (places, made) = (0, false);
                }
            }
        }
        assert!(!made && places == 0);
    }

    #[test]
    fn fields_are_of_every_size() {
        let sizes: Vec<usize> = nestings(4)
            .iter()
            .filter(|(_, answer)| answer.starts_with("places"))
            .map(|(nesting, _)| nesting.places())
            .collect();
        let count = |few, many| {
            let fits = |size: &&usize| (few..=many).contains(*size);
            sizes.iter().filter(fits).count()
        };
        for size in 0..=8 {
            assert!(count(size, size) >= 3, "{size} places");
        }
        assert!(count(9, 63) >= 15);
        assert_eq!(count(64, 64), FULL.len());
        assert!(count(0, 8) > sizes.len() * 3 / 4);
    }

    #[test]
    fn pairs_have_every_telling_border() {
        let nestings = nestings(5);
        let made = nestings
            .iter()
            .filter(|(_, answer)| answer.starts_with("places"));
        let borders: HashSet<(usize, usize)> = made
            .flat_map(|(nesting, _)| parts(nesting))
            .filter_map(|part| match part {
                Nesting::Pair(left, right) => Some((left.places(), right.places())),
                _ => None,
            })
            .collect();
        for border in [(0, 0), (0, 1), (1, 0), (0, 64), (64, 0), (1, 63), (63, 1)] {
            assert!(borders.contains(&border), "{border:?}");
        }
    }

    #[test]
    fn every_kind_lies_in_and_over_every_other() {
        let kind = |nesting: &Nesting| match nesting {
            Nesting::Bench(0) => "empty",
            Nesting::Bench(_) => "bench",
            Nesting::Single => "single",
            Nesting::Pair(..) => "pair",
            Nesting::Spoiler(..) => "spoiler",
        };
        let mut seen = HashSet::new();
        for (nesting, _) in nestings(6) {
            for part in parts(&nesting) {
                match part {
                    Nesting::Pair(left, right) => {
                        seen.insert(("left", kind(left)));
                        seen.insert(("right", kind(right)));
                    }
                    Nesting::Spoiler(_, inner) => {
                        seen.insert(("inner", kind(inner)));
                    }
                    _ => {}
                }
            }
        }
        assert_eq!(seen.len(), 3 * 5, "{seen:?}");
    }

    #[test]
    fn every_period_comes() {
        let nestings = nestings(7);
        let periods: HashSet<u16> = nestings
            .iter()
            .flat_map(|(nesting, _)| parts(nesting))
            .filter_map(|part| match part {
                Nesting::Spoiler(period, _) => Some(*period),
                _ => None,
            })
            .collect();
        assert_eq!(periods, HashSet::from([0, 1, 2, 3, 5, 65535]));
    }

    #[test]
    fn refused_fields_are_refused_as_they_should_be() {
        let nestings = nestings(8);
        let answer = |text: &str| {
            let mut nestings = nestings.iter();
            let found = nestings.find(|(nesting, _)| nesting.to_string() == text);
            found.map(|(_, answer)| answer.as_str())
        };
        for text in REFUSED {
            let too_many = REFUSED[..8].contains(&text)
                || ["spoiler 0 bench 65", "spoiler 0 pair bench 64 single"].contains(&text)
                || text == "pair bench 65 spoiler 0 single";
            let number = if too_many { 6 } else { 11 };
            assert_eq!(answer(text), Some(&*format!("refused {number}")), "{text}");
        }
        for text in FULL {
            let places = answer(text).map(|answer| answer.starts_with("places 64 "));
            assert_eq!(places, Some(true), "{text}");
        }
    }

    #[test]
    fn every_hearing_is_common() {
        for seed in 9..12 {
            let sends = sends(seed);
            let share = |heard| {
                let fitting = sends.iter().filter(|sent| sent.heard == heard);
                fitting.count() * 100 / sends.len()
            };
            assert!(share(Ok(Hearing::Lone)) >= 33);
            assert!(share(Ok(Hearing::Clash)) >= 15);
            assert!(share(Ok(Hearing::Silence)) >= 15);
            assert!((4..=10).contains(&share(Err(Refusal::NoRoom))));
        }
    }

    #[test]
    fn spoilers_only_turn_lone_replies_into_clashes() {
        let sends = sends(12);
        let spoils = |nesting: &Nesting| {
            let parts = parts(nesting);
            parts
                .iter()
                .any(|part| matches!(part, Nesting::Spoiler(..)))
        };
        let mut spoiled = 0;
        for sent in &sends {
            if sent.heard != sent.plain {
                assert_eq!(sent.heard, Ok(Hearing::Clash));
                assert_eq!(sent.plain, Ok(Hearing::Lone));
                assert!(spoils(&sent.nesting));
                spoiled += 1;
            }
        }
        assert!(spoiled >= 400, "{spoiled} spoiled");
        let heard_through = sends
            .iter()
            .filter(|sent| sent.heard == Ok(Hearing::Lone) && spoils(&sent.nesting));
        assert!(heard_through.count() >= 400);
    }

    #[test]
    fn every_command_is_heard_in_every_way() {
        let seen: HashSet<_> = sends(13)
            .iter()
            .filter_map(|sent| Some((sent.name.ok()?, sent.heard)))
            .collect();
        for command in &COMMANDS {
            let mut ways = vec![Ok(Hearing::Silence), Err(Refusal::NoRoom)];
            if command.name != Name::Reset {
                ways.extend([Ok(Hearing::Lone), Ok(Hearing::Clash)]);
            }
            for way in ways {
                let case = (command.name, way);
                assert!(seen.contains(&case), "{case:?}");
            }
        }
    }

    #[test]
    fn a_refused_send_would_have_changed_something() {
        let sends = sends(14);
        let telling = sends.iter().filter(|sent| {
            let mut tags = sent.before.clone();
            let refused = sent.heard == Err(Refusal::NoRoom);
            let step = |(place, tag): (usize, &mut Tag)| {
                tag.step(&sent.order, sent.row >> place & 1 == 1);
            };
            tags.iter_mut().enumerate().for_each(step);
            assert!(!refused || sent.after == sent.before);
            refused && tags != sent.before
        });
        assert!(telling.count() >= 200);
    }

    #[test]
    fn wrong_frames_meet_selected_tags() {
        let seen: HashSet<_> = sends(15)
            .iter()
            .filter_map(|sent| {
                let refusal = sent.name.err()?;
                let mut tags = sent.before.iter();
                let selected = tags.any(|tag| tag.state == State::Singulation);
                (selected && sent.heard.is_ok()).then_some(refusal)
            })
            .collect();
        assert_eq!(seen.len(), 4);
    }

    #[test]
    fn the_first_and_the_last_place_win_behind_every_border() {
        let mut seen = HashSet::new();
        for sent in sends(16) {
            let queried = (sent.name, sent.plain) == (Ok(Name::Query), Ok(Hearing::Lone));
            if queried && sent.before.len() == MOST_PLACES {
                let border = match &sent.nesting {
                    Nesting::Pair(left, _) => Some(left.places()),
                    _ => None,
                };
                seen.insert((border, sent.winner()));
            }
        }
        for border in [None, Some(0), Some(1), Some(63), Some(64)] {
            for winner in [0, 1, 62, 63] {
                let case = (border, Some(winner));
                assert!(seen.contains(&case), "{case:?}");
            }
        }
    }

    #[test]
    fn every_telling_row_and_room_comes() {
        let sends = sends(17);
        let rows: HashSet<_> = sends
            .iter()
            .filter(|sent| sent.name == Ok(Name::Query) && !sent.before.is_empty())
            .map(|sent| sent.row)
            .collect();
        for row in [0, u64::MAX, 1, 1 << 63, !1, !(1 << 63)] {
            assert!(rows.contains(&row), "{row:016X}");
        }
        let rooms: HashSet<_> = sends
            .iter()
            .map(|sent| (sent.room, sent.heard.is_ok()))
            .collect();
        for room in [0, 1, 257, 258, 259, 299, 300] {
            assert!(rooms.contains(&(room, room >= 258)));
        }
        assert_eq!(rooms.len(), 7);
    }

    #[test]
    fn readings_are_of_every_telling_length() {
        let seen: HashSet<_> = sends(18)
            .iter()
            .filter(|sent| sent.heard == Ok(Hearing::Lone))
            .filter_map(|sent| match sent.order {
                Ok(Order::Access {
                    access: Access::Read { length },
                    ..
                }) => Some((sent.name.ok()?, length)),
                _ => None,
            })
            .collect();
        for length in [1, 8, 256] {
            assert!(seen.contains(&(Name::ReadFlexible, length)));
        }
        assert!(seen.contains(&(Name::Read, 8)));
    }

    #[test]
    fn selections_match_all_some_and_none() {
        let mut seen = HashSet::new();
        for sent in sends(19) {
            let ready = |tags: &[Tag]| tags.iter().all(|tag| tag.state == State::Ready);
            let all_ready = sent.before.len() >= 2 && ready(&sent.before);
            if sent.name == Ok(Name::Select) && sent.heard.is_ok() && all_ready {
                let mut after = sent.after.iter();
                let none = ready(&sent.after);
                let all = after.all(|tag| tag.state == State::Singulation);
                seen.insert((none, all));
            }
        }
        assert_eq!(seen.len(), 3);
    }

    #[test]
    fn every_gap_meets_every_state() {
        let mut play = Play::new();
        let mut seen = HashSet::new();
        for Asked { question, .. } in all(20) {
            if let Question::Gap(microseconds) = question {
                let tags = tags(&play);
                seen.extend(tags.iter().map(|tag| (microseconds, tag.state)));
            }
            question.answer(&mut play);
        }
        for microseconds in GAPS {
            for state in [State::Ready, State::Singulation, State::Inventoried] {
                let case = (microseconds, state);
                assert!(seen.contains(&case), "{case:?}");
            }
        }
    }

    #[test]
    fn equal_serial_numbers_are_found_at_their_first_place() {
        let mut play = Play::new();
        let mut later = 0;
        for Asked { question, answer } in all(21) {
            if let Question::Find(serial) = &question {
                let table = play.table.iter();
                let same = table.filter(|tag| tag.serial() == serial).count();
                assert_eq!(same == 0, answer == "-");
                later += usize::from(same >= 2);
            }
            question.answer(&mut play);
        }
        assert!(later >= 10, "{later} of several");
    }
}
