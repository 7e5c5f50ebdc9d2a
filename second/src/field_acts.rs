//! What is done with a field once it is there.

use crate::cases::UNKNOWN_CODES;
use crate::field::Hearing;
use crate::field_asker::{Asker, GROUP_ADDRESS, TOO_LITTLE_ROOM};
use crate::frame::{sealed_with, Name, COMMANDS};
use crate::tag::State;
use crate::tag_asker::{access_frame, ACCESSES};
use crate::tag_cases::GAPS;

/// Every room at which something changes, and the ends.
const ROOMS: [usize; 7] = [0, 1, 257, 258, 259, 299, 300];

const LENGTHS: [u8; 6] = [0x00, 0x07, 0x08, 0x37, 0x38, 0xFF];

/// What may follow one another at one address of one tag.
const CHANGES: [&[Name]; 10] = [
    &[Name::Write, Name::Verify, Name::Verify],
    &[Name::Write, Name::Lock, Name::QLock, Name::Write],
    &[Name::Write, Name::Verify, Name::Lock, Name::QLock],
    &[Name::Read, Name::Lock, Name::QLock, Name::Write],
    &[Name::QLock, Name::Lock, Name::Verify],
    &[Name::ReadFlexible, Name::Lock, Name::Write],
    &[Name::Write, Name::QLock, Name::Verify, Name::Lock],
    &[Name::Write, Name::Repeat, Name::Verify],
    &[Name::Write, Name::Read, Name::Verify],
    &[Name::Lock, Name::Read, Name::Query, Name::Lock],
];

const TELLING_APART: [Name; 7] = [
    Name::Select,
    Name::Query,
    Name::Query,
    Name::Scroll,
    Name::Scroll,
    Name::Repeat,
    Name::UnselectNe,
];

/// Added to a right length, this shows whether lengths are cut down to a byte.
const BYTE_WRAP: usize = 256;

/// Telling the tags apart.
impl Asker {
    /// Afterwards every tag is selected, and in turn.
    pub fn start_over(&mut self) {
        if self.random().coin() {
            self.gap(250);
        } else {
            let frame = self.about_any().flipped_bit(Name::Query);
            self.toss(0, frame);
        }
        self.select_all();
    }

    fn select_all(&mut self) {
        let row = self.row();
        let frame = self.about_any().comparison(Name::Select, 0, 0x00, 0xFF);
        self.toss(row, frame);
    }

    /// An inventory as a reader makes it, until all are taken out or after so many sends.
    pub fn round(&mut self, most: usize) {
        let end = self.asked.len() + most;
        self.select_all();
        while self.asked.len() < end && self.anyone_selected() {
            if self.heard(Hearing::Lone) {
                self.take_out();
            } else if self.heard(Hearing::Clash) {
                let row = self.random().word();
                self.toss(row, sealed_with(Name::Query as u8, &[]));
            } else {
                self.call(Name::Scroll);
            }
        }
    }

    fn anyone_selected(&self) -> bool {
        let mut tags = (0..self.places()).map(|place| self.play.field.tag(place));
        tags.any(|tag| tag.state == State::Singulation)
    }

    /// Reads the tag that is heard alone, and lets the next come up.
    fn take_out(&mut self) {
        if self.random().one_in(4) {
            self.call(Name::Repeat);
        }
        if self.heard(Hearing::Lone) {
            let serial = self.heard_serial();
            let address = self.random().pick(&[0x00, 0x04, 0x08, 0x30]);
            self.put(access_frame(Name::Read, &serial, address, &[]));
        }
        self.call(Name::Scroll);
    }

    /// Lets all others lose, so that only the tag of this place is heard.
    pub fn single_out(&mut self, place: usize) {
        self.toss(!(1 << place), sealed_with(Name::Query as u8, &[]));
        if self.random().coin() {
            self.call(Name::Repeat);
        }
    }

    /// Lets only this place lose.
    pub fn leave_out(&mut self, place: usize) {
        self.toss(1 << place, sealed_with(Name::Query as u8, &[]));
        self.call(Name::Scroll);
    }

    /// Two that reply together, so that each side of a pair may hear one alone.
    pub fn duet(&mut self, one: usize, other: usize) {
        self.start_over();
        let row = !(1 << one) & !(1 << other);
        self.toss(row, sealed_with(Name::Query as u8, &[]));
        for _ in 0..self.random().between(1, 4) {
            self.call(Name::Repeat);
        }
        for place in [one, other, other, one] {
            self.step(place, Name::Read, 0x00);
        }
    }

    /// Picks one tag out of all, by its serial number or by its ID flag.
    pub fn pick_out(&mut self, place: usize) {
        self.pick_out_by_flag(place);
        if self.random().coin() {
            self.gap(250);
        } else {
            self.start_over();
        }
        for name in [Name::Select, Name::UnselectNe] {
            let frame = self.about(place).comparison(name, 0, 0xFF, 0x00);
            self.put(frame);
        }
        self.call(Name::Repeat);
    }

    /// Only a tag that has been read keeps its ID flag over the gap.
    fn pick_out_by_flag(&mut self, place: usize) {
        self.call(Name::Reset);
        self.step(place, Name::Read, 0x00);
        for name in [Name::UnselectNoIdFlag, Name::UnselectIdFlag] {
            self.gap(250);
            self.select_all();
            self.step(place, name, 0);
            self.call(Name::Repeat);
        }
    }

    /// Before each gap one tag is read, one is selected, and the others are neither.
    pub fn every_gap(&mut self, read: usize, selected: usize) {
        for microseconds in GAPS {
            self.gap(250);
            let select = self.about(selected).comparison(Name::Select, 0, 0xFF, 0x00);
            self.toss(0, select);
            let read_frame = self.about(read).frame(Name::Read, 0);
            self.toss(0, read_frame);
            self.gap(microseconds);
            self.call(Name::Repeat);
            self.select_all();
            self.step(read, Name::UnselectIdFlag, 0);
        }
    }

    /// Those of one group, of no group, and all but one group.
    pub fn groups(&mut self) {
        self.gap(250);
        for (name, differing) in [
            (Name::Select, 0xFF),
            (Name::Select, 0x7F),
            (Name::UnselectNe, 0x00),
            (Name::Select, 0x00),
            (Name::UnselectNe, 0x7F),
        ] {
            let pen = self.about_any();
            let frame = pen.comparison(name, GROUP_ADDRESS, 0x80, differing);
            self.put(frame);
        }
        for name in [Name::UnselectIdFlag, Name::UnselectNoIdFlag] {
            let frame = self.about_any().frame(name, 0);
            self.put(frame);
        }
    }
}

/// What concerns one tag after the other.
impl Asker {
    /// Everyone in turn, some perhaps with a twin.
    pub fn read_everyone(&mut self) {
        for place in 0..self.places() {
            let name = self.random().pick(&[Name::Read, Name::Read, Name::QLock]);
            let address = self.pick_address(name);
            self.step(place, name, address);
        }
    }

    /// The same tag again and again, so that every so many-th reply can be seen.
    pub fn again_and_again(&mut self, place: usize, times: usize) {
        for _ in 0..times {
            match self.random().between(0, 11) {
                0 => self.any_gap(),
                1 => self.call(Name::Reset),
                2 => self.refused(place),
                3 => self.read(place, 0x00, 0x00),
                _ => self.step(place, Name::Read, 0x04),
            }
        }
    }

    /// What would be heard if there were room for it.
    fn refused(&mut self, place: usize) {
        let name = self.random().pick(&[Name::Read, Name::Write]);
        let frame = self.about(place).frame(name, 0x08);
        let row = self.row();
        let room = self.random().pick(&TOO_LITTLE_ROOM);
        self.send(row, room, frame);
    }

    pub fn every_change(&mut self, place: usize) {
        for names in CHANGES {
            self.change(place, names);
        }
    }

    pub fn any_change(&mut self, place: usize) {
        let names = self.random().pick(&CHANGES);
        self.change(place, names);
    }

    /// Changes at one address, now and then with another frame in between.
    fn change(&mut self, place: usize, names: &[Name]) {
        let address = self.about(place).block();
        for &name in names {
            self.step(place, name, address);
            if self.random().one_in(10) {
                self.any_send();
            }
        }
    }

    pub fn rooms(&mut self, place: usize) {
        for room in ROOMS {
            let name = self.random().pick(&[Name::Read, Name::Write, Name::Lock]);
            let frame = self.about(place).frame(name, 0x08);
            let row = self.row();
            self.send(row, room, frame);
        }
    }

    /// Long replies; one is as long as any can be.
    pub fn lengths(&mut self, place: usize) {
        for length in LENGTHS {
            let address = self.random().pick(&[0x00, 0x08, 0x35, 0xFF]);
            self.read(place, address, length);
        }
    }

    pub fn stranger(&mut self, place: usize, name: Name) {
        let serial = self.near(place);
        let address = self.pick_address(name);
        let frame = self.about(place).access(name, &serial, address);
        self.put(frame);
    }

    /// Every command to a tag, and where it names one also to another.
    pub fn every_command(&mut self, place: usize) {
        for command in &COMMANDS {
            let address = self.pick_address(command.name);
            self.step(place, command.name, address);
            if ACCESSES.contains(&command.name) {
                self.stranger(place, command.name);
            }
        }
    }

    fn pick_address(&mut self, name: Name) -> u8 {
        self.about_any().address_for(name)
    }
}

/// What no tag obeys, and anything.
impl Asker {
    pub fn every_damage(&mut self) {
        for frame in self.damaged_frames() {
            self.put(frame);
        }
    }

    /// Each of them while this tag is taken out and all others are selected.
    pub fn every_damage_anew(&mut self, place: usize) {
        for frame in self.damaged_frames() {
            self.start_over();
            self.step(place, Name::Read, 0x00);
            let row = self.row();
            self.toss(row, frame);
            self.call(Name::Repeat);
        }
    }

    fn damaged_frames(&mut self) -> Vec<Vec<u8>> {
        let pen = self.about_any();
        let name = pen.any_name();
        let code = pen.random.pick(&UNKNOWN_CODES);
        vec![
            pen.stub(0),
            pen.stub(1),
            pen.stub(2),
            pen.flipped_bit(name),
            pen.plain_remainder(name),
            pen.one_byte_more(name),
            pen.one_byte_less(name),
            pen.unknown_code(code),
        ]
    }

    /// Right but for its length, which differs by what a byte cannot hold.
    pub fn long_frames(&mut self) {
        for name in [Name::Query, Name::Select] {
            let frame = self.about_any().frame(name, 0);
            let length = frame.len() - 3 + BYTE_WRAP;
            let parameters = self.random().bytes(length);
            self.put(sealed_with(name as u8, &parameters));
        }
        let bytes = self.random().bytes(300);
        self.put(bytes);
    }

    pub fn gaps(&mut self) {
        for _ in 0..3 {
            self.any_gap();
            self.any_send();
        }
    }

    pub fn some_sends(&mut self, times: usize) {
        for _ in 0..times {
            self.any_send();
        }
    }

    fn any_send(&mut self) {
        let Some(place) = self.any_place() else {
            return self.any_frame();
        };
        match self.random().between(0, 15) {
            0 => self.any_frame(),
            1 => self.any_gap(),
            2 => {
                let name = self.random().pick(&ACCESSES);
                self.stranger(place, name);
            }
            3..=6 => {
                let name = self.random().pick(&TELLING_APART);
                let address = self.pick_address(name);
                self.step(place, name, address);
            }
            7 => {
                let length = self.random().pick(&[0x00, 0x07, 0x07, 0xFF]);
                self.read(place, 0x00, length);
            }
            8..=11 => self.step(place, Name::Read, 0x08),
            _ => {
                let name = self.random().pick(&ACCESSES);
                let address = self.pick_address(name);
                self.step(place, name, address);
            }
        }
    }

    /// A right frame of any command or a damaged one, which any tag may lack.
    pub fn any_frame(&mut self) {
        let pen = self.about_any();
        let frame = if pen.random.coin() {
            pen.any_damaged()
        } else {
            let name = pen.any_name();
            let address = pen.address_for(name);
            pen.frame(name, address)
        };
        self.put(frame);
    }
}

#[cfg(test)]
mod tests {
    use super::*;
    use crate::field_asker::Like;
    use crate::nesting::Nesting;

    fn on(text: &str, acts: impl FnOnce(&mut Asker)) {
        let nesting = Nesting::read(text).expect("the words are right");
        Asker::new(2).play(Like::New, &nesting, acts);
    }

    fn states(asker: &Asker) -> Vec<State> {
        let tags = (0..asker.places()).map(|place| asker.play.field.tag(place));
        tags.map(|tag| tag.state).collect()
    }

    /// The answers since so many questions, by their first word.
    fn count(asker: &Asker, first: usize, word: &str) -> usize {
        let answers = asker.asked[first..].iter();
        answers
            .filter(|asked| asked.answer.starts_with(word))
            .count()
    }

    #[test]
    fn starting_over_selects_all() {
        on("pair single bench 5", |asker| {
            for _ in 0..10 {
                asker.some_sends(5);
                asker.start_over();
                assert_eq!(states(asker), [State::Singulation; 6]);
                assert!((0..6).all(|place| asker.play.field.tag(place).counter == 0));
                assert!(asker.heard(Hearing::Clash));
            }
        });
    }

    #[test]
    fn one_is_singled_out_or_left_out() {
        on("pair bench 3 bench 5", |asker| {
            for place in 0..8 {
                asker.start_over();
                let first = asker.asked.len();
                asker.single_out(place);
                assert!(count(asker, first, "lone") >= 1);
                assert_eq!(asker.heard_serial(), asker.serial(place));
                asker.start_over();
                let first = asker.asked.len();
                asker.leave_out(place);
                assert_eq!(count(asker, first, "lone"), 0);
            }
        });
    }

    #[test]
    fn a_round_takes_all_out() {
        for text in ["bench 8", "pair bench 3 spoiler 3 bench 5", "bench 64"] {
            on(text, |asker| {
                asker.round(500);
                let states = states(asker);
                assert!(states.iter().all(|&state| state == State::Inventoried));
            });
        }
    }

    #[test]
    fn a_round_ends_in_time() {
        on("bench 64", |asker| {
            let first = asker.asked.len();
            asker.round(20);
            let sends = asker.asked.len() - first;
            assert!((20..24).contains(&sends), "{sends} sends");
        });
    }

    #[test]
    fn a_duet_clashes_and_each_is_heard_alone() {
        on("pair single bench 3", |asker| {
            let first = asker.asked.len();
            asker.duet(0, 2);
            assert!(count(asker, first, "clash") >= 2);
            assert!(count(asker, first, "lone") >= 2);
        });
    }

    #[test]
    fn picking_out_one() {
        on("pair single bench 3", |asker| {
            for place in 0..4 {
                let first = asker.asked.len();
                asker.pick_out(place);
                assert!(count(asker, first, "lone") >= 4);
            }
        });
    }

    #[test]
    fn rooms_are_refused_below_the_longest_reply() {
        on("single", |asker| {
            let first = asker.asked.len();
            asker.rooms(0);
            assert_eq!(count(asker, first, "refused-5"), 3);
            assert_eq!(count(asker, first, "lone"), 4);
        });
    }

    #[test]
    fn changes_are_verified() {
        on("bench 3", |asker| {
            let first = asker.asked.len();
            asker.every_change(1);
            assert!(asker.asked.len() - first >= 30);
            assert!(count(asker, first, "lone") >= 20);
        });
    }

    #[test]
    fn nothing_damaged_is_replied_to() {
        on("bench 3", |asker| {
            asker.start_over();
            let first = asker.asked.len();
            asker.every_damage();
            asker.long_frames();
            assert_eq!(asker.asked.len() - first, 11);
            assert_eq!(
                count(asker, first, "lone") + count(asker, first, "clash"),
                0
            );
        });
    }

    #[test]
    fn an_empty_field_can_be_sent_to() {
        on("pair bench 0 bench 0", |asker| {
            let first = asker.asked.len();
            asker.some_sends(30);
            assert_eq!(asker.asked.len() - first, 30);
            assert_eq!(
                count(asker, first, "lone") + count(asker, first, "clash"),
                0
            );
        });
    }
}
