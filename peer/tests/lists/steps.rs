//! Calls of several steps, through both builds.

use peer::testing::lent::Lent;
use peer::testing::lines::beside_openings;
use peer::testing::naive::spec::questions;
use peer::testing::records::words_of;
use peer::testing::settings;
use peer::testing::shapes::{asked, small_shape};
use peer::testing::steps::{cells, edges, example, Example};
use peer::{Answer, Cycle, Name, Phase, Shape};

use crate::drawn::Drawn;
use crate::list::{List, Seen};
use crate::pieces::{CELLS, COUNTERS};
use crate::SEED;

/// An array of so many cells is often written anew.
const FEW_CELLS: usize = 2_000;

impl List<'_> {
    /// A call of several steps, of any number.
    pub fn several_steps(&mut self) {
        let steps = self.right(Name::Steps);
        self.make(steps);
    }

    /// A call of so many steps.
    fn steps_of(&mut self, most: usize) -> Drawn {
        let mut steps = self.right(Name::Steps);
        *steps.call.most_mut().expect("a call of steps") = most;
        steps
    }

    /// Several steps from any place of any schedule, often with counters of any
    /// bytes, and then perhaps with something wrong.
    pub fn steps_from_anywhere(&mut self) {
        self.jump();
        if !self.random.one_in(3) {
            self.foreign_counters();
        }
        if self.layout.cells() <= FEW_CELLS && self.random.one_in(3) {
            self.foreign_cells();
        }
        self.several_steps();
        let steps = self.any(Name::Steps);
        self.make(steps);
    }

    /// Counters of any bytes, of the greatest one, or of the radix and more.
    fn foreign_counters(&mut self) {
        let (rows, radix) = (self.shape.rows, self.shape.radix);
        let counters = match self.random.below(3) {
            0 => self.random.bytes(rows),
            1 => vec![255; rows],
            _ => (0..rows)
                .map(|_| self.random.between(radix, 255) as u8)
                .collect(),
        };
        self.write(COUNTERS, 0, counters);
    }

    /// Cells of levels and other bytes.
    fn foreign_cells(&mut self) {
        let levels = self.layout.levels();
        let cells = cells(&mut self.random, levels, self.layout.cells());
        self.write(CELLS, 0, cells);
    }

    /// A cycle of any z by single steps and calls of several, with other things
    /// between now and then, and several steps more.
    pub fn mixed_cycle(&mut self, disturbed: bool) {
        let skip = self.random.below(self.shape.digits);
        let start = self.skipping(Name::Start, skip);
        self.make(start);
        for _ in 0..40 {
            if self.record().phase != Phase::Open {
                break;
            }
            if disturbed {
                match self.random.below(12) {
                    0 => self.disturb(),
                    1 => self.call_between(),
                    2 => self.foreign_counters(),
                    _ => {}
                }
            }
            let name = self.random.pick(&[Name::Step, Name::Step, Name::Steps]);
            let call = self.right(name);
            self.make(call);
        }
        self.several_steps();
        self.panel();
    }

    /// Several steps are refused with 9, whatever their number.
    fn refuse_record(&mut self, cycle: Cycle, left: usize) {
        for most in edges(left) {
            self.put(words_of(cycle));
            let steps = self.steps_of(most);
            assert_eq!(self.make(steps), Answer::Refused(9));
        }
    }

    /// With the record at hand: each buffer too long or too short, alone and with a
    /// bad shape besides.
    fn check_order_of_steps(&mut self, most: usize) {
        let right = self.steps_of(most);
        let shapes = asked(self.shape);
        for buffer in 0..=Lent::MATCHES {
            let mut wrong = right.clone();
            let length = wrong.lengths.at(buffer);
            *length = self.random.pick(&[0, *length - 1, *length + 1]);
            for (number, shape) in shapes {
                wrong.shape = shape;
                let wanted = if number == 0 { 6 } else { number };
                assert_eq!(self.make(wrong.clone()), Answer::Refused(wanted));
            }
        }
        let wanted = match self.record().phase {
            Phase::Open => 0,
            _ => 9,
        };
        assert_eq!(self.make(right).number(), wanted);
    }

    /// Somebody else writes the match bytes.
    fn write_matches(&mut self, matches: Vec<u8>) {
        self.write(Lent::MATCHES, 0, matches);
    }
}

#[test]
fn the_example_of_several_steps() {
    let Example { shape, calls, made } = example();
    let mut seen = Seen::default();
    let mut list = List::new(settings::seed(SEED), |_| shape, &mut seen);
    for call in calls {
        let drawn = list.lent(call);
        assert_eq!(list.make(drawn), Answer::Done);
    }
    for several in made {
        list.write_matches(vec![7; 2]);
        let steps = list.steps_of(several.most);
        assert_eq!(list.make(steps).number(), several.number);
        let lent = &list.ours.lent;
        assert_eq!(*lent.own[0], several.matches);
        assert_eq!(*lent.state.counters, several.counters);
        assert_eq!(*lent.state.flags, several.flags);
        assert_eq!(list.record().count, several.count);
    }
}

/// From every place of every schedule, on counters of any bytes, every number of
/// steps at a limit. The cycle goes on from there or is ended.
#[test]
fn steps_from_every_place_leave_the_same() {
    let mut seed = settings::seed(SEED);
    let (mut within, mut ended) = (0, 0);
    for (radix, digits, errors, width) in [(2, 4, 1, 3), (2, 3, 2, 4), (3, 3, 3, 1), (5, 2, 2, 3)] {
        seed = seed.wrapping_sub(1);
        let shape = Shape::new(radix, digits, errors, width, 3);
        let mut seen = Seen::default();
        let mut list = List::new(seed, |_| shape, &mut seen);
        for schedule in list.schedules.clone() {
            for count in 0..schedule.steps() {
                let left = schedule.steps() - count;
                list.foreign_cells();
                for most in edges(left) {
                    list.put(words_of(schedule.record(count)));
                    list.foreign_counters();
                    let steps = list.steps_of(most);
                    assert_eq!(list.make(steps), Answer::Done);
                    let after = schedule.record(count + most.min(left));
                    assert_eq!(list.record(), after);
                    match after.phase {
                        Phase::Complete => ended += 1,
                        _ => within += 1,
                    }
                }
            }
        }
    }
    assert!(within > 1_000 && ended > 1_000, "{within} {ended}");
}

/// Whole cycles at the largest shapes by calls of the same number of steps.
#[test]
fn cycles_of_several_steps_at_the_limits_leave_the_same() {
    let mut seed = settings::seed(SEED);
    for (radix, digits, errors, width) in [(255, 1, 1, 254), (2, 8, 2, 247), (16, 2, 3, 120)] {
        for (rows, most) in [(1, 7), (2, 64), (3, 1_000), (65, usize::MAX)] {
            seed = seed.wrapping_sub(1);
            let mut seen = Seen::default();
            let shape = Shape::new(radix, digits, errors, width, rows);
            let mut list = List::new(seed, |_| shape, &mut seen);
            let skip = list.random.below(digits);
            let start = list.skipping(Name::Start, skip);
            list.make(start);
            while list.record().phase == Phase::Open {
                let steps = list.steps_of(most);
                assert_eq!(list.make(steps), Answer::Done);
            }
            assert_eq!(list.record(), list.complete(skip));
            let steps = list.steps_of(most);
            assert_eq!(list.make(steps), Answer::Refused(9));
        }
    }
}

/// Every question of several steps for every number of them: a bad shape with all
/// else wrong, a wrong length of each buffer with a bad record, and that record.
#[test]
fn the_questions_of_several_steps_come_in_the_same_order() {
    let mut seed = settings::seed(SEED);
    for _ in 0..settings::lists(20) {
        let mut seen = Seen::default();
        let mut list = List::new(seed, small_shape, &mut seen);
        let spec = questions(list.shape).expect("a good shape");
        for most in edges(spec.steps(0)) {
            for record in [Cycle::IDLE, Cycle::open(0)] {
                list.put(words_of(record));
                list.check_order_of_steps(most);
            }
        }
        for skip in 0..list.shape.digits {
            for beside in beside_openings(&spec, skip) {
                list.refuse_record(beside, spec.steps(skip));
            }
            let complete = list.complete(skip);
            list.refuse_record(complete, 0);
        }
        seed = seed.wrapping_sub(1);
    }
}
