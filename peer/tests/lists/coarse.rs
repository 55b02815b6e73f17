//! Cycles that skip low digits, through both builds.

use peer::testing::naive::schedule::Schedule;
use peer::testing::records::words_of;
use peer::testing::settings;
use peer::testing::shapes::small_shape;
use peer::testing::skips::{example, too_many, Example};
use peer::{Answer, Call, Cycle, Shape};

use crate::list::{List, Seen};
use crate::SEED;

/// Every z at shapes of many digits.
#[test]
fn whole_cycles_of_every_skip_leave_the_same() {
    let mut seed = settings::seed(SEED);
    let mut seen = Seen::default();
    for (radix, digits) in [(2, 8), (3, 5), (4, 4), (6, 3), (15, 2), (16, 2)] {
        for errors in [1, 2, 3] {
            seed = seed.wrapping_sub(1);
            let shape = Shape::new(radix, digits, errors, 3, 70);
            let mut list = List::new(seed, |_| shape, &mut seen);
            for skip in 0..digits {
                list.changed_row();
                list.whole_cycles(skip);
            }
        }
    }
    println!("{} calls", seen.tally.calls());
    assert_eq!(seen.ended, 3 * (8 + 5 + 4 + 3 + 2 + 2));
}

/// Every record of every schedule with every z put in its place. A step takes it
/// exactly where the schedule of the new z has it too.
#[test]
fn steps_with_another_skip_are_answered_the_same() {
    let mut seed = settings::seed(SEED);
    let (mut taken, mut refused) = (0, 0);
    for (radix, digits, errors, width) in [(2, 4, 1, 3), (2, 3, 2, 4), (3, 3, 3, 1), (5, 2, 2, 3)] {
        seed = seed.wrapping_sub(1);
        let shape = Shape::new(radix, digits, errors, width, 3);
        let mut seen = Seen::default();
        let mut list = List::new(seed, |_| shape, &mut seen);
        let schedules = list.schedules.clone();
        for (schedule, count) in places(&schedules) {
            let cycle = schedule.record(count);
            for skip in (0..digits).chain(too_many(digits)) {
                list.put(words_of(cycle));
                let answer = list.step_with_skip(skip);
                let new = schedules.get(skip);
                if new.is_some_and(|new| new.awaits(&Cycle { skip, ..cycle })) {
                    assert_eq!(answer, Answer::Done);
                    taken += 1;
                } else {
                    assert_eq!(answer, Answer::Refused(9));
                    refused += 1;
                }
            }
        }
    }
    assert!(taken > 500 && refused > 500, "{taken} {refused}");
}

/// Every place of every schedule.
fn places(schedules: &[Schedule]) -> impl Iterator<Item = (&Schedule, usize)> {
    schedules
        .iter()
        .flat_map(|schedule| (0..schedule.steps()).map(move |count| (schedule, count)))
}

/// The example of the coarse cycle, and a number of digits that is refused.
#[test]
fn the_example_of_coarse_cycles() {
    let Example {
        shape,
        calls,
        cycles,
    } = example();
    let mut seen = Seen::default();
    let mut list = List::new(settings::seed(SEED), |_| shape, &mut seen);
    for call in calls {
        let drawn = list.lent(call);
        assert_eq!(list.make(drawn), Answer::Done);
    }
    for (skip, (steps, flags)) in cycles.into_iter().enumerate() {
        list.whole_cycles(skip);
        assert_eq!(list.record().count, steps);
        assert_eq!(*list.ours.lent.state.flags, flags);
    }
    let start = list.lent(Call::Start { skip: 3 });
    assert_eq!(list.make(start), Answer::Refused(15));
}

/// A start and a whole cycle with too many digits to skip: 15 stands after 5
/// and before 6, and an open cycle goes on.
#[test]
fn too_many_skipped_digits_are_refused_by_both() {
    let mut seed = settings::seed(SEED);
    for _ in 0..settings::lists(50) {
        let mut seen = Seen::default();
        let mut list = List::new(seed, small_shape, &mut seen);
        let skip = list.random.below(list.shape.digits);
        list.cycle(skip, 1, false);
        for skip in too_many(list.shape.digits) {
            list.too_many_skipped(skip);
        }
        list.steps(usize::MAX, false);
        assert_eq!(list.record(), list.complete(skip));
        seed = seed.wrapping_sub(1);
    }
}
