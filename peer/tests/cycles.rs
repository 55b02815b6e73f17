//! The step against the schedule as nested loops with full lookups, and the
//! records that a step takes.

use peer::testing::lines::{any_lines, beside_openings};
use peer::testing::naive::calls::step_with;
use peer::testing::naive::schedule::Schedule;
use peer::testing::naive::spec::{questions, Spec};
use peer::testing::panels::foreign;
use peer::testing::random::Random;
use peer::testing::records::forged;
use peer::testing::settings;
use peer::testing::shapes::{limit_shape, short_cycle_shape, small_shape, BLOCK_EDGES};
use peer::testing::skips::too_many;
use peer::{Answer, Array, Cycle, Phase, Shape, State};

const REFUSED: Answer = Answer::Refused(9);

/// An array, and the buffer for match bytes that goes with its steps.
#[derive(Clone, Debug, PartialEq, Eq)]
struct Stepped {
    array: Array,
    matches: Vec<u8>,
}

impl Stepped {
    /// Buffers of the right lengths with any contents, and some sound rows.
    fn drawn(random: &mut Random, spec: &Spec) -> Stepped {
        let rows = spec.shape.rows;
        let mut cells = Vec::new();
        for _ in 0..rows {
            let levels = random.levels(spec.levels, spec.shape.width);
            let mut row = spec.encoded(&levels);
            for _ in 0..random.below(4) {
                let column = random.below(spec.columns());
                row[column] = random.byte();
            }
            cells.extend(row);
        }
        let mut state = State {
            cells,
            ..State::fresh(&spec.shape.layout().unwrap())
        };
        meddle(random, spec.shape, &mut state);
        Stepped {
            array: Array {
                shape: spec.shape,
                state,
                belts: random.bytes(rows),
                cycle: Cycle::IDLE,
            },
            matches: random.bytes(rows),
        }
    }

    /// The same with another record.
    fn with(&self, cycle: Cycle) -> Stepped {
        let mut other = self.clone();
        other.array.cycle = cycle;
        other
    }

    fn step(&mut self) -> Answer {
        self.array.step(&mut self.matches)
    }
}

/// Any bytes for lines, counters, flags and totals.
fn meddle(random: &mut Random, shape: Shape, state: &mut State<Vec<u8>>) {
    state.lines = any_lines(random, shape.rows);
    state.counters = random.bytes(shape.rows);
    (state.flags, state.totals) = foreign(random, &shape.layout().unwrap());
}

/// Runs a whole cycle both ways and compares all that is lent after each step.
/// Where it is `disturbed`, lines, counters, flags and totals are overwritten
/// now and then.
fn compare_cycle(random: &mut Random, shape: Shape, skip: usize, disturbed: bool) {
    let spec = questions(shape).unwrap();
    let schedule = spec.schedule(skip);
    assert_eq!(schedule.steps(), spec.steps(skip));
    let mut ours = Stepped::drawn(random, &spec);
    assert_eq!(ours.array.start(skip), Answer::Done);
    assert_eq!(ours.array.cycle, schedule.record(0));
    let [_, _, zeros @ ..] = ours.array.state.each().into_array();
    assert!(zeros.into_iter().flatten().all(|&byte| byte == 0));
    let mut plain = ours.clone();
    for _ in 0..schedule.steps() {
        if disturbed && random.one_in(3) {
            meddle(random, shape, &mut ours.array.state);
            plain.array.state = ours.array.state.clone();
        }
        assert_eq!(ours.step(), Answer::Done);
        let Stepped { array, matches } = &mut plain;
        assert_eq!(step_with(&spec, &schedule, array, matches), Ok(()));
        assert_eq!(ours, plain, "{shape:?} {skip}");
    }
    assert_eq!(ours.array.cycle.phase, Phase::Complete);
    assert_eq!(ours.step(), REFUSED);
    assert_eq!(ours, plain);
}

/// Whole cycles of every z.
fn compare_cycles(random: &mut Random, shape: Shape, disturbed: bool) {
    for skip in 0..shape.digits {
        compare_cycle(random, shape, skip, disturbed);
    }
}

#[test]
fn whole_cycles_on_small_shapes() {
    let mut random = settings::random(3);
    for _ in 0..400 {
        let shape = small_shape(&mut random);
        compare_cycles(&mut random, shape, false);
    }
}

#[test]
fn whole_cycles_with_any_bytes_in_lines_counters_flags_and_totals() {
    let mut random = settings::random(4);
    for _ in 0..200 {
        let shape = small_shape(&mut random);
        compare_cycles(&mut random, shape, true);
    }
}

#[test]
fn whole_cycles_on_arrays_of_one_block_and_more() {
    let mut random = settings::random(20);
    for rows in BLOCK_EDGES {
        for turn in 0..20 {
            let shape = Shape {
                rows,
                ..short_cycle_shape(&mut random, 60)
            };
            compare_cycles(&mut random, shape, turn % 2 == 1);
        }
    }
}

#[test]
fn whole_cycles_at_the_limits() {
    let mut random = settings::random(5);
    for _ in 0..6 {
        let mut shape = limit_shape(&mut random);
        shape.rows = 2;
        compare_cycle(&mut random, shape, 0, false);
        compare_cycle(&mut random, shape, shape.digits - 1, true);
    }
    for (radix, digits, errors, width, skips) in [
        (2, 8, 2, 247, &[0, 4, 7][..]),
        (255, 1, 1, 254, &[0]),
        (16, 2, 3, 120, &[0, 1]),
    ] {
        let shape = Shape::new(radix, digits, errors, width, 2);
        for &skip in skips {
            compare_cycle(&mut random, shape, skip, false);
            compare_cycle(&mut random, shape, skip, true);
        }
    }
}

/// The first and last steps on arrays of many rows.
#[test]
fn steps_on_many_rows() {
    let mut random = settings::random(6);
    for _ in 0..40 {
        let mut shape = limit_shape(&mut random);
        shape.rows = random.pick(&[256, 4095, 4096]);
        let spec = questions(shape).unwrap();
        let skip = random.below(shape.digits) * random.below(2);
        let schedule = spec.schedule(skip);
        let last = schedule.steps() - 1;
        let mut ours = Stepped::drawn(&mut random, &spec);
        for count in [0, 1, 2, random.below(last + 1), last] {
            ours.array.cycle = schedule.record(count);
            let mut plain = ours.clone();
            assert_eq!(ours.step(), Answer::Done);
            let Stepped { array, matches } = &mut plain;
            assert_eq!(step_with(&spec, &schedule, array, matches), Ok(()));
            assert_eq!(ours, plain, "{shape:?} {skip}");
        }
    }
}

/// All records in a box around those of a shape with one z.
fn records_around(spec: &Spec, skip: usize) -> Vec<Cycle> {
    let mut records = Vec::new();
    for phase in [Phase::Idle, Phase::Open, Phase::Complete] {
        for check in 0..=spec.checks {
            for digit in 0..=spec.shape.digits {
                for column in 0..=spec.columns() {
                    for factor in 0..=spec.levels {
                        records.extend((0..=spec.steps(0)).map(|count| Cycle {
                            phase,
                            check,
                            digit,
                            column,
                            factor,
                            count,
                            skip,
                        }));
                    }
                }
            }
        }
    }
    records
}

/// How many records a step took and refused.
#[derive(Default)]
struct Answers {
    taken: usize,
    refused: usize,
}

impl Answers {
    /// A step with the record. It is taken exactly where the record awaits a
    /// lookup of one of the schedules, and then brings the next record; a
    /// refused one leaves all as it was.
    fn compare(&mut self, schedules: &[Schedule], fresh: &Stepped, cycle: Cycle) {
        let mut ours = fresh.with(cycle);
        let answer = ours.step();
        match schedules.iter().find(|schedule| schedule.awaits(&cycle)) {
            Some(schedule) => {
                assert_eq!(answer, Answer::Done, "{cycle:?}");
                assert_eq!(ours.array.cycle, schedule.record(cycle.count + 1));
                self.taken += 1;
            }
            None => {
                assert_eq!(answer, REFUSED, "{cycle:?}");
                assert_eq!(ours, fresh.with(cycle));
                self.refused += 1;
            }
        }
    }
}

#[test]
fn a_step_takes_the_records_of_the_schedules_and_no_others() {
    for (radix, digits, errors, width) in [
        (2, 1, 1, 1),
        (2, 2, 2, 2),
        (2, 3, 1, 3),
        (3, 2, 1, 2),
        (3, 1, 3, 1),
        (5, 1, 2, 1),
    ] {
        let spec = questions(Shape::new(radix, digits, errors, width, 1)).unwrap();
        let schedules: Vec<Schedule> = spec.schedules().collect();
        let fresh = Stepped::drawn(&mut Random::new(7), &spec);
        for skip in 0..digits + 2 {
            let mut answers = Answers::default();
            for cycle in records_around(&spec, skip) {
                answers.compare(&schedules, &fresh, cycle);
            }
            let steps = schedules.get(skip).map_or(0, Schedule::steps);
            assert_eq!(answers.taken, steps);
            assert!(answers.refused > steps);
        }
    }
}

/// The records of the openings have place 0, count 0 or 1 and any z below b. What
/// stands beside them is refused.
#[test]
fn a_step_takes_the_openings_and_no_record_beside_them() {
    let mut random = settings::random(31);
    for _ in 0..300 {
        let spec = questions(small_shape(&mut random)).unwrap();
        let fresh = Stepped::drawn(&mut random, &spec);
        for skip in 0..spec.shape.digits {
            let opening = |count| Cycle {
                phase: Phase::Open,
                check: 0,
                digit: 0,
                column: 0,
                factor: 0,
                count,
                skip,
            };
            assert_eq!(Cycle::open(skip), opening(0));
            for count in [0, 1] {
                let mut ours = fresh.with(opening(count));
                assert_eq!(ours.step(), Answer::Done);
                assert_eq!(ours.array.cycle, spec.schedule(skip).record(count + 1));
            }
            for beside in beside_openings(&spec, skip) {
                let mut ours = fresh.with(beside);
                assert_eq!(ours.step(), REFUSED, "{beside:?}");
                assert_eq!(ours, fresh.with(beside));
            }
        }
    }
}

/// Records without a place, of every phase, z and count: such of an open cycle with
/// count 0 or 1 and a z below b are taken, and no others.
#[test]
fn the_count_alone_tells_the_openings_apart() {
    let mut random = settings::random(37);
    for _ in 0..100 {
        let spec = questions(small_shape(&mut random)).unwrap();
        let digits = spec.shape.digits;
        let schedules: Vec<Schedule> = spec.schedules().collect();
        let fresh = Stepped::drawn(&mut random, &spec);
        let mut answers = Answers::default();
        for phase in [Phase::Idle, Phase::Open, Phase::Complete] {
            for skip in (0..digits).chain(too_many(digits)) {
                for count in (0..spec.steps(0) + 3).chain([256, 257, 1 << 32, usize::MAX]) {
                    let cycle = Cycle {
                        phase,
                        count,
                        skip,
                        ..Cycle::IDLE
                    };
                    answers.compare(&schedules, &fresh, cycle);
                }
            }
        }
        assert_eq!(answers.taken, 2 * digits);
    }
}

/// The z of a record is changed in the middle of a cycle. The new one is taken
/// only where a start with it leaves the same place and count: at the openings,
/// and in the first check, down to the greater z.
#[test]
fn a_step_with_another_skip_in_its_record() {
    let mut random = settings::random(26);
    let mut answers = Answers::default();
    for _ in 0..60 {
        let spec = questions(small_shape(&mut random)).unwrap();
        let digits = spec.shape.digits;
        let schedules: Vec<Schedule> = spec.schedules().collect();
        let fresh = Stepped::drawn(&mut random, &spec);
        for schedule in &schedules {
            for count in 0..schedule.steps() {
                let cycle = schedule.record(count);
                let others = (0..digits).filter(|&skip| skip != schedule.skip);
                for skip in others.chain(too_many(digits)) {
                    let before = answers.taken;
                    answers.compare(&schedules, &fresh, Cycle { skip, ..cycle });
                    let same_place = count < 2 || cycle.check == 0 && cycle.digit >= skip;
                    let alike = skip < digits && same_place;
                    assert_eq!(answers.taken > before, alike, "{cycle:?} {skip}");
                }
            }
        }
    }
    let Answers { taken, refused } = answers;
    assert!(taken > 1000 && refused > 1000, "{taken} {refused}");
}

/// Forged records at all sizes, with fields as large as they can be.
#[test]
fn forged_records_are_refused() {
    let mut random = settings::random(8);
    let mut answers = Answers::default();
    for turn in 0..300 {
        let mut shape = if turn % 3 == 0 {
            limit_shape(&mut random)
        } else {
            small_shape(&mut random)
        };
        shape.rows = shape.rows.min(3);
        let spec = questions(shape).unwrap();
        let schedules: Vec<Schedule> = spec.schedules().collect();
        for _ in 0..200 {
            let schedule = &schedules[random.below(shape.digits)];
            let count = random.below(schedule.steps() + 1);
            let cycle = forged(&mut random, schedule.record(count));
            let fresh = Stepped::drawn(&mut random, &spec);
            answers.compare(&schedules, &fresh, cycle);
        }
    }
    let Answers { taken, refused } = answers;
    assert!(taken > 1000 && refused > 1000, "{taken} {refused}");
}

/// A record of another shape is taken only where it is also one of this shape.
#[test]
fn records_of_other_shapes() {
    let mut random = settings::random(9);
    let mut answers = Answers::default();
    for _ in 0..600 {
        let spec = questions(small_shape(&mut random)).unwrap();
        let schedules: Vec<Schedule> = spec.schedules().collect();
        let other = small_shape(&mut random);
        let skip = random.below(other.digits);
        let foreign = questions(other).unwrap().schedule(skip);
        let count = random.below(foreign.steps());
        let fresh = Stepped::drawn(&mut random, &spec);
        answers.compare(&schedules, &fresh, foreign.record(count));
    }
    let Answers { taken, refused } = answers;
    assert!(taken > 20 && refused > 100, "{taken} {refused}");
}

/// A start opens the cycle anew whatever the record, and a refused one hands
/// it back.
#[test]
fn a_start_from_any_record() {
    let mut random = settings::random(10);
    for turn in 0..600 {
        let shape = small_shape(&mut random);
        let spec = questions(shape).unwrap();
        let before = spec.schedule(random.below(shape.digits));
        let skip = random.below(shape.digits);
        let mut ours = Stepped::drawn(&mut random, &spec).array;
        ours.cycle = forged(&mut random, before.record(1));
        let old = ours.clone();
        match turn % 3 {
            0 => {
                assert_eq!(ours.start(skip), Answer::Done);
                assert_eq!(ours.cycle, spec.schedule(skip).record(0));
                assert_eq!(ours.cycle, Cycle::open(skip));
                assert_eq!(ours.state.lines, old.state.lines);
            }
            1 => {
                ours.state.counters.push(7);
                assert_eq!(ours.start(skip), Answer::Refused(6));
                assert_eq!(ours.state.counters.pop(), Some(7));
                assert_eq!(ours, old);
            }
            _ => {
                let skip = random.pick(&too_many(shape.digits));
                assert_eq!(ours.start(skip), Answer::Refused(15));
                assert_eq!(ours, old);
            }
        }
    }
}
