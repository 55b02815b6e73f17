//! Calls of several steps: the example, the same by single steps, their end at that
//! of the cycle, the match bytes, the questions, and what they are in a list.

use peer::testing::arrays::{any_array, Make, BOTH};
use peer::testing::lines::beside_openings;
use peer::testing::lists::list;
use peer::testing::log::Log;
use peer::testing::naive::schedule::Schedule;
use peer::testing::naive::spec::{questions, Spec};
use peer::testing::random::Random;
use peer::testing::records::forged;
use peer::testing::settings;
use peer::testing::shapes::{
    asked, limit_shape, short_coarse_shape, short_cycle_shape, small_shape, BLOCK_EDGES,
};
use peer::testing::steps::{cells, edges, example, some_most, Example};
use peer::{Answer, Array, Call, Cycle, Phase, Shape, State};

/// Three binary digits and two rows.
const GOOD: Shape = Shape::new(2, 3, 1, 3, 2);

/// An array, and the match bytes that go with its steps.
#[derive(Clone, Debug, PartialEq, Eq)]
struct Stepped {
    array: Array,
    matches: Vec<u8>,
}

impl Stepped {
    /// Any bytes in an array with the record; its cells mostly levels, so that not
    /// all rows match.
    fn drawn(random: &mut Random, spec: &Spec, cycle: Cycle) -> Stepped {
        let mut array = any_array(random, spec.shape);
        array.state.cells = cells(random, spec.levels, spec.cells());
        array.cycle = cycle;
        Stepped {
            array,
            matches: random.bytes(spec.shape.rows),
        }
    }

    /// A single step, made one way.
    fn step(&mut self, make: Make) -> Answer {
        let matches = self.matches.clone();
        self.make(make, Call::Step { matches })
    }

    /// Several steps, made one way.
    fn steps(&mut self, make: Make, most: usize) -> Answer {
        let matches = self.matches.clone();
        self.make(make, Call::Steps { most, matches })
    }

    fn make(&mut self, make: Make, mut call: Call<Vec<u8>>) -> Answer {
        let answer = make(&mut self.array, &mut call);
        if let Call::Step { matches } | Call::Steps { matches, .. } = call {
            self.matches = matches;
        }
        answer
    }
}

#[test]
fn the_example() {
    for make in BOTH {
        let Example { shape, calls, made } = example();
        let mut array = Array::fresh(shape).unwrap();
        for call in calls {
            let mut call = call.map(|_| Vec::new());
            assert_eq!(make(&mut array, &mut call), Answer::Done);
        }
        for several in made {
            let matches = vec![7; 2];
            let mut ours = Stepped { array, matches };
            let answer = ours.steps(make, several.most);
            assert_eq!(answer.number(), several.number, "{several:?}");
            assert_eq!(ours.matches, several.matches, "{several:?}");
            assert_eq!(ours.array.state.counters, several.counters);
            assert_eq!(ours.array.state.flags, several.flags);
            assert_eq!(ours.array.cycle.count, several.count);
            array = ours.array;
        }
        assert_eq!(array.cycle.phase, Phase::Complete);
        assert_eq!(array.state.totals, [1]);
    }
}

// ---- the same by single steps

/// Several steps from a place of a schedule are as many single ones, or those that
/// are left; the record, every byte of the state and the match bytes. They are
/// taken, and the last of them ends the cycle where there were enough.
fn compare(make: Make, schedule: &Schedule, before: &Stepped, most: usize) {
    let count = before.array.cycle.count;
    let made = most.min(schedule.steps() - count);
    let (mut several, mut single) = (before.clone(), before.clone());
    assert_eq!(several.steps(make, most), Answer::Done);
    for _ in 0..made {
        assert_eq!(single.step(make), Answer::Done);
    }
    let shape = before.array.shape;
    assert_eq!(several, single, "{shape} {count} {most}");
    assert_eq!(several.array.cycle, schedule.record(count + made));
    if made == 0 {
        assert_eq!(several, *before, "{shape} {count} {most}");
    }
}

/// Every place of every schedule of some small shapes, and from there every number
/// of steps up to some more than are left, and such as no cycle has.
#[test]
fn every_number_of_steps_from_every_place() {
    let mut random = settings::random(40);
    for (radix, digits, errors, width) in [(2, 2, 2, 2), (2, 3, 1, 1), (3, 2, 1, 1), (5, 1, 3, 1)] {
        let spec = questions(Shape::new(radix, digits, errors, width, 2)).unwrap();
        for schedule in spec.schedules() {
            for count in 0..schedule.steps() {
                let left = schedule.steps() - count;
                for most in (0..left + 3).chain(edges(left)) {
                    let before = Stepped::drawn(&mut random, &spec, schedule.record(count));
                    for make in BOTH {
                        compare(make, &schedule, &before, most);
                    }
                }
            }
        }
    }
}

/// Any place of any schedule of the shape, and any number of steps.
fn compare_some(random: &mut Random, shape: Shape, affordable: usize) {
    let spec = questions(shape).unwrap();
    let schedule = spec.schedule(random.below(shape.digits));
    let steps = schedule.steps();
    let count = match random.below(3) {
        0 => random.below(3),
        1 => steps - 1 - random.below(steps.min(20)),
        _ => random.below(steps),
    };
    let most = some_most(random, steps - count, affordable);
    let before = Stepped::drawn(random, &spec, schedule.record(count));
    compare(Array::make, &schedule, &before, most);
}

#[test]
fn several_steps_are_that_many_single_ones() {
    let mut random = settings::random(41);
    for _ in 0..3_000 {
        let shape = small_shape(&mut random);
        compare_some(&mut random, shape, usize::MAX);
    }
    for rows in BLOCK_EDGES.repeat(20) {
        let shape = Shape {
            rows,
            ..short_cycle_shape(&mut random, 60)
        };
        compare_some(&mut random, shape, usize::MAX);
    }
    for _ in 0..300 {
        let shape = limit_shape(&mut random);
        compare_some(&mut random, shape, 50);
    }
}

/// A start and more steps than any cycle has are a whole cycle.
#[test]
fn a_start_and_all_steps_are_a_whole_cycle() {
    let mut random = settings::random(42);
    for make in BOTH {
        for _ in 0..200 {
            let shape = small_shape(&mut random);
            let spec = questions(shape).unwrap();
            let skip = random.below(shape.digits);
            let cycle = forged(&mut random, Cycle::IDLE);
            let mut several = Stepped::drawn(&mut random, &spec, cycle);
            let mut whole = several.array.clone();
            let matches = several.matches.clone();
            let mut run = Call::Run { skip, matches };
            assert_eq!(make(&mut whole, &mut run), Answer::Done);
            several.make(make, Call::Start { skip });
            let most = spec.steps(skip) + random.pick(&[0, 1, 1 << 40]);
            assert_eq!(several.steps(make, most), Answer::Done);
            let Stepped { array, matches } = several;
            assert_eq!((array, Call::Run { skip, matches }), (whole, run));
        }
    }
}

// ---- what they leave, by the definitions

/// Several steps and then several again are as many as the two together.
#[test]
fn steps_go_on_where_the_last_ones_ended() {
    let mut random = settings::random(43);
    for _ in 0..1_000 {
        let spec = questions(small_shape(&mut random)).unwrap();
        let schedule = spec.schedule(random.below(spec.shape.digits));
        let count = random.below(schedule.steps());
        let left = schedule.steps() - count;
        let (first, second) = (random.below(left), random.below(left + 3));
        let mut twice = Stepped::drawn(&mut random, &spec, schedule.record(count));
        let mut once = twice.clone();
        assert_eq!(twice.steps(Array::make, first), Answer::Done);
        assert_eq!(twice.array.cycle, schedule.record(count + first));
        assert_eq!(twice.steps(Array::make, second), Answer::Done);
        assert_eq!(once.steps(Array::make, first + second), Answer::Done);
        assert_eq!(twice, once);
    }
}

/// The match bytes are those of the lookup with the number of the last step, by a
/// full vector. They often differ from those of the one before and of the next.
#[test]
fn the_match_bytes_are_those_of_the_last_step() {
    let mut random = settings::random(44);
    let mut others = [0; 2];
    for _ in 0..2_000 {
        let spec = questions(small_shape(&mut random)).unwrap();
        let schedule = spec.schedule(random.below(spec.shape.digits));
        let count = random.below(schedule.steps());
        let most = random.between(1, schedule.steps() + 1);
        let before = Stepped::drawn(&mut random, &spec, schedule.record(count));
        let last = (count + most).min(schedule.steps()) - 1;
        let State { cells, lines, .. } = &before.array.state;
        let of_lookup = |number: usize| {
            let lookup = *schedule.lookups.get(number)?;
            Some(spec.match_bytes(cells, lines, &spec.inputs(lookup)))
        };
        let mut ours = before.clone();
        assert_eq!(ours.steps(Array::make, most), Answer::Done);
        assert_eq!(Some(&ours.matches), of_lookup(last).as_ref());
        for (seen, other) in others.iter_mut().zip([last.wrapping_sub(1), last + 1]) {
            *seen += usize::from(of_lookup(other).is_some_and(|bytes| bytes != ours.matches));
        }
    }
    assert!(others.iter().all(|&seen| seen > 300), "{others:?}");
}

// ---- the questions

/// Several steps that are refused leave everything.
fn refuse(make: Make, before: &Stepped, most: usize, number: u8) {
    let mut ours = before.clone();
    let (shape, cycle) = (before.array.shape, before.array.cycle);
    let answer = ours.steps(make, most);
    assert_eq!(answer, Answer::Refused(number), "{most} {shape} {cycle:?}");
    assert_eq!(ours, *before, "{most} {shape} {cycle:?}");
}

/// The array with the match bytes and the buffer at a place of another length.
fn with_length(good: &Stepped, place: usize, change: fn(&mut Vec<u8>)) -> Stepped {
    let mut wrong = good.clone();
    let buffers = wrong.array.state.each_mut().into_array();
    change(buffers.into_iter().nth(place).unwrap_or(&mut wrong.matches));
    wrong
}

/// Questions 1 to 5, then 6 for each buffer, then 9, whatever the number of steps.
#[test]
fn the_questions_are_asked_for_every_number_of_steps() {
    let longer: fn(&mut Vec<u8>) = |buffer| buffer.push(7);
    let shorter: fn(&mut Vec<u8>) = |buffer| buffer.truncate(buffer.len() - 1);
    let mut random = settings::random(45);
    let spec = questions(GOOD).unwrap();
    let schedule = spec.schedule(0);
    let records = [0, 1, 2, 30].map(|count| schedule.record(count));
    for cycle in records.into_iter().chain([Cycle::open(1), Cycle::IDLE]) {
        let good = Stepped::drawn(&mut random, &spec, cycle);
        for (make, most) in BOTH
            .into_iter()
            .flat_map(|make| edges(30).map(move |m| (make, m)))
        {
            for (number, shape) in asked(GOOD) {
                for place in 0..=State::<()>::BUFFERS {
                    for change in [longer, shorter] {
                        let mut wrong = with_length(&good, place, change);
                        wrong.array.shape = shape;
                        refuse(make, &wrong, most, if number == 0 { 6 } else { number });
                    }
                }
                let mut wrong = good.clone();
                wrong.array.shape = shape;
                match number {
                    0 if cycle.phase == Phase::Open => {
                        assert_eq!(wrong.steps(make, most), Answer::Done);
                    }
                    0 => refuse(make, &wrong, most, 9),
                    _ => refuse(make, &wrong, most, number),
                }
            }
        }
    }
}

/// A record is refused with 9 exactly where a single step refuses it, whatever the
/// number of steps: forged ones, such beside the openings, and those after a cycle.
#[test]
fn a_record_is_refused_as_by_a_single_step() {
    let mut random = settings::random(46);
    let (mut taken, mut refused) = (0, 0);
    for _ in 0..400 {
        let spec = questions(small_shape(&mut random)).unwrap();
        let schedule = spec.schedule(random.below(spec.shape.digits));
        let count = random.below(schedule.steps() + 1);
        let mut records = beside_openings(&spec, schedule.skip);
        records.push(schedule.record(count));
        records.push(schedule.record(schedule.steps()));
        records.extend((0..5).map(|_| forged(&mut random, schedule.record(count))));
        for cycle in records {
            let before = Stepped::drawn(&mut random, &spec, cycle);
            let single = before.clone().step(Array::make);
            let most = some_most(&mut random, schedule.steps(), usize::MAX);
            for most in [0, 1, most, usize::MAX] {
                if single == Answer::Done {
                    assert_eq!(before.clone().steps(Array::make, most), Answer::Done);
                    taken += 1;
                } else {
                    refuse(Array::make, &before, most, 9);
                    refused += 1;
                }
            }
        }
    }
    assert!(taken > 1_000 && refused > 1_000, "{taken} {refused}");
}

// ---- in a list

/// The single steps that a call stands for on the array, if it is a call of several.
/// Where no cycle is open, one that is refused stands for all.
fn single_steps(array: &Array, call: &Call<Vec<u8>>) -> Option<Vec<Call<Vec<u8>>>> {
    let Call::Steps { most, matches } = call else {
        return None;
    };
    let cycle = array.cycle;
    let left = match cycle.phase {
        Phase::Open => questions(array.shape).unwrap().steps(cycle.skip) - cycle.count,
        _ => 1,
    };
    let step = Call::Step {
        matches: matches.clone(),
    };
    Some(vec![step; *most.min(&left)])
}

/// Random lists, and the same with single steps for those of several. After each
/// call of the first list both have left the same, and so have their logs.
#[test]
fn a_list_is_the_one_with_single_steps() {
    let mut random = settings::random(47);
    let (mut several, mut ended) = (0, 0);
    for _ in 0..settings::lists(2_000) {
        let shape = short_coarse_shape(&mut random, 120);
        let calls = list(&mut random, shape, 12);
        let mut array = Array::fresh(shape).unwrap();
        let (mut log, mut single_log) = (Log::new(shape), Log::new(shape));
        let mut single = array.clone();
        for mut call in calls {
            let singles = single_steps(&single, &call);
            several += usize::from(singles.is_some());
            log.feed(&call);
            for mut step in singles.unwrap_or(vec![call.clone()]) {
                single_log.feed(&step);
                single.make(&mut step);
            }
            let was_open = array.cycle.phase == Phase::Open;
            array.make(&mut call);
            assert_eq!((&array, &log), (&single, &single_log), "{call:?}");
            let ends = was_open && array.cycle.phase == Phase::Complete;
            ended += usize::from(ends && matches!(call, Call::Steps { .. }));
        }
    }
    println!("{several} calls of several steps, of which {ended} ended a cycle");
    assert!(several > 1_000 && ended > 500);
}
