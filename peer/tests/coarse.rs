//! Cycles that skip low digits: the example, question 15 and its place among
//! the others, starts that it refuses, and the vectors that are left.

use peer::testing::arrays::{started_array, Make, BOTH};
use peer::testing::lent::Own;
use peer::testing::naive::spec::questions;
use peer::testing::settings;
use peer::testing::shapes::{asked, small_shape};
use peer::testing::skips::{example, too_many};
use peer::{Answer, Array, Call, Cycle, Name, Phase, Shape, State};

/// Three binary digits.
const GOOD: Shape = Shape::new(2, 3, 1, 3, 2);

/// A start or a whole cycle, with match bytes of the right length for [`GOOD`].
fn cycle_call(name: Name, skip: usize) -> Call<Vec<u8>> {
    match name {
        Name::Start => Call::Start { skip },
        _ => Call::Run {
            skip,
            matches: vec![7; GOOD.rows],
        },
    }
}

/// The record after a cycle.
fn complete(count: usize, skip: usize) -> Cycle {
    Cycle {
        phase: Phase::Complete,
        count,
        skip,
        ..Cycle::IDLE
    }
}

/// The array of the example before its cycles.
fn example_array(make: Make) -> Array {
    let layout = example().shape.layout().unwrap();
    let mut array = Array::fresh(example().shape).unwrap();
    for call in example().calls {
        let mut call = call.map(|own: Own| vec![0; own.length(&layout)]);
        assert_eq!(make(&mut array, &mut call), Answer::Done);
    }
    array
}

#[test]
fn the_example_by_steps() {
    for make in BOTH {
        for (skip, (steps, flags)) in example().cycles.into_iter().enumerate() {
            let mut array = example_array(make);
            let mut step = Call::Step {
                matches: vec![7; 2],
            };
            assert_eq!(make(&mut array, &mut Call::Start { skip }), Answer::Done);
            for _ in 0..steps {
                assert_eq!(array.cycle.phase, Phase::Open);
                assert_eq!(make(&mut array, &mut step), Answer::Done);
            }
            assert_eq!(array.cycle, complete(steps, skip));
            assert_eq!(array.state.flags, flags);
            assert_eq!(make(&mut array, &mut step), Answer::Refused(9));
        }
    }
}

#[test]
fn the_example_by_whole_cycles() {
    for make in BOTH {
        let mut array = example_array(make);
        for (skip, (steps, flags)) in example().cycles.into_iter().enumerate() {
            let answer = make(&mut array, &mut cycle_call(Name::Run, skip));
            assert_eq!(answer, Answer::Done);
            assert_eq!(array.cycle, complete(steps, skip));
            assert_eq!(array.state.flags, flags);
        }
        for name in [Name::Start, Name::Run] {
            let answer = make(&mut array, &mut cycle_call(name, 3));
            assert_eq!(answer, Answer::Refused(15));
        }
    }
}

/// A row that differs in its lowest digit alone is not sound, though the coarse
/// cycles do not flag it.
#[test]
fn sound_is_asked_of_all_digits() {
    for make in BOTH {
        let mut array = example_array(make);
        for skip in 0..3 {
            make(&mut array, &mut cycle_call(Name::Run, skip));
            let answer = make(&mut array, &mut Call::Sound { row: 0 });
            assert_eq!(answer, Answer::Sound(false));
            assert_eq!(array.state.flags[0], u8::from(skip == 0));
        }
    }
}

/// How many buffers there are: those of the state, cells and lines first, and
/// after them the match bytes of a whole cycle.
fn buffers(name: Name) -> usize {
    match name {
        Name::Start => State::<()>::BUFFERS,
        _ => State::<()>::BUFFERS + 1,
    }
}

/// Makes the buffer at a place one byte longer.
fn lengthen(array: &mut Array, call: &mut Call<Vec<u8>>, place: usize) {
    let buffers = array.state.each_mut().into_array();
    match (buffers.into_iter().nth(place), call) {
        (None, Call::Run { matches, .. }) => matches.push(7),
        (buffer, _) => buffer.expect("a buffer of the state").push(7),
    }
}

/// A call that is given a shape, a number of digits and perhaps a buffer of a
/// wrong length, while a cycle is open. The first question that fails counts, and
/// a refused call leaves everything. A start is not lent cells and lines.
fn check_order(make: Make, name: Name, number: u8, shape: Shape, skip: usize, long: Option<usize>) {
    let mut array = Array::fresh(GOOD).unwrap();
    assert_eq!(array.start(1), Answer::Done);
    array.shape = shape;
    let mut call = cycle_call(name, skip);
    if let Some(place) = long {
        lengthen(&mut array, &mut call, place);
    }
    let wrong_length = long.is_some_and(|place| place > 1 || name == Name::Run);
    let wanted = match number {
        0 if skip >= GOOD.digits => 15,
        0 if wrong_length => 6,
        number => number,
    };
    let before = (array.clone(), call.clone());
    let answer = make(&mut array, &mut call);
    assert_eq!(answer.number(), wanted, "{name:?} {shape} {skip} {long:?}");
    if wanted != 0 {
        assert_eq!((array, call), before, "{name:?} {shape} {skip} {long:?}");
    }
}

#[test]
fn question_15_comes_after_5_and_before_6() {
    let skips: Vec<usize> = (0..GOOD.digits).chain(too_many(GOOD.digits)).collect();
    for make in BOTH {
        for name in [Name::Start, Name::Run] {
            for (number, shape) in asked(GOOD) {
                for &skip in &skips {
                    check_order(make, name, number, shape, skip, None);
                    for place in 0..buffers(name) {
                        check_order(make, name, number, shape, skip, Some(place));
                    }
                }
            }
        }
    }
}

/// Before each step of a cycle a start and a whole cycle are refused with 15.
/// The cycle goes on and ends as one without them.
#[test]
fn a_refused_start_leaves_an_open_cycle() {
    let mut random = settings::random(28);
    for _ in 0..100 {
        let shape = small_shape(&mut random);
        let layout = shape.layout().unwrap();
        let (mut left, skip) = started_array(&mut random, shape);
        let mut asked = left.clone();
        let mut matches = vec![7; shape.rows];
        for _ in 0..layout.steps(skip) {
            let skip = random.pick(&too_many(shape.digits));
            assert_eq!(asked.start(skip), Answer::Refused(15));
            let run = asked.make(&mut Call::Run {
                skip,
                matches: &mut matches[..],
            });
            assert_eq!(run, Answer::Refused(15));
            assert_eq!(asked, left);
            assert_eq!(asked.step(&mut matches), Answer::Done);
            assert_eq!(left.step(&mut matches), Answer::Done);
        }
        assert_eq!(asked, left);
        assert_eq!(left.cycle, complete(layout.steps(skip), skip));
    }
}

/// The vectors of a whole cycle after its openings: check, digit, column and
/// factor.
fn vectors(shape: Shape, skip: usize) -> Vec<[usize; 4]> {
    let mut array = Array::fresh(shape).unwrap();
    let mut matches = vec![0; shape.rows];
    let mut vectors = Vec::new();
    assert_eq!(array.start(skip), Answer::Done);
    for _ in 0..2 {
        assert_eq!(array.step(&mut matches), Answer::Done);
    }
    while array.cycle.phase == Phase::Open {
        let now = array.cycle;
        vectors.push([now.check, now.digit, now.column, now.factor]);
        assert_eq!(array.step(&mut matches), Answer::Done);
    }
    assert_eq!(array.cycle, complete(2 + vectors.len(), skip));
    vectors
}

/// A cycle has the vectors of the whole one whose digit is not skipped, in the
/// same order, and so (q / ρ^z − 1) × W of them besides the openings. All radices
/// and digits.
#[test]
fn a_coarse_cycle_leaves_out_the_vectors_of_low_digits() {
    let mut coarse = 0;
    for radix in 2..=255usize {
        for digits in 1..=8 {
            let width = 1 + radix % 5;
            let shape = Shape::new(radix, digits, 1 + radix % 3, width, 1);
            let Ok(spec) = questions(shape) else { break };
            let whole = vectors(shape, 0);
            assert_eq!(whole.len(), (spec.levels - 1) * spec.weight());
            for skip in 1..digits {
                let mut above = whole.clone();
                above.retain(|[_, digit, ..]| *digit >= skip);
                assert_eq!(vectors(shape, skip), above, "{shape} {skip}");
                let levels = spec.levels / radix.pow(skip as u32);
                assert_eq!(above.len(), (levels - 1) * spec.weight());
                coarse += 1;
            }
        }
    }
    assert_eq!(coarse, 60);
}
