//! Match lines: the examples, the line call and its questions, dead and shorted
//! rows in lookups, the openings of a cycle, shorted rows that the counts alone do
//! not show, and lines that change in the middle of a cycle.

use peer::testing::arrays::{any_array, Make, BOTH};
use peer::testing::draw::{self, Right};
use peer::testing::inputs::any_inputs;
use peer::testing::lent::wrong_lengths;
use peer::testing::lines::{
    any_lines, dead_line, shorted_line, Example, Made, FOREIGN, SETTABLE, WITH_LINES,
};
use peer::testing::naive::panel::counts;
use peer::testing::naive::spec::questions;
use peer::testing::random::Random;
use peer::testing::rows::sound_row;
use peer::testing::settings;
use peer::testing::shapes::{any_good_shape, asked, block_shape, even, small_shape};
use peer::{Answer, Array, Call, Cycle, Name, Phase, Shape};

/// Three binary digits and two rows.
const GOOD: Shape = Shape::new(2, 3, 1, 3, 2);

/// The match bytes that a call wrote, none where it left them at 7.
fn written(call: Call<Vec<u8>>) -> Option<Vec<u8>> {
    match call {
        Call::Lookup { matches, .. } | Call::Steps { matches, .. } if matches != [7; 2] => {
            Some(matches)
        }
        _ => None,
    }
}

#[test]
fn the_examples() {
    for make in BOTH {
        for Example {
            shape,
            calls,
            lines,
        } in [dead_line(), shorted_line()]
        {
            let mut array = Array::fresh(shape).unwrap();
            for made in calls {
                let Made { flags, count, .. } = made;
                let mut call = made.call.map(|_| vec![7; 2]);
                assert_eq!(make(&mut array, &mut call), made.answer, "{call:?}");
                assert_eq!(written(call), made.matches.map(Vec::from));
                assert_eq!(array.state.flags, flags);
                assert_eq!(array.state.totals, counts(&flags));
                assert_eq!(array.state.counters, [0, 0]);
                assert_eq!(array.cycle.count, count);
            }
            assert_eq!(array.state.lines, lines);
            let complete = questions(shape).unwrap().schedule(0).record(30);
            assert_eq!(array.cycle, complete);
        }
    }
}

// ---- the line call

/// Every byte for every row, on arrays with any bytes in them.
#[test]
fn the_line_call_changes_one_byte_and_nothing_else() {
    let mut random = settings::random(32);
    for make in BOTH.repeat(10) {
        let shape = small_shape(&mut random);
        for row in 0..shape.rows {
            for byte in 0..=255 {
                let before = any_array(&mut random, shape);
                let mut array = before.clone();
                let answer = make(&mut array, &mut Call::Line { row, byte });
                if SETTABLE.contains(&byte) {
                    assert_eq!(answer, Answer::Done);
                    assert_eq!(array.state.lines[row], byte);
                    array.state.lines[row] = before.state.lines[row];
                } else {
                    assert_eq!(answer, Answer::Refused(16));
                }
                assert_eq!(array, before);
            }
        }
    }
}

/// The line call with everything right or wrong in its turn. The first question
/// that fails counts, and a refused call leaves everything.
fn check_order(make: Make, number: u8, shape: Shape, length: usize, row: usize, byte: u8) {
    let mut array = Array::fresh(GOOD).unwrap();
    array.shape = shape;
    array.state.lines.resize(length, 7);
    // no other buffer is lent to it
    array.state.cells.clear();
    array.state.counters.clear();
    array.state.flags.clear();
    array.state.totals.clear();
    array.belts.clear();
    let wanted = match number {
        0 if length != 2 => 6,
        0 if row >= 2 => 7,
        0 if byte > 2 => 16,
        number => number,
    };
    let before = array.clone();
    let answer = make(&mut array, &mut Call::Line { row, byte });
    assert_eq!(answer.number(), wanted, "{shape} {length} {row} {byte}");
    if wanted != 0 {
        assert_eq!(array, before, "{shape} {length} {row} {byte}");
    }
}

#[test]
fn question_16_comes_after_7() {
    for make in BOTH {
        for (number, shape) in asked(GOOD) {
            for length in [0, 1, 2, 3] {
                for row in [0, 1, 2, 256, 1 << 32, usize::MAX] {
                    for byte in SETTABLE.into_iter().chain(FOREIGN) {
                        check_order(make, number, shape, length, row, byte);
                    }
                }
            }
        }
    }
}

/// Makes a call with lines of a wrong length. Where it is lent them, it is
/// refused and changes nothing; else it is taken and leaves them.
fn check_length(random: &mut Random, shape: Shape, name: Name, length: usize) {
    let layout = &shape.layout().unwrap();
    let mut array = any_array(random, shape);
    array.cycle = Cycle::open(0);
    array.state.lines.resize(length, 7);
    let call = draw::call(name, &mut Right { random, layout });
    let mut call = call.map(|own| vec![0; own.length(layout)]);
    let before = (array.clone(), call.clone());
    let number = array.make(&mut call).number();
    if WITH_LINES.contains(&name) {
        assert_eq!(number, 6, "{name:?} {length} {shape}");
        assert_eq!((array, call), before, "{name:?} {length} {shape}");
    } else {
        assert_eq!(number, 0, "{name:?} {length} {shape}");
        assert_eq!(array.state.lines, before.0.state.lines);
    }
}

#[test]
fn the_length_of_lines_is_asked_where_they_are_lent() {
    let mut random = settings::random(33);
    for _ in 0..100 {
        let shape = even(small_shape(&mut random));
        for &name in Name::ALL {
            for length in wrong_lengths(shape.rows) {
                check_length(&mut random, shape, name, length);
            }
        }
    }
}

/// Clear makes all lines sound. No other call but the line call changes one, and
/// bytes that no call sets stay as they are.
#[test]
fn lines_are_changed_by_clear_and_the_line_call_alone() {
    let mut random = settings::random(34);
    for _ in 0..300 {
        let shape = small_shape(&mut random);
        let layout = &shape.layout().unwrap();
        for &name in Name::ALL {
            let mut array = any_array(&mut random, shape);
            let before = array.state.lines.clone();
            let random = &mut random;
            let call = draw::call(name, &mut Right { random, layout });
            let mut call = call.map(|own| vec![0; own.length(layout)]);
            let answer = array.make(&mut call);
            match (name, answer) {
                (Name::Clear, _) => assert_eq!(array.state.lines, vec![0; shape.rows]),
                (Name::Line, _) => assert_eq!(answer, Answer::Done),
                _ => assert_eq!(array.state.lines, before, "{name:?}"),
            }
        }
    }
}

// ---- dead and shorted rows

/// All rows match, but for those with a dead line.
#[test]
fn first_match_passes_over_dead_rows() {
    let shape = Shape { rows: 70, ..GOOD };
    for make in BOTH {
        let mut array = Array::fresh(shape).unwrap();
        array.state.cells.fill(7);
        for dead in 0..=shape.rows {
            let byte = [1, 3, 7, 128, 255][dead % 5];
            let first = (dead < shape.rows).then_some(dead);
            let inputs = vec![7; 3];
            let answer = make(&mut array, &mut Call::FirstMatch { inputs });
            assert_eq!(answer, Answer::Row(first));
            let inputs = vec![8; 3];
            let answer = make(&mut array, &mut Call::FirstMatch { inputs });
            assert_eq!(answer, Answer::Row(None));
            let mut lookup = Call::Lookup {
                inputs: vec![0; 3],
                matches: vec![7; shape.rows],
            };
            let answer = make(&mut array, &mut lookup);
            assert_eq!(answer, Answer::Count(shape.rows - dead));
            if let Call::Lookup { matches, .. } = lookup {
                let wanted = array.state.lines.iter().map(|&line| u8::from(line == 0));
                assert!(matches.into_iter().eq(wanted));
            }
            if let Some(line) = array.state.lines.get_mut(dead) {
                *line = byte;
            }
        }
    }
}

/// No row matches by its cells. The one with a shorted line does, whatever is fed.
#[test]
fn first_match_finds_a_shorted_row_whatever_is_fed() {
    let mut random = settings::random(38);
    for make in BOTH.repeat(300) {
        let shape = small_shape(&mut random);
        let levels = shape.layout().unwrap().levels();
        let mut array = Array::fresh(shape).unwrap();
        let mut inputs = any_inputs(&mut random, levels, shape.width);
        let column = random.below(shape.width);
        inputs[column] = random.between(1, levels) as u16;
        let find = |array: &mut Array| {
            let inputs = inputs.clone();
            make(array, &mut Call::FirstMatch { inputs })
        };
        assert_eq!(find(&mut array), Answer::Row(None), "{shape} {inputs:?}");
        let shorted = random.below(shape.rows);
        array.state.lines = (0..shape.rows).map(|_| random.pick(&[0, 1, 3])).collect();
        array.state.lines[shorted] = 2;
        assert_eq!(find(&mut array), Answer::Row(Some(shorted)), "{shape}");
        let mut lookup = Call::Lookup {
            inputs: inputs.clone(),
            matches: vec![7; shape.rows],
        };
        assert_eq!(make(&mut array, &mut lookup), Answer::Count(1));
        // all rows match where all lines are shorted
        array.state.lines.fill(2);
        assert_eq!(make(&mut array, &mut lookup), Answer::Count(shape.rows));
        assert_eq!(find(&mut array), Answer::Row(Some(0)));
    }
}

/// On any bytes every row with the line byte 2 matches every vector of a schedule,
/// the openings too, and no other byte but 0 does any.
#[test]
fn the_line_decides_where_it_is_not_sound() {
    let mut random = settings::random(39);
    for make in BOTH.repeat(30) {
        let shape = Shape {
            rows: 256,
            ..small_shape(&mut random)
        };
        let skip = random.below(shape.digits);
        let mut array = any_array(&mut random, shape);
        array.state.lines = (0..=255).collect();
        assert_eq!(make(&mut array, &mut Call::Start { skip }), Answer::Done);
        while array.cycle.phase == Phase::Open {
            let matches = vec![7; shape.rows];
            let mut step = Call::Step { matches };
            assert_eq!(make(&mut array, &mut step), Answer::Done);
            let Call::Step { matches } = step else {
                unreachable!("the call stays the same");
            };
            let wanted = (1..=255).map(|line| u8::from(line == 2));
            assert!(matches[1..].iter().copied().eq(wanted), "{shape}");
        }
        assert!(array.state.flags[1..].iter().all(|&flag| flag == 1));
    }
}

/// Rows and check cells are those of a sound array, and no line but one is sound: a
/// whole cycle flags all but that one, and sound says yes to all.
#[test]
fn a_cycle_flags_rows_of_which_the_line_alone_is_not_sound() {
    let mut random = settings::random(35);
    for make in BOTH {
        for _ in 0..100 {
            let shape = small_shape(&mut random);
            let mut array = Array::fresh(shape).unwrap();
            array.state.lines.fill(random.pick(&[1, 2, 3, 255]));
            let alive = random.below(shape.rows);
            array.state.lines[alive] = 0;
            let lines = array.state.lines.clone();
            for skip in 0..shape.digits {
                let matches = vec![7; shape.rows];
                let mut run = Call::Run { skip, matches };
                assert_eq!(make(&mut array, &mut run), Answer::Done);
                let wanted = (0..shape.rows).map(|row| u8::from(row != alive));
                assert!(array.state.flags.iter().copied().eq(wanted));
                assert_eq!(array.state.lines, lines);
            }
            for row in 0..shape.rows {
                let answer = make(&mut array, &mut Call::Sound { row });
                assert_eq!(answer, Answer::Sound(true));
            }
        }
    }
}

// ---- the openings

/// On any bytes, and on either opening: the match bytes are 1 in the first where the
/// line is sound or shorted, and in the second where it is shorted; a flag becomes 1
/// where it is dead in the first, where it is shorted in the second, and else stays;
/// the totals are those flags'; and counters, cells and lines stay, foreign bytes
/// among them.
fn check_opening(random: &mut Random, shape: Shape, count: usize) -> Array {
    let skip = random.below(shape.digits);
    let schedule = questions(shape).unwrap().schedule(skip);
    let mut array = any_array(random, shape);
    array.cycle = schedule.record(count);
    let mut wanted = array.clone();
    let mut wanted_matches = vec![0; shape.rows];
    for (row, &line) in array.state.lines.iter().enumerate() {
        let (matched, flagged) = match line {
            0 => (count == 0, false),
            2 => (true, count == 1),
            _ => (false, count == 0),
        };
        wanted_matches[row] = u8::from(matched);
        if flagged {
            wanted.state.flags[row] = 1;
        }
    }
    wanted.state.totals = counts(&wanted.state.flags);
    wanted.cycle = schedule.record(count + 1);
    let mut matches = random.bytes(shape.rows);
    assert_eq!(array.step(&mut matches), Answer::Done);
    assert_eq!(array, wanted, "{shape} {skip}");
    assert_eq!(array.cycle.count, count + 1);
    assert_eq!(matches, wanted_matches, "{shape} {skip}");
    array
}

#[test]
fn an_opening_flags_dead_or_shorted_rows_and_counts_nothing() {
    let mut random = settings::random(36);
    let mut above_radix = [0; 2];
    for turn in 0..1_000 {
        let shape = match turn % 4 {
            0 => any_good_shape(&mut random),
            _ => block_shape(&mut random),
        };
        let count = turn / 4 % 2;
        let array = check_opening(&mut random, shape, count);
        let counters = array.state.counters.iter();
        above_radix[count] += counters.filter(|&&c| usize::from(c) >= shape.radix).count();
    }
    assert!(above_radix.iter().all(|&seen| seen > 1_000));
}

/// The place of a start's record is 0, and so is that of the next; after the second
/// opening it is that of the first vector, which has count 2.
#[test]
fn the_first_vector_has_count_2() {
    let mut array = Array::fresh(GOOD).unwrap();
    assert_eq!(array.start(1), Answer::Done);
    for count in [0, 1] {
        let opening = Cycle {
            phase: Phase::Open,
            count,
            skip: 1,
            ..Cycle::IDLE
        };
        assert_eq!(array.cycle, opening);
        assert_eq!(array.step(&mut [7; 2]), Answer::Done);
    }
    let first = Cycle {
        phase: Phase::Open,
        check: 0,
        digit: 2,
        column: 0,
        factor: 1,
        count: 2,
        skip: 1,
    };
    assert_eq!(array.cycle, first);
}

// ---- shorted rows that the counts alone do not show

/// The flags that the vectors of a cycle leave on sound rows with the lines, without
/// its openings. The counters are 0 at the end.
fn flags_of_tests(random: &mut Random, shape: Shape, skip: usize, lines: &[u8]) -> Vec<u8> {
    let layout = shape.layout().unwrap();
    let mut array = Array::fresh(shape).unwrap();
    array.state.cells = (0..shape.rows)
        .flat_map(|_| sound_row(random, &layout))
        .collect();
    array.state.lines = lines.to_vec();
    array.cycle = questions(shape).unwrap().schedule(skip).record(2);
    let mut matches = vec![7; shape.rows];
    assert_eq!(array.steps(usize::MAX, &mut matches), Answer::Done);
    assert_eq!(array.cycle.phase, Phase::Complete);
    assert!(array.state.counters.iter().all(|&counter| counter == 0));
    array.state.flags
}

/// J has two columns, and ρ is 2: the two vectors of the cycle count a shorted row
/// twice, so its counter is 0 where rows are flagged. The second opening flags it.
#[test]
fn a_shorted_row_that_is_counted_twice() {
    let shape = Shape::new(2, 1, 1, 1, 3);
    let lines = [0, 2, 1];
    for make in BOTH {
        let mut array = Array::fresh(shape).unwrap();
        array.state.lines = lines.to_vec();
        assert_eq!(make(&mut array, &mut Call::Start { skip: 0 }), Answer::Done);
        for (flags, counters) in [
            ([0, 0, 1], [0, 0, 0]),
            ([0, 1, 1], [0, 0, 0]),
            ([0, 1, 1], [0, 1, 0]),
            ([0, 1, 1], [0, 0, 0]),
        ] {
            let matches = vec![7; 3];
            assert_eq!(make(&mut array, &mut Call::Step { matches }), Answer::Done);
            assert_eq!(array.state.flags, flags);
            assert_eq!(array.state.counters, counters);
        }
        assert_eq!(array.cycle.phase, Phase::Complete);
        assert_eq!(array.cycle.count, 4);
    }
    let by_tests = flags_of_tests(&mut Random::new(1), shape, 0, &lines);
    assert_eq!(by_tests, [0; 3]);
}

/// The vectors of a cycle flag a shorted row exactly where a J(ℓ) has another number
/// of columns than a multiple of ρ. They never flag a dead row.
#[test]
fn the_vectors_show_a_shorted_row_where_a_set_is_no_multiple_of_the_radix() {
    let mut random = settings::random(30);
    let (mut shown, mut hidden) = (0, 0);
    for _ in 0..3_000 {
        let shape = small_shape(&mut random);
        let spec = questions(shape).unwrap();
        let mut sizes = (0..spec.checks).map(|check| spec.support(check).len());
        let multiples = sizes.all(|size| size.is_multiple_of(shape.radix));
        let lines = any_lines(&mut random, shape.rows);
        for skip in 0..shape.digits {
            let flags = flags_of_tests(&mut random, shape, skip, &lines);
            for (flag, &line) in flags.into_iter().zip(&lines) {
                let wanted = line == 2 && !multiples;
                assert_eq!(flag, u8::from(wanted), "{shape} {skip} {line}");
                shown += usize::from(wanted);
                hidden += usize::from(line == 2 && multiples);
            }
        }
    }
    assert!(shown > 100 && hidden > 100, "{shown} {hidden}");
}

// ---- changes in the middle of a cycle

/// A cycle of all digits on an array of one row with 5 2 1 in it, whose line is
/// set before the steps with the given numbers. Gives the match bytes of all
/// steps, and the flag.
fn cycle_with_settings(settings: &[(usize, u8)]) -> (Vec<u8>, u8) {
    let shape = Shape { rows: 1, ..GOOD };
    let mut array = Array::fresh(shape).unwrap();
    let levels = vec![5, 2, 1];
    let program = array.make(&mut Call::<Vec<u8>>::Program { row: 0, levels });
    assert_eq!(program, Answer::Done);
    assert_eq!(array.start(0), Answer::Done);
    let mut matches = [7; 30];
    for (count, matched) in matches.chunks_exact_mut(1).enumerate() {
        for &(_, byte) in settings.iter().filter(|setting| setting.0 == count) {
            let line = array.make(&mut Call::<Vec<u8>>::Line { row: 0, byte });
            assert_eq!(line, Answer::Done);
        }
        assert_eq!(array.step(matched), Answer::Done);
    }
    assert_eq!(array.cycle.phase, Phase::Complete);
    (matches.to_vec(), array.state.flags[0])
}

/// The verdict asks that no line changes from the start on. One that is set to
/// what it is does no harm. One that some step saw and that is undone may flag a
/// sound row; one that changes after the openings may leave a dead or a shorted row
/// without a flag.
#[test]
fn a_line_that_changes_in_the_cycle_breaks_the_verdict() {
    let flag_with = |settings: &[(usize, u8)]| cycle_with_settings(settings).1;
    let (matches, flag) = cycle_with_settings(&[]);
    assert_eq!(flag, 0);
    assert_eq!(flag_with(&[(0, 0), (1, 0), (9, 0), (29, 0)]), 0);
    // dead at the first opening alone, and shorted at the second alone
    assert_eq!(flag_with(&[(0, 1), (1, 0)]), 1);
    assert_eq!(flag_with(&[(1, 2), (2, 0)]), 1);
    // shorted at the first opening alone, and dead at the second alone
    assert_eq!(flag_with(&[(0, 2), (1, 0)]), 0);
    assert_eq!(flag_with(&[(1, 1), (2, 0)]), 0);
    for line in [1, 2] {
        // set and undone between two steps: no step saw it
        assert_eq!(flag_with(&[(9, line), (9, 0)]), 0);
        // not sound from after the openings on, and so at the end
        assert_eq!(flag_with(&[(2, line)]), 0);
    }
    // dead at one vector: a match of the row that is lost is not made up for; and
    // shorted at one: a match of the row that is won is not either
    for (count, &matched) in matches.iter().enumerate().take(29).skip(2) {
        assert_eq!(flag_with(&[(count, 1), (count + 1, 0)]), matched);
        assert_eq!(flag_with(&[(count, 2), (count + 1, 0)]), 1 - matched);
    }
    assert!(matches[2..29].contains(&0) && matches[2..29].contains(&1));
}
