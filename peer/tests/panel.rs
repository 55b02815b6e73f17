//! The totals of flagged rows and the panel call: the example, wrong lengths,
//! and any bytes in flags and totals.

use peer::testing::draw::{self, Right};
use peer::testing::lent::wrong_lengths;
use peer::testing::naive::calls::make;
use peer::testing::naive::panel::counts;
use peer::testing::naive::spec::questions;
use peer::testing::panels::{foreign, Cases, EXAMPLE, WITH_TOTALS};
use peer::testing::random::Random;
use peer::testing::settings;
use peer::testing::shapes::{block_shape, even, short_coarse_shape, BLOCK_EDGES};
use peer::{panel, Answer, Array, Call, Cycle, Name, Panel, Phase, Shape, State};

/// Two levels, one rule column and one check column.
const fn narrow(rows: usize) -> Shape {
    Shape::new(2, 1, 1, 1, rows)
}

/// What the panel is told.
fn told(total: usize, first: Option<usize>, read: usize) -> Panel {
    Panel { total, first, read }
}

/// An array in which a cycle is open, with any bytes in flags and totals.
fn opened(random: &mut Random, shape: Shape) -> Array {
    let layout = shape.layout().unwrap();
    let (flags, totals) = foreign(random, &layout);
    let state = State {
        flags,
        totals,
        ..State::fresh(&layout)
    };
    Array {
        shape,
        state,
        belts: random.bytes(shape.rows),
        cycle: Cycle::open(0),
    }
}

/// The example by one way of making the calls.
fn example(make: impl Fn(&mut Array, &mut Call<Vec<u8>>) -> Answer) {
    let layout = EXAMPLE.shape.layout().unwrap();
    let mut array = Array::fresh(EXAMPLE.shape).unwrap();
    for call in EXAMPLE.calls {
        let mut call = call.map(|own| vec![0; own.length(&layout)]);
        assert_eq!(make(&mut array, &mut call), Answer::Done);
    }
    assert_eq!(array.state.totals, EXAMPLE.totals);
    let answer = make(&mut array, &mut Call::Panel);
    assert_eq!(answer, Answer::Panel(EXAMPLE.told));
}

#[test]
fn the_example_by_this_build_and_by_the_definitions() {
    example(Array::make);
    example(make);
}

/// Every row has a cell changed: all blocks but a short last one have 64 flags.
#[test]
fn totals_where_every_row_is_flagged() {
    for rows in BLOCK_EDGES {
        let mut array = Array::fresh(narrow(rows)).unwrap();
        array.state.cells = [0, 1].repeat(rows);
        assert_eq!(array.start(0), Answer::Done);
        while array.cycle.phase == Phase::Open {
            assert_eq!(array.step(&mut vec![0; rows]), Answer::Done);
        }
        let (last, full) = array.state.totals.split_last().unwrap();
        assert!(full.iter().all(|&total| total == 64), "{rows}");
        assert_eq!(usize::from(*last), rows - 64 * full.len());
        let answer = array.make(&mut Call::<Vec<u8>>::Panel);
        assert_eq!(answer, Answer::Panel(told(rows, Some(0), 1)));
    }
}

/// Lines of every kind in each block: the first opening flags and counts the dead
/// ones, and the second the shorted ones besides.
#[test]
fn the_openings_count_the_rows_that_they_flag() {
    for rows in BLOCK_EDGES {
        let mut array = Array::fresh(narrow(rows)).unwrap();
        let line = |row: usize| [1, 0, 2, 0, 255, 2, 0][row % 7];
        array.state.lines = (0..rows).map(line).collect();
        assert_eq!(array.start(0), Answer::Done);
        for openings in [1, 2] {
            assert_eq!(array.step(&mut vec![7; rows]), Answer::Done);
            let flagged = |row: usize| match line(row) {
                0 => false,
                2 => openings == 2,
                _ => true,
            };
            let flags: Vec<u8> = (0..rows).map(|row| flagged(row).into()).collect();
            assert_eq!(array.state.flags, flags, "{rows}");
            assert_eq!(array.state.totals, counts(&flags), "{rows}");
            let total = flags.iter().filter(|&&flag| flag == 1).count();
            let answer = array.make(&mut Call::<Vec<u8>>::Panel);
            assert_eq!(answer, Answer::Panel(told(total, Some(0), 1)));
        }
    }
}

/// Makes a call with totals of a wrong length. Where it is lent them, it is
/// refused and changes nothing; else it is taken and leaves them.
fn check_length(random: &mut Random, shape: Shape, name: Name, length: usize) {
    let mut array = opened(random, shape);
    array.state.totals = random.bytes(length);
    let layout = &shape.layout().unwrap();
    let call = draw::call(name, &mut Right { random, layout });
    let mut call = call.map(|own| vec![0; own.length(layout)]);
    let before = (array.clone(), call.clone());
    let number = array.make(&mut call).number();
    if WITH_TOTALS.contains(&name) {
        assert_eq!(number, 6, "{name:?} {length} {shape}");
        assert_eq!((array, call), before, "{name:?} {length} {shape}");
    } else {
        assert_eq!(number, 0, "{name:?} {length} {shape}");
        assert_eq!(array.state.totals, before.0.state.totals);
    }
}

#[test]
fn the_length_of_totals_is_asked_where_they_are_lent() {
    let mut random = settings::random(22);
    for shape in BLOCK_EDGES.map(narrow).map(even) {
        for &name in Name::ALL {
            for length in wrong_lengths(shape.rows.div_ceil(64)) {
                check_length(&mut random, shape, name, length);
            }
        }
    }
}

#[test]
fn clear_and_start_write_zeros_over_any_totals() {
    let mut random = settings::random(23);
    for rows in BLOCK_EDGES {
        for mut call in [Call::<Vec<u8>>::Clear, Call::Start { skip: 0 }] {
            let mut array = opened(&mut random, narrow(rows));
            array.state.totals.fill(7);
            assert_eq!(array.make(&mut call), Answer::Done);
            assert_eq!(array.state.totals, vec![0; rows.div_ceil(64)]);
        }
    }
}

/// All rows and lines are sound, so that no flag is raised, and before each step
/// any bytes come into flags and totals. Each opening and the last step of a digit
/// count the flags that are not 0 and leave them; every other step leaves the
/// totals too.
#[test]
fn a_step_counts_at_the_openings_and_the_end_of_a_digit_and_nowhere_else() {
    let mut random = settings::random(24);
    let (mut counted, mut left) = (0, 0);
    for rows in BLOCK_EDGES.repeat(5) {
        let shape = Shape {
            rows,
            ..short_coarse_shape(&mut random, 60)
        };
        let layout = shape.layout().unwrap();
        let skip = random.below(shape.digits);
        let schedule = questions(shape).unwrap().schedule(skip);
        let mut array = Array::fresh(shape).unwrap();
        assert_eq!(array.start(skip), Answer::Done);
        for count in 0..schedule.steps() {
            let (flags, totals) = foreign(&mut random, &layout);
            array.state.flags.clone_from(&flags);
            array.state.totals.clone_from(&totals);
            assert_eq!(array.step(&mut vec![0; rows]), Answer::Done);
            assert_eq!(array.state.flags, flags, "{shape}");
            if schedule.looks_for_flags(count) {
                assert_eq!(array.state.totals, counts(&flags), "{shape}");
                counted += 1;
            } else {
                assert_eq!(array.state.totals, totals, "{shape}");
                left += 1;
            }
        }
    }
    assert!(counted > 100 && left > 500, "{counted} {left}");
}

/// The panel on any flags and totals against the definitions; nothing changes.
#[test]
fn the_panel_on_any_flags_and_totals() {
    let mut random = settings::random(25);
    let mut cases = Cases::default();
    for _ in 0..20_000 {
        let shape = block_shape(&mut random);
        let mut array = opened(&mut random, shape);
        let before = array.clone();
        let answer = array.make(&mut Call::<Vec<u8>>::Panel);
        assert_eq!(array, before);
        assert_eq!(answer, make(&mut array, &mut Call::Panel), "{shape}");
        let Answer::Panel(panel) = answer else {
            panic!("{answer:?} on {shape}");
        };
        cases.add(shape.rows, &array.state.totals, panel);
    }
    println!("{cases:?}");
    cases.assert_each(500);
}

/// So many flags, 0 but for the given ones.
fn flags(rows: usize, set: &[(usize, u8)]) -> Vec<u8> {
    let mut flags = vec![0; rows];
    for &(row, flag) in set {
        flags[row] = flag;
    }
    flags
}

/// The largest total, blocks without a flagged row, and short last blocks.
#[test]
fn the_panel_at_its_limits() {
    let expect = |set: &[(usize, u8)], rows, totals: &[u8], wanted| {
        let flags = flags(rows, set);
        assert_eq!(panel(narrow(rows), &flags, totals), Ok(wanted), "{set:?}");
    };
    expect(&[], 4096, &[255; 64], told(16_320, None, 64));
    expect(&[(63, 1)], 4096, &[255; 64], told(16_320, Some(63), 64));
    expect(&[(0, 255)], 4096, &[255; 64], told(16_320, Some(0), 1));
    // the first total has no flagged row in its block, though a later block has
    expect(&[(129, 1)], 130, &[0, 5, 1], told(6, None, 64));
    expect(&[(63, 1), (128, 1)], 130, &[0, 1, 1], told(2, None, 64));
    expect(&[(64, 9), (63, 1)], 130, &[0, 1, 1], told(2, Some(64), 1));
    // a short block ends at the last row
    expect(&[], 130, &[0, 0, 9], told(9, None, 2));
    expect(&[(128, 1)], 130, &[0, 0, 9], told(9, Some(128), 1));
    expect(&[(129, 7)], 130, &[0, 0, 9], told(9, Some(129), 2));
    expect(&[], 65, &[0, 1], told(1, None, 1));
    expect(&[(126, 1)], 127, &[0, 1], told(1, Some(126), 63));
    expect(&[(4094, 1)], 4095, &last_of(64, 1), told(1, Some(4094), 63));
    expect(&[(4095, 1)], 4096, &last_of(64, 1), told(1, Some(4095), 64));
    expect(&[], 1, &[3], told(3, None, 1));
    expect(&[(0, 7)], 1, &[3], told(3, Some(0), 1));
    // no flag is read where every total is 0
    expect(&[(0, 7)], 1, &[0], told(0, None, 0));
    expect(&[(0, 1), (4095, 1)], 4096, &[0; 64], told(0, None, 0));
}

/// So many totals, 0 but for the last.
fn last_of(blocks: usize, total: u8) -> Vec<u8> {
    let mut totals = vec![0; blocks];
    totals[blocks - 1] = total;
    totals
}
