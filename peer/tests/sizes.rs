//! The sizes of a shape: by the formulas, by this build and by the proved library,
//! and the steps as a cycle counts them.
//!
//! The library is ../target/staticlib/libjorivelune.a, made by tools/build jorivelune.

mod proved_calls;

use peer::matrix::LARGEST_WIDTH;
use peer::testing::counts::Counts;
use peer::testing::draw::some_number;
use peer::testing::naive;
use peer::testing::records::{cycle_of, Words};
use peer::testing::settings;
use peer::testing::shapes::{any_shape, asked, block_shape, short_cycle_shape};
use peer::testing::skips::too_many;
use peer::{Phase, Shape, Sizes, State};

const GOOD: Shape = Shape::new(2, 3, 1, 3, 2);

/// Numbers at the limits of a shape, beside them, and far off.
const EDGES: [usize; 13] = [
    0,
    1,
    2,
    3,
    4,
    8,
    9,
    255,
    256,
    4096,
    4097,
    1 << 32,
    usize::MAX,
];

/// The six numbers in the order of the header.
fn in_order(sizes: Sizes) -> [usize; 6] {
    let Sizes {
        levels,
        checks,
        columns,
        cells,
        blocks,
        steps,
    } = sizes;
    [levels, checks, columns, cells, blocks, steps]
}

/// The number and the sizes by the proved library, after the other two were compared
/// with it. All six are 0 where it is refused.
fn told(shape: Shape, skip: usize) -> (u8, [usize; 6]) {
    let told = proved_calls::sizes(shape, skip);
    let plain = naive::sizes::sizes(shape, skip);
    let ours = peer::sizes(shape, skip).map_err(u8::from);
    assert_eq!(ours, plain, "{shape} skip {skip}");
    let wanted = match ours {
        Ok(sizes) => (0, in_order(sizes)),
        Err(number) => (number, [0; 6]),
    };
    assert_eq!(told, wanted, "{shape} skip {skip}");
    told
}

/// Document 01's own figures: M1's array, and those of M7 with the openings. In
/// the last shape no two of the six numbers are the same.
#[test]
fn the_figures_of_the_documents() {
    assert_eq!(told(GOOD, 0), (0, [8, 1, 4, 8, 1, 30]));
    assert_eq!(told(GOOD, 1), (0, [8, 1, 4, 8, 1, 14]));
    assert_eq!(told(GOOD, 2), (0, [8, 1, 4, 8, 1, 6]));
    let marked = |errors| told(Shape::new(2, 3, errors, 50, 512), 0).1;
    assert_eq!(marked(1), [8, 1, 51, 26_112, 8, 359]);
    assert_eq!(marked(2), [8, 6, 56, 28_672, 8, 1_094]);
    assert_eq!(marked(3), [8, 7, 57, 29_184, 8, 1_311]);
    let different = told(Shape::new(3, 2, 2, 4, 200), 1);
    assert_eq!(different, (0, [9, 3, 7, 1_400, 4, 26]));
}

/// Every τ with every k, those at which r grows among them, and M8.
#[test]
fn every_number_of_rule_columns() {
    for errors in 0..=4 {
        for width in 0..=256 {
            let shape = Shape {
                errors,
                width,
                ..GOOD
            };
            for skip in 0..=3 {
                told(shape, skip);
            }
        }
    }
    for (errors, largest) in (1..).zip(LARGEST_WIDTH) {
        for (checks, width) in (1..).zip(largest).filter(|&(_, width)| width > 0) {
            let checks_of = |width| {
                let shape = Shape {
                    errors,
                    width,
                    ..GOOD
                };
                told(shape, 0).1[1]
            };
            assert_eq!(checks_of(width), checks);
            let after = checks_of(width + 1);
            assert!(after == checks + 1 || after == 0, "{errors} {width}");
        }
    }
}

/// Every radix with the digits around its limit, and each z beside the digits.
#[test]
fn every_number_of_levels() {
    for radix in 0..=257 {
        for digits in 0..=9 {
            let shape = Shape {
                radix,
                digits,
                ..GOOD
            };
            for skip in 0..=digits + 1 {
                told(shape, skip);
            }
        }
    }
    assert_eq!(told(Shape::new(255, 1, 3, 120, 4096), 0).1[0], 255);
    assert_eq!(told(Shape::new(2, 8, 3, 120, 4096), 7).1[0], 256);
    assert_eq!(told(Shape::new(16, 2, 3, 120, 4096), 1).1[0], 256);
}

#[test]
fn every_number_of_rows() {
    for rows in 0..=4_200 {
        told(Shape { rows, ..GOOD }, rows % 4);
    }
    assert_eq!(told(Shape { rows: 4096, ..GOOD }, 0).0, 0);
    assert_eq!(told(Shape { rows: 4097, ..GOOD }, 0).0, 5);
}

/// Each of the six numbers that are given at its edges, and two of them at once.
#[test]
fn numbers_at_their_edges() {
    for first in 0..6 {
        for second in 0..6 {
            for one in EDGES {
                for other in EDGES {
                    let mut numbers = [2, 3, 1, 3, 2, 0];
                    numbers[first] = one;
                    numbers[second] = other;
                    let [radix, digits, errors, width, rows, skip] = numbers;
                    told(Shape::new(radix, digits, errors, width, rows), skip);
                }
            }
        }
    }
}

/// Questions 1 to 5 come before 15.
#[test]
fn the_digits_to_skip_are_asked_for_last() {
    for (number, shape) in asked(GOOD) {
        for skip in too_many(GOOD.digits) {
            let wanted = if number == 0 { 15 } else { number };
            assert_eq!(told(shape, skip), (wanted, [0; 6]), "{shape} skip {skip}");
        }
    }
}

#[test]
fn random_shapes_are_told_the_same() {
    let mut random = settings::random(61);
    let mut seen: Counts<u8> = Counts::default();
    for turn in 0..settings::lists(50_000) {
        let shape = match turn % 3 {
            0 => block_shape(&mut random),
            _ => any_shape(&mut random),
        };
        let skip = match random.below(4) {
            0 => random.number() as usize,
            _ => some_number(&mut random, shape.digits.clamp(1, 9)),
        };
        seen.add(told(shape, skip).0);
    }
    println!("{} answers: {seen:?}", seen.all());
    seen.assert_each(7, 500);
}

/// The count in the record that a whole cycle of the proved library leaves.
fn counted(shape: Shape, skip: usize) -> usize {
    let layout = shape.layout().expect("a good shape");
    let mut state = State::fresh(&layout);
    let mut words = Words::default();
    let mut matches = vec![0; shape.rows];
    let number = proved_calls::run(&mut words, shape, skip, state.lend(), &mut matches);
    let cycle = cycle_of(&words);
    assert_eq!((number, cycle.phase), (0, Phase::Complete));
    assert_eq!(cycle.skip, skip);
    cycle.count
}

/// Whole and coarse cycles of the proved library count as many steps as it tells.
#[test]
fn a_cycle_makes_as_many_steps_as_are_told() {
    let mut random = settings::random(62);
    let mut coarse = 0;
    for _ in 0..settings::lists(400) {
        let shape = short_cycle_shape(&mut random, 2_000);
        for skip in 0..shape.digits {
            assert_eq!(told(shape, skip).1[5], counted(shape, skip), "{shape}");
            coarse += usize::from(skip > 0);
        }
    }
    assert!(coarse >= 200, "{coarse} coarse cycles");
}
