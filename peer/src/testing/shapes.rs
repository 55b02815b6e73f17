//! Random shapes, and shapes that a question on them refuses.

use crate::matrix::LARGEST_WIDTH;
use crate::shape::{Layout, Shape};
use crate::testing::random::Random;

/// Numbers of rows at which a block is full, and such beside them.
pub const BLOCK_EDGES: [usize; 10] = [1, 63, 64, 65, 127, 128, 129, 130, 4095, 4096];

/// The layout of a shape that was drawn as a good one.
pub(crate) fn layout(shape: Shape) -> Layout {
    shape.layout().expect("a good shape was drawn")
}

/// A good shape, and shapes made from it, each with the first of questions 1 to 5
/// that it fails; 0 for the good one.
pub const fn asked(good: Shape) -> [(u8, Shape); 9] {
    [
        (0, good),
        (1, Shape { radix: 1, ..good }),
        (1, Shape { radix: 256, ..good }),
        (2, Shape { digits: 0, ..good }),
        (2, Shape { digits: 9, ..good }),
        (3, Shape { errors: 4, ..good }),
        (4, Shape { width: 0, ..good }),
        (5, Shape { rows: 0, ..good }),
        (5, Shape { rows: 4097, ..good }),
    ]
}

/// A good shape with few levels, columns and rows.
pub fn small_shape(random: &mut Random) -> Shape {
    let radix = random.between(2, 5);
    let digits = match radix {
        2 => random.between(1, 4),
        3 => random.between(1, 3),
        _ => random.between(1, 2),
    };
    Shape {
        radix,
        digits,
        errors: random.between(1, 3),
        width: random.between(1, 6),
        rows: random.between(1, 5),
    }
}

/// The shape, with an even number of rule columns where it has an odd one: one
/// fewer, or two.
pub fn even(shape: Shape) -> Shape {
    let width = shape.width - shape.width % 2;
    Shape {
        width: width.max(2),
        ..shape
    }
}

/// A small shape whose cycle of all digits has at most so many lookups (three
/// or more) besides its openings.
pub fn short_cycle_shape(random: &mut Random, lookups: usize) -> Shape {
    loop {
        let shape = small_shape(random);
        if layout(shape).lookups(0) <= lookups {
            return shape;
        }
    }
}

/// Such a shape, half the time with two digits or more, so that a cycle can skip
/// some.
pub fn short_coarse_shape(random: &mut Random, lookups: usize) -> Shape {
    let digits = random.between(1, 2);
    loop {
        let shape = short_cycle_shape(random, lookups);
        if shape.digits >= digits {
            return shape;
        }
    }
}

/// A good shape with few levels and columns, and any number of rows: often full
/// blocks of them, or a number beside.
pub fn block_shape(random: &mut Random) -> Shape {
    let rows = match random.below(3) {
        0 => random.pick(&BLOCK_EDGES),
        1 => random.between(2, Shape::MAX_ROWS / Shape::BLOCK) * Shape::BLOCK,
        _ => random.between(1, Shape::MAX_ROWS),
    };
    Shape {
        rows,
        ..small_shape(random)
    }
}

/// A good shape with most of its numbers at a limit or beside one.
pub fn limit_shape(random: &mut Random) -> Shape {
    let (radix, digits) = random.pick(&[
        (2, 1),
        (2, 7),
        (2, 8),
        (3, 5),
        (4, 4),
        (5, 3),
        (6, 3),
        (7, 2),
        (15, 2),
        (16, 1),
        (16, 2),
        (17, 1),
        (128, 1),
        (254, 1),
        (255, 1),
    ]);
    let errors = random.between(1, 3);
    Shape {
        radix,
        digits,
        errors,
        width: limit_width(random, errors),
        rows: limit_rows(random),
    }
}

/// A number of rows at a limit, at a power of 2, at the end of a block, or
/// beside one.
fn limit_rows(random: &mut Random) -> usize {
    if random.one_in(2) {
        random.pick(&BLOCK_EDGES)
    } else {
        random.pick(&[1, 2, 3, 255, 256, 257, 4095, 4096])
    }
}

/// A width at the largest for some number of check columns, or beside it.
fn limit_width(random: &mut Random, errors: usize) -> usize {
    let largest = LARGEST_WIDTH[errors - 1];
    let most = largest.into_iter().max().unwrap_or(1);
    let edge = random.pick(&largest);
    let width = match random.below(3) {
        0 => edge,
        1 => edge + 1,
        _ => edge.saturating_sub(1),
    };
    width.clamp(1, most)
}

/// A shape with at least one number out of its limits.
pub fn bad_shape(random: &mut Random) -> Shape {
    let mut shape = any_good_shape(random);
    for _ in 0..random.pick(&[1, 1, 1, 2, 5]) {
        spoil(random, &mut shape);
    }
    if shape.layout().is_ok() {
        shape.rows = 0;
    }
    shape
}

/// Puts one number of a shape out of its limits.
pub fn spoil(random: &mut Random, shape: &mut Shape) {
    match random.below(5) {
        0 => shape.radix = random.pick(&[0, 1, 256, 257, 65_536, usize::MAX]),
        1 => shape.digits = random.pick(&[0, 9, 64, 65, 1 << 32, usize::MAX - 1, usize::MAX]),
        2 => shape.errors = random.pick(&[0, 4, 5, 256, usize::MAX]),
        3 => shape.width = random.pick(&[0, 255, 256, usize::MAX - 8, usize::MAX]),
        _ => shape.rows = random.pick(&[0, 4097, 65_536, usize::MAX]),
    }
}

/// A good shape, small or at a limit.
pub fn any_good_shape(random: &mut Random) -> Shape {
    if random.one_in(4) {
        limit_shape(random)
    } else {
        small_shape(random)
    }
}

/// Any shape, good or bad.
pub fn any_shape(random: &mut Random) -> Shape {
    if random.one_in(4) {
        bad_shape(random)
    } else {
        any_good_shape(random)
    }
}
