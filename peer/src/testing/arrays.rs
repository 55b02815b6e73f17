//! Arrays with any bytes in them, and the two ways of making a call on one.

use crate::call::{Answer, Call};
use crate::list::Array;
use crate::shape::Shape;
use crate::state::State;
use crate::testing::lines::any_lines;
use crate::testing::naive;
use crate::testing::naive::spec::questions;
use crate::testing::panels::foreign;
use crate::testing::random::Random;
use crate::testing::shapes::layout;

/// One way of making a call.
pub type Make = fn(&mut Array, &mut Call<Vec<u8>>) -> Answer;

/// By this build, and by the definitions.
pub const BOTH: [Make; 2] = [Array::make, naive::calls::make];

/// An array of a good shape with any bytes in it, whose cycle is at any place.
///
/// # Panics
///
/// If the shape is not good.
pub fn any_array(random: &mut Random, shape: Shape) -> Array {
    let layout = layout(shape);
    let schedule = questions(shape).expect("a good shape").schedule(0);
    let count = random.below(schedule.steps() + 1);
    let (flags, totals) = foreign(random, &layout);
    Array {
        shape,
        state: State {
            cells: random.bytes(layout.cells()),
            lines: any_lines(random, shape.rows),
            counters: random.bytes(shape.rows),
            flags,
            totals,
        },
        belts: random.bytes(shape.rows),
        cycle: schedule.record(count),
    }
}

/// An array of a good shape with any levels in it, whose cycle has just begun, and
/// the digits that this skips.
///
/// # Panics
///
/// If the shape is not good.
pub fn started_array(random: &mut Random, shape: Shape) -> (Array, usize) {
    let layout = layout(shape);
    let mut array = Array::fresh(shape).expect("a good shape");
    array.state.cells = random.levels(layout.levels(), layout.cells());
    let skip = random.below(shape.digits);
    assert_eq!(array.start(skip), Answer::Done);
    (array, skip)
}
