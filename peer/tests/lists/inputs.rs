//! Inputs of lookups up to q and above it, through both builds.

use peer::testing::inputs::above;
use peer::testing::naive::spec::questions;
use peer::testing::settings;
use peer::testing::shapes::{small_shape, spoil};
use peer::testing::steps::cells;
use peer::{Answer, Name, Shape};

use crate::drawn::Drawn;
use crate::list::{List, Seen};
use crate::pieces::CELLS;
use crate::SEED;

/// The two calls that are given inputs.
const LOOKUPS: [Name; 2] = [Name::Lookup, Name::FirstMatch];

/// The call with an input in a column, and 0 in all others.
fn with_input(mut drawn: Drawn, column: usize, input: u16) -> Drawn {
    let inputs = drawn.call.inputs_mut().expect("a lookup");
    inputs.fill(0);
    inputs[column] = input;
    drawn
}

/// Every input up to q and some above it in every column, on levels and other bytes
/// and on lines of every kind: refused with 8 exactly where it is above q.
#[test]
fn inputs_of_every_number_are_answered_the_same() {
    let mut seed = settings::seed(SEED);
    let mut seen = Seen::default();
    for (radix, digits, errors, width) in [
        (2, 1, 1, 1),
        (2, 3, 1, 3),
        (3, 2, 2, 4),
        (15, 2, 3, 1),
        (255, 1, 1, 2),
        (2, 8, 1, 2),
        (16, 2, 1, 2),
    ] {
        seed = seed.wrapping_sub(1);
        let shape = Shape::new(radix, digits, errors, width, 5);
        let mut list = List::new(seed, |_| shape, &mut seen);
        let levels = list.layout.levels();
        let q = levels as u16;
        for input in (0..=q).chain(above(levels)) {
            let bytes = cells(&mut list.random, levels, list.layout.cells());
            list.write(CELLS, 0, bytes);
            list.any_lines();
            for column in 0..width {
                for name in LOOKUPS {
                    let drawn = with_input(list.right(name), column, input);
                    let wanted = if input > q { 8 } else { 0 };
                    assert_eq!(list.make(drawn).number(), wanted);
                }
            }
        }
    }
    println!("{:?}", seen.inputs);
}

impl List<'_> {
    /// A lookup with an input that is too high: alone, with a buffer or the inputs too
    /// long besides, and then with a bad shape too.
    fn check_order_of_lookup(&mut self, name: Name, input: u16) {
        let column = self.random.below(self.shape.width);
        let high = with_input(self.right(name), column, input);
        assert_eq!(self.make(high.clone()), Answer::Refused(8));
        let mut longer = [high.clone(), high.clone(), high];
        longer[0].lengths.state.cells += 1;
        longer[1].lengths.state.lines += 1;
        longer[2].call.inputs_mut().expect("a lookup").push(0);
        for mut drawn in longer {
            assert_eq!(self.make(drawn.clone()), Answer::Refused(6));
            spoil(&mut self.random, &mut drawn.shape);
            let wanted = questions(drawn.shape).expect_err("a bad shape");
            assert_eq!(self.make(drawn), Answer::Refused(wanted));
        }
    }
}

/// 8 is asked after 6, and 6 after the shape.
#[test]
fn the_questions_of_lookups_come_in_the_same_order() {
    let mut seed = settings::seed(SEED);
    for _ in 0..settings::lists(100) {
        seed = seed.wrapping_sub(1);
        let mut seen = Seen::default();
        let mut list = List::new(seed, small_shape, &mut seen);
        for input in above(list.layout.levels()) {
            for name in LOOKUPS {
                list.check_order_of_lookup(name, input);
            }
        }
    }
}
