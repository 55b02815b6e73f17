//! A call as it is drawn for both builds: right at first, and then perhaps
//! spoiled.

use peer::testing::draw::{some_length, some_number};
use peer::testing::inputs::spoil_input;
use peer::testing::lent::{Lent, Own};
use peer::testing::random::Random;
use peer::testing::rules::spoil_rule;
use peer::testing::shapes::{small_shape, spoil};
use peer::{Call, Layout, Shape};

/// One call, on a shape, and the lengths that are lent. Its own buffers are
/// named.
#[derive(Clone, Debug, PartialEq, Eq)]
pub struct Drawn {
    pub shape: Shape,
    pub lengths: Lent<usize>,
    pub call: Call<Own>,
}

impl Drawn {
    /// Puts something wrong in up to three times. What the call does not have is
    /// spoiled to no effect. No part gets longer than there is room for.
    pub fn spoil(&mut self, random: &mut Random, layout: &Layout, room: Lent<usize>) {
        for _ in 0..random.below(4) {
            match random.below(10) {
                0 => spoil(random, &mut self.shape),
                1 => self.change_levels(random),
                2 | 3 => self.change_length(random, room),
                4 => self.move_away(random, layout),
                5 => self.change_skip(random, layout),
                6 => self.change_width(random),
                7 => {
                    if let Some(rule) = self.call.rule_mut() {
                        spoil_rule(random, rule);
                    }
                }
                8 => {
                    *self.call.level_mut().unwrap_or(&mut 0) = random.byte();
                    *self.call.line_mut().unwrap_or(&mut 0) = random.byte();
                    self.spoil_levels(random, layout);
                }
                _ => self.change_number(random),
            }
        }
    }

    /// Any byte for one of the levels, and any number for one of the inputs.
    fn spoil_levels(&mut self, random: &mut Random, layout: &Layout) {
        if let Some(levels) = self.call.levels_mut().filter(|levels| !levels.is_empty()) {
            let place = random.below(levels.len());
            levels[place] = random.byte();
        }
        if let Some(inputs) = self.call.inputs_mut() {
            spoil_input(random, layout.levels(), inputs);
        }
    }

    /// More of the levels or inputs, or fewer.
    fn change_number(&mut self, random: &mut Random) {
        if let Some(levels) = self.call.levels_mut() {
            levels.resize(some_length(random, levels.len()), 0);
        }
        if let Some(inputs) = self.call.inputs_mut() {
            inputs.resize(some_length(random, inputs.len()), 0);
        }
    }

    /// Another number of levels.
    fn change_levels(&mut self, random: &mut Random) {
        let other = small_shape(random);
        self.shape.radix = other.radix;
        self.shape.digits = other.digits;
    }

    /// A rule column more or fewer.
    fn change_width(&mut self, random: &mut Random) {
        let width = &mut self.shape.width;
        *width = match random.one_in(2) {
            true => width.wrapping_add(1),
            false => width.wrapping_sub(1),
        };
    }

    /// Another length of any buffer.
    fn change_length(&mut self, random: &mut Random, mut room: Lent<usize>) {
        let place = random.below(Lent::BUFFERS);
        let length = self.lengths.at(place);
        *length = some_length(random, *length).min(*room.at(place));
    }

    /// Another row and column, inside or outside.
    fn move_away(&mut self, random: &mut Random, layout: &Layout) {
        *self.call.row_mut().unwrap_or(&mut 0) = some_number(random, layout.rows());
        *self.call.column_mut().unwrap_or(&mut 0) = some_number(random, layout.columns());
    }

    /// Another number of digits to skip, one that a start takes or not.
    fn change_skip(&mut self, random: &mut Random, layout: &Layout) {
        *self.call.skip_mut().unwrap_or(&mut 0) = some_number(random, layout.digits());
    }
}
