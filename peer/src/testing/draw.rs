//! The random generator of calls: an arm for each call, and the sources from
//! which its arguments are drawn.

use crate::call::{Call, Name};
use crate::router::Rule;
use crate::shape::Layout;
use crate::testing::inputs::any_inputs;
use crate::testing::lent::Own;
use crate::testing::lines::settable;
use crate::testing::random::Random;
use crate::testing::rows::sound_row;
use crate::testing::rules::{any_bottle, any_rule};

/// Where the arguments of a call come from.
pub trait Draw {
    /// What stands for a buffer of the call's own.
    type Buffer;

    /// A row and the levels for it.
    fn levels(&mut self) -> (usize, Vec<u8>);
    /// A finished row for a commit.
    fn finished(&mut self) -> Vec<u8>;
    /// A row.
    fn row(&mut self) -> usize;
    /// A column.
    fn column(&mut self) -> usize;
    /// A level for one cell.
    fn level(&mut self) -> u8;
    /// A line byte for one row.
    fn line(&mut self) -> u8;
    /// Inputs of a lookup.
    fn inputs(&mut self) -> Vec<u16>;
    /// A belt rule.
    fn rule(&mut self) -> Rule<Vec<u8>>;
    /// A bottle's values.
    fn values(&mut self) -> Vec<u8>;
    /// The number of low digits that a cycle skips.
    fn skip(&mut self) -> usize;
    /// The largest number of steps.
    fn most(&mut self) -> usize;
    /// A buffer of the call's own.
    fn buffer(&mut self, own: Own) -> Self::Buffer;
}

/// A call of the name.
pub fn call<D: Draw>(name: Name, draw: &mut D) -> Call<D::Buffer> {
    match name {
        Name::Sizes => Call::Sizes { skip: draw.skip() },
        Name::Clear => Call::Clear,
        Name::Program => {
            let (row, levels) = draw.levels();
            Call::Program { row, levels }
        }
        Name::Ask => {
            let (row, levels) = draw.levels();
            Call::Ask {
                row,
                levels,
                finished: draw.buffer(Own::Finished),
            }
        }
        Name::Commit => Call::Commit {
            row: draw.row(),
            finished: draw.finished(),
        },
        Name::Drift => Call::Drift {
            row: draw.row(),
            column: draw.column(),
            level: draw.level(),
        },
        Name::Line => Call::Line {
            row: draw.row(),
            byte: draw.line(),
        },
        Name::Lookup => Call::Lookup {
            inputs: draw.inputs(),
            matches: draw.buffer(Own::Matches),
        },
        Name::Start => Call::Start { skip: draw.skip() },
        Name::Step => Call::Step {
            matches: draw.buffer(Own::Matches),
        },
        Name::Steps => Call::Steps {
            most: draw.most(),
            matches: draw.buffer(Own::Matches),
        },
        Name::Run => Call::Run {
            skip: draw.skip(),
            matches: draw.buffer(Own::Matches),
        },
        Name::Panel => Call::Panel,
        Name::FirstMatch => Call::FirstMatch {
            inputs: draw.inputs(),
        },
        Name::Sound => Call::Sound { row: draw.row() },
        Name::Read => Call::Read {
            row: draw.row(),
            out: draw.buffer(Own::Out),
        },
        Name::Rule => Call::Rule {
            row: draw.row(),
            rule: draw.rule(),
        },
        Name::Route => Call::Route {
            values: draw.values(),
        },
        Name::RuleAt => Call::RuleAt {
            row: draw.row(),
            lows: draw.buffer(Own::Lows),
            highs: draw.buffer(Own::Highs),
        },
    }
}

/// Arguments with nothing wrong in them.
pub struct Right<'a> {
    /// The generator of numbers.
    pub random: &'a mut Random,
    /// The layout that they are drawn for.
    pub layout: &'a Layout,
}

impl Draw for Right<'_> {
    type Buffer = Own;

    fn levels(&mut self) -> (usize, Vec<u8>) {
        let levels = self.layout.levels();
        let levels = self.random.levels(levels, self.layout.width());
        (self.row(), levels)
    }

    fn finished(&mut self) -> Vec<u8> {
        sound_row(self.random, self.layout)
    }

    fn row(&mut self) -> usize {
        self.random.below(self.layout.rows())
    }

    fn column(&mut self) -> usize {
        self.random.below(self.layout.columns())
    }

    fn level(&mut self) -> u8 {
        self.random.level(self.layout.levels())
    }

    fn line(&mut self) -> u8 {
        settable(self.random)
    }

    fn inputs(&mut self) -> Vec<u16> {
        any_inputs(self.random, self.layout.levels(), self.layout.width())
    }

    fn rule(&mut self) -> Rule<Vec<u8>> {
        any_rule(self.random, self.layout)
    }

    fn values(&mut self) -> Vec<u8> {
        any_bottle(self.random, self.layout)
    }

    fn skip(&mut self) -> usize {
        self.random.below(self.layout.digits())
    }

    /// A few, or none.
    fn most(&mut self) -> usize {
        self.random.below(10)
    }

    fn buffer(&mut self, own: Own) -> Own {
        own
    }
}

/// Mostly a number below the bound, else any.
pub fn some_number(random: &mut Random, bound: usize) -> usize {
    match random.below(10) {
        0 => bound,
        1 => random.pick(&[bound + 1, 256, 4096, usize::MAX / 2, usize::MAX]),
        _ => random.below(bound),
    }
}

/// Mostly the wanted length; else one beside it, or none, or any.
pub fn some_length(random: &mut Random, wanted: usize) -> usize {
    match random.below(24) {
        0 => wanted + 1,
        1 => wanted.saturating_sub(1),
        2 => 0,
        3 => random.below(2 * wanted + 2),
        _ => wanted,
    }
}

/// Any bytes, mostly of the wanted length.
pub fn some_bytes(random: &mut Random, wanted: usize) -> Vec<u8> {
    let length = some_length(random, wanted);
    random.bytes(length)
}
