//! For the panel: an example, flags and totals as no list leaves them, and what
//! it does with them.

use crate::call::{Call, Name};
use crate::panel::Panel;
use crate::shape::{Layout, Shape};
use crate::testing::counts::Counts;
use crate::testing::lent::Own;
use crate::testing::random::Random;

/// The example: two of 130 rows drift, and a cycle finds them.
pub struct Example {
    /// The shape.
    pub shape: Shape,
    /// The calls from any state on, before the panel is told.
    pub calls: [Call<Own>; 4],
    /// The totals that they leave.
    pub totals: [u8; 3],
    /// What the panel is told then.
    pub told: Panel,
}

/// The example.
pub const EXAMPLE: Example = Example {
    shape: Shape::new(2, 1, 1, 1, 130),
    calls: [
        Call::Clear,
        Call::Drift {
            row: 70,
            column: 0,
            level: 1,
        },
        Call::Drift {
            row: 129,
            column: 1,
            level: 1,
        },
        Call::Run {
            skip: 0,
            matches: Own::Matches,
        },
    ],
    totals: [0, 1, 1],
    told: Panel {
        total: 2,
        first: Some(70),
        read: 7,
    },
};

/// The calls that are lent the totals.
pub const WITH_TOTALS: [Name; 6] = [
    Name::Clear,
    Name::Start,
    Name::Step,
    Name::Steps,
    Name::Run,
    Name::Panel,
];

/// Any flags and totals, many of them 0.
pub fn foreign(random: &mut Random, layout: &Layout) -> (Vec<u8>, Vec<u8>) {
    let times = random.pick(&[1, 8, 64, 512, 4096]);
    let flags = random.sparse(layout.rows(), times);
    (flags, foreign_totals(random, layout.blocks()))
}

/// Zeros up to a block, often the first or the last or none at all, and any
/// bytes from there on.
fn foreign_totals(random: &mut Random, blocks: usize) -> Vec<u8> {
    let first = match random.below(6) {
        0 => blocks,
        1 => 0,
        2 | 3 => blocks - 1,
        _ => random.below(blocks),
    };
    let times = random.pick(&[1, 2, 8]);
    let mut totals = random.sparse(blocks, times);
    totals[..first].fill(0);
    if let Some(total) = totals.get_mut(first) {
        *total = random.nonzero();
    }
    totals
}

/// The block that the panel reads.
#[derive(Clone, Copy, Debug, PartialEq, Eq, PartialOrd, Ord)]
enum Block {
    /// The first one, which may be the only one.
    First,
    /// One between the first and the last.
    Middle,
    /// The last of several, which is full.
    Last,
    /// The last of several, which is short.
    Short,
}

impl Block {
    /// What the block with the number is in an array of so many rows.
    fn of(rows: usize, number: usize) -> Block {
        let end = (number + 1) * Shape::BLOCK;
        match number {
            0 => Block::First,
            _ if end < rows => Block::Middle,
            _ if end == rows => Block::Last,
            _ => Block::Short,
        }
    }
}

/// The block that the panel read, and whether it found a flagged row there;
/// none where every total is 0.
type Case = Option<(Block, bool)>;

/// Two cases for each of the four kinds of block, and the one of no total.
const CASES: usize = 9;

/// How often the panel was told something in each case.
#[derive(Debug, Default)]
pub struct Cases(Counts<Case>);

impl Cases {
    /// Counts what the panel was told of an array of so many rows.
    pub fn add(&mut self, rows: usize, totals: &[u8], panel: Panel) {
        let number = totals.iter().position(|&total| total != 0);
        let case = number.map(|number| (Block::of(rows, number), panel.first.is_some()));
        self.0.add(case);
    }

    /// The number of all answers.
    pub fn answers(&self) -> usize {
        self.0.all()
    }

    /// Each case was seen at least so often.
    ///
    /// # Panics
    ///
    /// If that is not so.
    pub fn assert_each(&self, least: usize) {
        self.0.assert_each(CASES, least);
    }
}
