//! For calls of several steps: an example, numbers of steps, and what was seen of
//! them.

use crate::call::{Answer, Call};
use crate::cycle::{Cycle, Phase};
use crate::shape::Shape;
use crate::testing::counts::Counts;
use crate::testing::lent::Own;
use crate::testing::random::Random;

/// The example: a cell of the second row has drifted, and the cycle that finds it
/// is made by calls of several steps.
pub struct Example {
    /// The shape.
    pub shape: Shape,
    /// The calls from any state on, before the steps.
    pub calls: Vec<Call<Own>>,
    /// The calls of several steps, in turn.
    pub made: [Several; 10],
}

/// A call of several steps, and what it leaves.
#[derive(Clone, Copy, Debug)]
pub struct Several {
    /// The largest number of steps.
    pub most: usize,
    /// The number of the answer.
    pub number: u8,
    /// The count of the record.
    pub count: usize,
    /// The match bytes; they are all 7 before the call.
    pub matches: [u8; 2],
    /// The counters.
    pub counters: [u8; 2],
    /// The flags.
    pub flags: [u8; 2],
}

impl Several {
    const fn new(
        (most, number, count): (usize, u8, usize),
        matches: [u8; 2],
        counters: [u8; 2],
        flags: [u8; 2],
    ) -> Several {
        Several {
            most,
            number,
            count,
            matches,
            counters,
            flags,
        }
    }
}

/// The example. The rows are 5 2 1 6 and 0 0 4 0. After the two openings each of the
/// four columns is fed 4, then each 2 and 6, then each 1, 3, 5 and 7.
pub fn example() -> Example {
    Example {
        shape: Shape::new(2, 3, 1, 3, 2),
        calls: vec![
            Call::Clear,
            Call::Program {
                row: 0,
                levels: vec![5, 2, 1],
            },
            Call::Drift {
                row: 1,
                column: 2,
                level: 4,
            },
            Call::Start { skip: 0 },
        ],
        made: [
            Several::new((0, 0, 0), [7, 7], [0, 0], [0, 0]),
            Several::new((1, 0, 1), [1, 1], [0, 0], [0, 0]),
            Several::new((4, 0, 5), [0, 1], [1, 1], [0, 0]),
            Several::new((0, 0, 5), [7, 7], [1, 1], [0, 0]),
            Several::new((1, 0, 6), [1, 0], [0, 1], [0, 1]),
            Several::new((8, 0, 14), [1, 0], [0, 0], [0, 1]),
            Several::new((14, 0, 28), [1, 0], [1, 0], [0, 1]),
            Several::new((3, 0, 30), [0, 0], [0, 0], [0, 1]),
            Several::new((1, 9, 30), [7, 7], [0, 0], [0, 1]),
            Several::new((0, 9, 30), [7, 7], [0, 0], [0, 1]),
        ],
    }
}

/// Numbers that no cycle has steps for. Cut to one byte, to two or to four, most
/// of them are small; read with a sign, some are negative.
pub const HUGE: [usize; 7] = [
    LONG,
    LONG + 1,
    LONG + 257,
    usize::MAX / 2,
    usize::MAX / 2 + 1,
    usize::MAX - 1,
    usize::MAX,
];

/// What no number below four bytes reaches.
const LONG: usize = 1 << 32;

/// How many steps a record of the shape has still to come, where it is one of its
/// records; 0 where no cycle is open.
pub fn left(shape: Shape, cycle: Cycle) -> usize {
    match shape.layout() {
        Ok(layout) if cycle.phase == Phase::Open && cycle.skip < layout.digits() => {
            layout.steps(cycle.skip).saturating_sub(cycle.count)
        }
        _ => 0,
    }
}

/// Numbers of steps for a cycle with so many left: at its limits, and those of
/// which a part of the bytes is small.
pub fn edges(left: usize) -> impl Iterator<Item = usize> {
    let few = [0, 1, 2, 3, 8, 255, 256, 257];
    let beside = [left.saturating_sub(1), left, left + 1, left + 2];
    few.into_iter().chain(beside).chain(HUGE)
}

/// Any number of steps for a cycle with so many left, of which only so many are to
/// be made.
pub fn some_most(random: &mut Random, left: usize, affordable: usize) -> usize {
    let most = match random.below(11) {
        0 | 1 => 0,
        2 => 1,
        3 => 2,
        4 | 5 => random.between(3, 20),
        6 => left.saturating_sub(1),
        7 => left,
        8 => left + 1,
        9 => random.below(2 * left + 2),
        _ => random.pick(&HUGE),
    };
    if most.min(left) <= affordable {
        most
    } else {
        random.below(affordable + 1)
    }
}

/// So many cells of which some rows match and others do not: levels, and here and
/// there any byte.
pub fn cells(random: &mut Random, levels: usize, length: usize) -> Vec<u8> {
    (0..length)
        .map(|_| match random.below(8) {
            0 => random.byte(),
            _ => random.level(levels),
        })
        .collect()
}

/// A number of steps, by those that were left.
#[derive(Clone, Copy, Debug, PartialEq, Eq, PartialOrd, Ord)]
enum Number {
    None,
    One,
    Two,
    Fewer,
    OneLess,
    All,
    OneMore,
    More,
    Huge,
}

impl Number {
    /// How many there are.
    const KINDS: usize = Number::Huge as usize + 1;

    fn of(most: usize, left: usize) -> Number {
        match most {
            0 => Number::None,
            _ if most == left => Number::All,
            _ if left.checked_sub(1) == Some(most) => Number::OneLess,
            1 => Number::One,
            2 if left > 2 => Number::Two,
            _ if most < left => Number::Fewer,
            _ if most - 1 == left => Number::OneMore,
            _ if most < LONG => Number::More,
            _ => Number::Huge,
        }
    }
}

/// Where a cycle is that goes on: before its openings, between them or after them.
#[derive(Clone, Copy, Debug, PartialEq, Eq, PartialOrd, Ord)]
enum Place {
    First,
    Second,
    After,
}

impl Place {
    /// How many there are.
    const KINDS: usize = Place::After as usize + 1;

    fn of(cycle: Cycle) -> Place {
        match cycle.count {
            0 => Place::First,
            1 => Place::Second,
            _ => Place::After,
        }
    }
}

/// A call of several steps.
#[derive(Clone, Copy, Debug, PartialEq, Eq, PartialOrd, Ord)]
enum Case {
    /// It was taken: at which place it found the cycle, whether it found a counter
    /// of ρ or more, and how many steps it was to make.
    Taken {
        place: Place,
        above: bool,
        number: Number,
    },
    /// It was refused with a number, and was to make no step at all or some.
    Refused { number: u8, none: bool },
}

/// Those of a call that was taken, and two for each of the questions 1 to 6 and 9.
const CASES: usize = Place::KINDS * 2 * Number::KINDS + 2 * 7;

/// How often each case was seen.
#[derive(Debug, Default)]
pub struct Steps(Counts<Case>);

impl Steps {
    /// Counts a call of several steps, by its answer, and by the record and the
    /// counters before it.
    pub fn add<B>(
        &mut self,
        shape: Shape,
        call: &Call<B>,
        answer: Answer,
        before: Cycle,
        counters: &[u8],
    ) {
        let Call::Steps { most, .. } = *call else {
            return;
        };
        self.0.add(match answer.number() {
            0 => Case::Taken {
                place: Place::of(before),
                above: counters.iter().any(|&c| usize::from(c) >= shape.radix),
                number: Number::of(most, left(shape, before)),
            },
            number => Case::Refused {
                number,
                none: most == 0,
            },
        });
    }

    /// Each case was seen at least so often.
    ///
    /// # Panics
    ///
    /// If that is not so.
    pub fn assert_each(&self, least: usize) {
        self.0.assert_each(CASES, least);
    }
}
