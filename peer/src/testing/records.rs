//! Records: as the words of the calls for C, and forged ones.

use crate::cycle::{Cycle, Phase};
use crate::testing::random::Random;

/// The record as it crosses to the calls for C: phase (0 idle, 1 open, 2
/// complete), check, digit, column, factor, count, skip.
pub type Words = [usize; 7];

/// The words of a record.
pub fn words_of(cycle: Cycle) -> Words {
    let phase = match cycle.phase {
        Phase::Idle => 0,
        Phase::Open => 1,
        Phase::Complete => 2,
    };
    [
        phase,
        cycle.check,
        cycle.digit,
        cycle.column,
        cycle.factor,
        cycle.count,
        cycle.skip,
    ]
}

/// The record that the words stand for: any other phase is idle.
pub fn cycle_of(words: &Words) -> Cycle {
    let &[phase, check, digit, column, factor, count, skip] = words;
    Cycle {
        phase: match phase {
            1 => Phase::Open,
            2 => Phase::Complete,
            _ => Phase::Idle,
        },
        check,
        digit,
        column,
        factor,
        count,
        skip,
    }
}

/// A record made from the given one by changing some of its fields, or none. Now
/// and then it loses its place, as one of an opening has none.
pub fn forged(random: &mut Random, cycle: Cycle) -> Cycle {
    let mut forged = cycle;
    for _ in 0..random.below(3) {
        match random.below(8) {
            0 => forged.phase = random.pick(&[Phase::Idle, Phase::Open, Phase::Complete]),
            1 => forged.check = beside(random, forged.check),
            2 => forged.digit = beside(random, forged.digit),
            3 => forged.column = beside(random, forged.column),
            4 => forged.factor = beside(random, forged.factor),
            5 => forged.count = beside(random, forged.count),
            6 => forged.skip = beside(random, forged.skip),
            _ => {
                forged = Cycle {
                    phase: forged.phase,
                    count: forged.count,
                    skip: forged.skip,
                    ..Cycle::IDLE
                }
            }
        }
    }
    forged
}

/// A number beside the given one, or far off.
fn beside(random: &mut Random, number: usize) -> usize {
    match random.below(6) {
        0 => number.wrapping_add(1),
        1 => number.wrapping_sub(1),
        2 => 0,
        3 => usize::MAX,
        4 => random.below(300),
        _ => number,
    }
}
