//! For the inputs of task lookups and first matches: such up to q, such above it,
//! and what was seen of them.

use crate::call::{Answer, Call, Name};
use crate::shape::Shape;
use crate::testing::counts::Counts;
use crate::testing::naive::spec::{questions, Spec};
use crate::testing::random::Random;

/// Inputs above so many levels, which question 8 refuses. Cut to one byte, one of
/// them is 0, one the highest level and one the number of levels; read with a sign,
/// some are negative.
pub fn above(levels: usize) -> [u16; 6] {
    let levels = levels as u16;
    [
        levels + 1,
        levels + 255,
        levels + 256,
        512,
        0x8000,
        u16::MAX,
    ]
}

/// Levels as inputs.
pub fn as_inputs(levels: &[u8]) -> Vec<u16> {
    levels.iter().map(|&level| level.into()).collect()
}

/// So many inputs for so many levels: often low ones, so that rows match, and now
/// and then some of them q.
pub fn any_inputs(random: &mut Random, levels: usize, length: usize) -> Vec<u16> {
    let bound = random.pick(&[2, 3, levels]).min(levels);
    let mut inputs = as_inputs(&random.levels(bound, length));
    for _ in 0..random.below(6).saturating_sub(3) {
        let column = random.below(length);
        inputs[column] = levels as u16;
    }
    inputs
}

/// One of the inputs becomes any number: one above q, often just above, or not.
pub fn spoil_input(random: &mut Random, levels: usize, inputs: &mut [u16]) {
    if inputs.is_empty() {
        return;
    }
    let column = random.below(inputs.len());
    inputs[column] = match random.below(4) {
        0 => random.number() as u16,
        1 => random.pick(&above(levels)),
        _ => levels as u16 + 1,
    };
}

/// What a lookup was fed that was taken.
#[derive(Clone, Copy, Debug, PartialEq, Eq, PartialOrd, Ord)]
enum Fed {
    /// Levels alone.
    Levels,
    /// Also q.
    Beyond,
    /// Also q, and a row with a sound line would match if its cells of q and more
    /// answered to that.
    BeyondTempting,
}

/// A lookup.
#[derive(Clone, Copy, Debug, PartialEq, Eq, PartialOrd, Ord)]
enum Case {
    /// It was taken: what it was fed, whether a line is shorted, and whether a row
    /// matches.
    Taken {
        name: Name,
        fed: Fed,
        shorted: bool,
        matched: bool,
    },
    /// It was refused for an input of q + 1, or for one above.
    Refused { name: Name, just_above: bool },
}

/// For each of the two calls: three with levels, since a shorted row matches; two
/// for each way with q, since no other does; and the two of a refusal.
const CASES: usize = 2 * (3 + 2 * 2 + 2);

/// How often each case was seen.
#[derive(Debug, Default)]
pub struct Inputs(Counts<Case>);

impl Inputs {
    /// Counts a task lookup or a first match that was taken or refused with 8, by its
    /// answer and by the cells and lines that it was lent.
    pub fn add<B>(
        &mut self,
        shape: Shape,
        call: &Call<B>,
        answer: Answer,
        cells: &[u8],
        lines: &[u8],
    ) {
        let (Call::Lookup { inputs, .. } | Call::FirstMatch { inputs }) = call else {
            return;
        };
        let name = call.name();
        let matched = match answer {
            Answer::Count(count) => count > 0,
            Answer::Row(row) => row.is_some(),
            Answer::Refused(8) => {
                let just = questions(shape).map(|spec| spec.levels + 1);
                let just_above = inputs.iter().map(|&input| input.into()).max() == just.ok();
                return self.0.add(Case::Refused { name, just_above });
            }
            _ => return,
        };
        let spec = questions(shape).expect("a good shape");
        self.0.add(Case::Taken {
            name,
            fed: fed(&spec, inputs, cells, lines),
            shorted: lines.contains(&2),
            matched,
        });
    }

    /// Each case was seen at least so often.
    ///
    /// # Panics
    ///
    /// If that is not so.
    pub fn assert_each(&self, least: usize) {
        self.0.assert_each(CASES, least);
    }
}

fn fed(spec: &Spec, inputs: &[u16], cells: &[u8], lines: &[u8]) -> Fed {
    let is_beyond = |input: u16| usize::from(input) == spec.levels;
    let tempts = |row: usize| {
        let mut pairs = spec.row(cells, row).iter().zip(inputs);
        lines[row] == 0 && pairs.all(|(&cell, &input)| input <= cell.into())
    };
    match inputs.iter().any(|&input| is_beyond(input)) {
        false => Fed::Levels,
        true if (0..spec.shape.rows).any(tempts) => Fed::BeyondTempting,
        true => Fed::Beyond,
    }
}
