//! For the digits that a cycle skips: an example, numbers that no start takes,
//! and what was seen of them.

use crate::call::{Answer, Call, Name};
use crate::cycle::{Cycle, Phase};
use crate::shape::Shape;
use crate::testing::counts::Counts;
use crate::testing::lent::Own;

/// The example: of two rows one has changed in its lowest digit and one in its
/// highest, and cycles of every z look for them.
pub struct Example {
    /// The shape.
    pub shape: Shape,
    /// The calls from any state on, before a cycle.
    pub calls: Vec<Call<Own>>,
    /// For each z the steps of its cycle and the flags that it leaves.
    pub cycles: [(usize, [u8; 2]); 3],
}

/// The example.
pub fn example() -> Example {
    Example {
        shape: Shape::new(2, 3, 1, 3, 2),
        calls: vec![
            Call::Clear,
            Call::Program {
                row: 0,
                levels: vec![5, 2, 1],
            },
            Call::Drift {
                row: 0,
                column: 2,
                level: 0,
            },
            Call::Drift {
                row: 1,
                column: 2,
                level: 4,
            },
        ],
        cycles: [(30, [1, 1]), (14, [0, 1]), (6, [0, 1])],
    }
}

/// Numbers that a start on so many digits refuses. Cut to one byte or to four,
/// some of them are small.
pub fn too_many(digits: usize) -> [usize; 7] {
    let long = 1 << 32;
    [digits, digits + 1, 256, 257, long, long + 1, usize::MAX]
}

/// What a call did with skipped digits.
#[derive(Clone, Copy, Debug, PartialEq, Eq, PartialOrd, Ord)]
enum Case {
    /// It ended a cycle of all digits.
    EndedFine(Name),
    /// It ended a coarse cycle.
    EndedCoarse(Name),
    /// It was given the record of an open cycle, and refused with 15.
    RefusedOpen(Name),
    /// It was one step or several that took a record with another z than that of
    /// its cycle.
    ForgedTaken,
    /// It was one step or several that refused one.
    ForgedRefused,
}

/// Each of the first two for three calls, the third for two, and each of the last
/// two.
const CASES: usize = 10;

/// How often each case was seen.
#[derive(Debug, Default)]
pub struct Skips(Counts<Case>);

impl Skips {
    /// Counts a call, by its answer and the record before and after it.
    pub fn add(&mut self, name: Name, answer: Answer, before: Cycle, after: Cycle) {
        let steps = matches!(name, Name::Step | Name::Steps | Name::Run);
        let ends = steps && after.phase == Phase::Complete;
        match answer {
            Answer::Done if ends && after.skip == 0 => self.0.add(Case::EndedFine(name)),
            Answer::Done if ends => self.0.add(Case::EndedCoarse(name)),
            Answer::Refused(15) if name.has_record() && before.phase == Phase::Open => {
                self.0.add(Case::RefusedOpen(name));
            }
            _ => {}
        }
    }

    /// Counts one step or several with a record that was made from another one,
    /// where both are open and z alone is changed.
    pub fn add_forged(&mut self, answer: Answer, before: Cycle, forged: Cycle) {
        let skip = before.skip;
        let z_alone = forged.skip != skip && Cycle { skip, ..forged } == before;
        match answer {
            _ if !z_alone || before.phase != Phase::Open => {}
            Answer::Done => self.0.add(Case::ForgedTaken),
            Answer::Refused(9) => self.0.add(Case::ForgedRefused),
            _ => {}
        }
    }

    /// Each case was seen at least so often.
    ///
    /// # Panics
    ///
    /// If that is not so.
    pub fn assert_each(&self, least: usize) {
        self.0.assert_each(CASES, least);
    }
}
