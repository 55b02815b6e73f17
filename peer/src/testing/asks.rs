//! For ask and commit: an example, and what was seen of them.

use std::fmt::{self, Debug};

use crate::call::{Answer, Call};
use crate::cycle::{Cycle, Phase};
use crate::shape::Shape;
use crate::testing::counts::Counts;
use crate::testing::lent::Own;

/// The example: a row is asked for, and two others are refused.
pub struct Example {
    /// The shape.
    pub shape: Shape,
    /// The calls from any state on, each with its answer.
    pub calls: [(Call<Own>, Answer); 5],
    /// The row as they leave it.
    pub standing: [u8; 4],
    /// What the ask writes.
    pub finished: [u8; 4],
}

/// The example.
pub fn example() -> Example {
    let commit = |finished: [u8; 4]| Call::Commit {
        row: 0,
        finished: finished.to_vec(),
    };
    let program = Call::Program {
        row: 0,
        levels: vec![5, 2, 1],
    };
    let ask = Call::Ask {
        row: 0,
        levels: vec![4, 3, 1],
        finished: Own::Finished,
    };
    Example {
        shape: Shape::new(2, 3, 1, 3, 2),
        calls: [
            (Call::Clear, Answer::Done),
            (program, Answer::Done),
            (ask, Answer::Changed(2)),
            (commit([5, 2, 0, 6]), Answer::Refused(17)),
            (commit([8, 0, 0, 0]), Answer::Refused(8)),
        ],
        standing: [5, 2, 1, 6],
        finished: [4, 3, 1, 6],
    }
}

/// A row that is committed, by what an ask of the list wrote before; the nearest
/// first.
#[derive(Clone, Copy, Debug, PartialEq, Eq, PartialOrd, Ord)]
enum Kind {
    /// The same, for the row that was asked for.
    Asked,
    /// The same, for another row.
    Moved,
    /// One cell is another.
    Damaged,
    /// Any other.
    Foreign,
}

/// What was seen.
#[derive(Clone, Copy, Debug, PartialEq, Eq, PartialOrd, Ord)]
enum Case {
    /// An ask that was taken: whether it would change a cell.
    Asked { open: bool, changes: bool },
    /// A commit: its row, and the number of its answer.
    Committed { open: bool, kind: Kind, number: u8 },
}

/// With a cycle open and without: the two of an ask; rows that were asked for, for
/// the same row and for another, taken; damaged ones refused with 8 and with 17;
/// and foreign ones taken and refused with either.
const CASES: usize = 2 * (2 + 2 + 2 + 3);

/// What an ask wrote.
struct Written {
    shape: Shape,
    row: usize,
    finished: Vec<u8>,
}

impl Written {
    /// What a row that is committed is to it.
    fn kind(&self, row: usize, finished: &[u8]) -> Kind {
        let cells = self.finished.iter().zip(finished);
        match cells.filter(|(asked, given)| asked != given).count() {
            0 if self.row == row => Kind::Asked,
            0 => Kind::Moved,
            1 => Kind::Damaged,
            _ => Kind::Foreign,
        }
    }
}

/// How often each case was seen, and what the asks of the list at hand wrote.
#[derive(Default)]
pub struct Asks {
    counts: Counts<Case>,
    written: Vec<Written>,
}

impl Asks {
    /// Another list begins.
    pub fn begin_list(&mut self) {
        self.written.clear();
    }

    /// Counts a call as it was made, by its answer and the record before it: each
    /// ask that was taken, and each commit that was taken or came to question 8.
    pub fn add(&mut self, shape: Shape, call: &Call<Vec<u8>>, answer: Answer, before: Cycle) {
        let open = before.phase == Phase::Open;
        match (call, answer) {
            (Call::Ask { row, finished, .. }, Answer::Changed(cells)) => {
                let changes = cells > 0;
                self.counts.add(Case::Asked { open, changes });
                self.written.push(Written {
                    shape,
                    row: *row,
                    finished: finished.clone(),
                });
            }
            (Call::Commit { row, finished }, Answer::Done | Answer::Refused(8 | 17)) => {
                self.counts.add(Case::Committed {
                    open,
                    kind: self.kind(shape, *row, finished),
                    number: answer.number(),
                });
            }
            _ => {}
        }
    }

    /// What a row of the shape that is committed is to the nearest ask.
    fn kind(&self, shape: Shape, row: usize, finished: &[u8]) -> Kind {
        let asked = self.written.iter().filter(|asked| asked.shape == shape);
        let kinds = asked.map(|asked| asked.kind(row, finished));
        kinds.min().unwrap_or(Kind::Foreign)
    }

    /// Each case was seen at least so often.
    ///
    /// # Panics
    ///
    /// If that is not so.
    pub fn assert_each(&self, least: usize) {
        self.counts.assert_each(CASES, least);
    }
}

/// The cases, and how often each was seen.
impl Debug for Asks {
    fn fmt(&self, f: &mut fmt::Formatter) -> fmt::Result {
        self.counts.fmt(f)
    }
}
