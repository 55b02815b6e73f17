//! What a caller has to know of a shape before the first call: the sizes of its
//! buffers, and the steps of a cycle.

use crate::shape::{Refusal, Shape};

/// The sizes that follow from a shape, and from the low digits that a cycle skips.
#[derive(Clone, Copy, Debug, PartialEq, Eq)]
pub struct Sizes {
    /// q, the number of levels.
    pub levels: usize,
    /// r, the number of check columns.
    pub checks: usize,
    /// n, the number of all columns.
    pub columns: usize,
    /// m × n, the number of cells.
    pub cells: usize,
    /// ⌈m / 64⌉, the number of blocks of rows.
    pub blocks: usize,
    /// The steps of a cycle that skips so many low digits, its openings among them.
    pub steps: usize,
}

/// The sizes of a shape, with the steps of a cycle that skips so many low digits.
/// Asks questions 1 to 5, and then 15.
pub fn sizes(shape: Shape, skip: usize) -> Result<Sizes, Refusal> {
    let layout = shape.layout()?;
    layout.ask_skip(skip)?;
    Ok(Sizes {
        levels: layout.levels(),
        checks: layout.checks(),
        columns: layout.columns(),
        cells: layout.cells(),
        blocks: layout.blocks(),
        steps: layout.steps(skip),
    })
}
