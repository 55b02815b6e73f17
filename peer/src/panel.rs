//! The flagged rows at a glance: the totals of the blocks, and what the panel
//! is told from them.

use crate::shape::{Refusal, Shape};

/// What the panel is told.
#[derive(Clone, Copy, Debug, PartialEq, Eq)]
pub struct Panel {
    /// The sum of all totals.
    pub total: usize,
    /// The first flagged row.
    pub first: Option<usize>,
    /// How many flags were read to find it.
    pub read: usize,
}

/// Tells the panel the sum of the totals and the first flagged row. Only the
/// first block whose total is not 0 is read, up to that row or to its end.
pub fn panel(shape: Shape, flags: &[u8], totals: &[u8]) -> Result<Panel, Refusal> {
    let layout = shape.layout()?;
    layout.ask_length(flags, layout.rows())?;
    layout.ask_length(totals, layout.blocks())?;
    let total = totals.iter().map(|&total| usize::from(total)).sum();
    let (first, read) = match totals.iter().position(|&total| total != 0) {
        Some(block) => search(flags, block * Shape::BLOCK),
        None => (None, 0),
    };
    Ok(Panel { total, first, read })
}

/// The first flagged row of the block that begins at the row `start`, and how
/// many flags were read to find it.
fn search(flags: &[u8], start: usize) -> (Option<usize>, usize) {
    let end = flags.len().min(start + Shape::BLOCK);
    match flags[start..end].iter().position(|&flag| flag != 0) {
        Some(ahead) => (Some(start + ahead), ahead + 1),
        None => (None, end - start),
    }
}

/// Counts the flagged rows of each block anew, in one pass over the flags. Any
/// flag but 0 counts.
pub(crate) fn count_flags(flags: &[u8], totals: &mut [u8]) {
    for (block, total) in flags.chunks(Shape::BLOCK).zip(totals) {
        *total = block.iter().map(|&flag| u8::from(flag != 0)).sum();
    }
}
