//! The totals of flagged rows, and the panel call.

use super::ask;
use super::spec::questions;
use crate::list::Array;
use crate::panel::Panel;

/// The number of the block that a row lies in.
fn block_of(row: usize) -> usize {
    row / 64
}

/// How many blocks there are: one more than the number of the last row's.
pub fn blocks(rows: usize) -> usize {
    block_of(rows - 1) + 1
}

/// For each block, how many of its flags are not 0.
pub fn counts(flags: &[u8]) -> Vec<u8> {
    let mut counts = vec![0; blocks(flags.len())];
    for (row, &flag) in flags.iter().enumerate() {
        if flag != 0 {
            counts[block_of(row)] += 1;
        }
    }
    counts
}

/// The sum of the totals, the first nonzero flag in the first block whose total
/// is not 0, and the flags read: those from the block's start through that row,
/// or all of the block.
pub(super) fn panel(array: &Array) -> Result<Panel, u8> {
    let rows = array.shape.rows;
    let (flags, totals) = (&array.state.flags, &array.state.totals);
    questions(array.shape)?;
    ask(flags.len() == rows, 6)?;
    ask(totals.len() == blocks(rows), 6)?;
    let block = (0..blocks(rows)).find(|&block| totals[block] != 0);
    let in_block = |&row: &usize| Some(block_of(row)) == block;
    let first = (0..rows).filter(in_block).find(|&row| flags[row] != 0);
    let through = |&row: &usize| first.is_none_or(|first| row <= first);
    Ok(Panel {
        total: totals.iter().map(|&total| usize::from(total)).sum(),
        first,
        read: (0..rows).filter(in_block).filter(through).count(),
    })
}
