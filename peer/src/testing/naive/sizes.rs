//! The sizes of a shape.

use super::ask;
use super::panel::blocks;
use super::spec::questions;
use crate::shape::Shape;
use crate::sizes::Sizes;

/// The sizes, each by its formula.
pub fn sizes(shape: Shape, skip: usize) -> Result<Sizes, u8> {
    let spec = questions(shape)?;
    ask(skip < shape.digits, 15)?;
    Ok(Sizes {
        levels: spec.levels,
        checks: spec.checks,
        columns: spec.columns(),
        cells: spec.cells(),
        blocks: blocks(shape.rows),
        steps: spec.steps(skip),
    })
}
