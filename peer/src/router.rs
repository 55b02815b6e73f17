//! Belt rules as ranges, above the array and its cycle.
//!
//! A rule has f = k / 2 features, each with a low and a high, and a belt. Feature
//! i fills column 2i with high and column 2i + 1 with q − 1 − low; a bottle feeds
//! them its value x and q − 1 − x. So the row of a rule with a sound line matches
//! exactly the bottles whose every value is from the low to the high. A cleared row
//! has lows of q − 1 and highs of 0, and holds no bottle.
//!
//! The belts are lent bytes of the router's own, one per row. No other call is lent
//! them, and writing a rule alone changes one.

use crate::array::{first_row, program, row_of};
use crate::cycle::Cycle;
use crate::matrix::MAX_WIDTH;
use crate::shape::{Layout, Refusal, Shape};

/// A belt rule. A `B` is there for a value of each feature: bytes or a lent slice.
#[derive(Clone, Copy, Debug, PartialEq, Eq)]
pub struct Rule<B> {
    /// The lowest value of each feature that it holds.
    pub lows: B,
    /// The highest value of each feature that it holds.
    pub highs: B,
    /// The belt for the bottles that it holds.
    pub belt: u8,
}

/// Where a bottle goes.
#[derive(Clone, Copy, Debug, PartialEq, Eq)]
pub struct Route {
    /// The row whose rule holds it.
    pub row: usize,
    /// The belt of that row.
    pub belt: u8,
}

impl Rule<Vec<u8>> {
    /// The rule, lent.
    pub fn lend(&self) -> Rule<&[u8]> {
        Rule {
            lows: &self.lows,
            highs: &self.highs,
            belt: self.belt,
        }
    }
}

/// Writes a rule to a row: programs the row with the levels of its ranges, with all
/// that programming does, and then writes the row's belt.
pub fn rule(
    shape: Shape,
    cells: &mut [u8],
    belts: &mut [u8],
    row: usize,
    rule: Rule<&[u8]>,
    cycle: Cycle,
) -> (Cycle, Result<(), Refusal>) {
    match ask_rule(shape, cells, belts, row, rule) {
        Err(refusal) => (cycle, Err(refusal)),
        Ok(layout) => {
            let levels = columns(&layout, rule.lows, rule.highs);
            let programmed = program(shape, cells, row, &levels[..layout.width()], cycle);
            belts[row] = rule.belt;
            programmed
        }
    }
}

/// Question 8 is asked of all lows and highs before question 19.
fn ask_rule(
    shape: Shape,
    cells: &[u8],
    belts: &[u8],
    row: usize,
    rule: Rule<&[u8]>,
) -> Result<Layout, Refusal> {
    let layout = ask_belts(shape, cells, belts)?;
    layout.ask_length(rule.lows, layout.features())?;
    layout.ask_length(rule.highs, layout.features())?;
    layout.ask_row(row)?;
    layout.ask_levels(rule.lows)?;
    layout.ask_levels(rule.highs)?;
    layout.ask_ranges(rule.lows, rule.highs)?;
    Ok(layout)
}

/// The first row that matches a bottle of f values, and its belt. The row is first
/// match's, whatever was written there: a shorted one matches every bottle.
pub fn route(
    shape: Shape,
    cells: &[u8],
    lines: &[u8],
    belts: &[u8],
    values: &[u8],
) -> Result<Option<Route>, Refusal> {
    let layout = ask_belts(shape, cells, belts)?;
    layout.ask_length(lines, layout.rows())?;
    layout.ask_length(values, layout.features())?;
    layout.ask_levels(values)?;
    let inputs = columns(&layout, values, values);
    let found = first_row(&layout, cells, lines, &inputs[..layout.width()]);
    Ok(found.map(|row| Route {
        row,
        belt: belts[row],
    }))
}

/// Copies the lows and highs of the rule that stands in a row out, and gives its
/// belt. A cell of q or more lets every value pass, so a low that it stands for
/// is 0.
pub fn rule_at(
    shape: Shape,
    cells: &[u8],
    belts: &[u8],
    row: usize,
    lows: &mut [u8],
    highs: &mut [u8],
) -> Result<u8, Refusal> {
    let layout = ask_belts(shape, cells, belts)?;
    layout.ask_length(lows, layout.features())?;
    layout.ask_length(highs, layout.features())?;
    layout.ask_row(row)?;
    let pairs = row_of(&layout, cells, row).chunks_exact(2);
    for ((pair, low), high) in pairs.zip(lows).zip(highs) {
        *high = pair[0];
        *low = layout.highest().saturating_sub(pair[1]);
    }
    Ok(belts[row])
}

/// Questions 1 to 5, question 18, and question 6 for cells and belts.
fn ask_belts(shape: Shape, cells: &[u8], belts: &[u8]) -> Result<Layout, Refusal> {
    let layout = shape.layout()?;
    layout.ask_features()?;
    layout.ask_length(cells, layout.cells())?;
    layout.ask_length(belts, layout.rows())?;
    Ok(layout)
}

/// What ranges bring into the k rule columns: the levels of a rule, and the inputs
/// of a bottle, whose lows and highs are its values; all of them are below q. The
/// places after them hold 0 and are not used.
fn columns(layout: &Layout, lows: &[u8], highs: &[u8]) -> [u8; MAX_WIDTH] {
    let mut columns = [0; MAX_WIDTH];
    let ranges = lows.iter().zip(highs);
    for (pair, (low, high)) in columns.chunks_exact_mut(2).zip(ranges) {
        pair.copy_from_slice(&[*high, layout.highest() - low]);
    }
    columns
}
