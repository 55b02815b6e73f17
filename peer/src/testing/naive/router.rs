//! Belt rules as ranges.

use super::calls::{ask_lines, first_match, program};
use super::spec::{questions, Spec};
use super::{all_below, ask};
use crate::list::Array;
use crate::router::{Route, Rule};

/// Whether a rule holds a bottle: each value is from the low to the high.
pub fn holds(rule: &Rule<Vec<u8>>, values: &[u8]) -> bool {
    (0..values.len()).all(|feature| {
        rule.lows[feature] <= values[feature] && values[feature] <= rule.highs[feature]
    })
}

/// The levels of a rule: for each feature its high, and then q − 1 − low.
pub fn levels_of(spec: &Spec, rule: &Rule<Vec<u8>>) -> Vec<u8> {
    let mut levels = Vec::new();
    for feature in 0..rule.lows.len() {
        levels.push(rule.highs[feature]);
        levels.push(mirrored(spec, rule.lows[feature]));
    }
    levels
}

/// The inputs of a bottle: for each feature its value x, and then q − 1 − x.
pub fn inputs_of(spec: &Spec, values: &[u8]) -> Vec<u16> {
    let mut inputs = Vec::new();
    for &value in values {
        inputs.push(value.into());
        inputs.push(mirrored(spec, value).into());
    }
    inputs
}

/// q − 1 − the level.
fn mirrored(spec: &Spec, level: u8) -> u8 {
    let mirrored = spec.levels - 1 - usize::from(level);
    u8::try_from(mirrored).expect("a level")
}

/// Questions 1 to 5, question 18, and question 6 for cells and belts.
fn ask_belts(array: &Array) -> Result<Spec, u8> {
    let spec = questions(array.shape)?;
    ask(array.shape.width.is_multiple_of(2), 18)?;
    ask(array.state.cells.len() == spec.cells(), 6)?;
    ask(array.belts.len() == array.shape.rows, 6)?;
    Ok(spec)
}

/// Question 6 for what there is one of for each feature.
fn ask_features(array: &Array, of_features: &[u8]) -> Result<(), u8> {
    ask(2 * of_features.len() == array.shape.width, 6)
}

/// What programming the levels of the rule does, and then the row's belt.
pub(super) fn rule(array: &mut Array, row: usize, rule: &Rule<Vec<u8>>) -> Result<(), u8> {
    let spec = ask_belts(array)?;
    ask_features(array, &rule.lows)?;
    ask_features(array, &rule.highs)?;
    ask(row < array.shape.rows, 7)?;
    ask(all_below(&rule.lows, spec.levels), 8)?;
    ask(all_below(&rule.highs, spec.levels), 8)?;
    for feature in 0..rule.lows.len() {
        ask(rule.lows[feature] <= rule.highs[feature], 19)?;
    }
    program(array, row, &levels_of(&spec, rule))?;
    array.belts[row] = rule.belt;
    Ok(())
}

/// First match's row and its belt.
pub(super) fn route(array: &Array, values: &[u8]) -> Result<Option<Route>, u8> {
    let spec = ask_belts(array)?;
    ask_lines(array)?;
    ask_features(array, values)?;
    ask(all_below(values, spec.levels), 8)?;
    match first_match(array, &inputs_of(&spec, values))? {
        None => Ok(None),
        Some(row) => Ok(Some(Route {
            row,
            belt: array.belts[row],
        })),
    }
}

/// The high of a feature is the cell of its first column. Its low is q − 1 less the
/// cell of the second one, and 0 where that cell is no level.
pub(super) fn rule_at(
    array: &Array,
    row: usize,
    lows: &mut [u8],
    highs: &mut [u8],
) -> Result<u8, u8> {
    let spec = ask_belts(array)?;
    ask_features(array, lows)?;
    ask_features(array, highs)?;
    ask(row < array.shape.rows, 7)?;
    let cells = spec.row(&array.state.cells, row);
    for feature in 0..lows.len() {
        let second = cells[2 * feature + 1];
        highs[feature] = cells[2 * feature];
        lows[feature] = match usize::from(second) < spec.levels {
            true => mirrored(&spec, second),
            false => 0,
        };
    }
    Ok(array.belts[row])
}
