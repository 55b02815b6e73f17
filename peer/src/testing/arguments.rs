//! The arguments of a call by kind, to be changed, where it has them.

use crate::call::Call;
use crate::router::Rule;

impl<B> Call<B> {
    /// The row.
    pub fn row_mut(&mut self) -> Option<&mut usize> {
        match self {
            Call::Program { row, .. }
            | Call::Ask { row, .. }
            | Call::Commit { row, .. }
            | Call::Drift { row, .. }
            | Call::Line { row, .. }
            | Call::Sound { row }
            | Call::Read { row, .. }
            | Call::Rule { row, .. }
            | Call::RuleAt { row, .. } => Some(row),
            _ => None,
        }
    }

    /// The column.
    pub fn column_mut(&mut self) -> Option<&mut usize> {
        match self {
            Call::Drift { column, .. } => Some(column),
            _ => None,
        }
    }

    /// The level for one cell.
    pub fn level_mut(&mut self) -> Option<&mut u8> {
        match self {
            Call::Drift { level, .. } => Some(level),
            _ => None,
        }
    }

    /// The line byte.
    pub fn line_mut(&mut self) -> Option<&mut u8> {
        match self {
            Call::Line { byte, .. } => Some(byte),
            _ => None,
        }
    }

    /// The number of low digits that a cycle skips.
    pub fn skip_mut(&mut self) -> Option<&mut usize> {
        match self {
            Call::Sizes { skip } | Call::Start { skip } | Call::Run { skip, .. } => Some(skip),
            _ => None,
        }
    }

    /// The largest number of steps.
    pub fn most_mut(&mut self) -> Option<&mut usize> {
        match self {
            Call::Steps { most, .. } => Some(most),
            _ => None,
        }
    }

    /// The belt rule.
    pub fn rule_mut(&mut self) -> Option<&mut Rule<Vec<u8>>> {
        match self {
            Call::Rule { rule, .. } => Some(rule),
            _ => None,
        }
    }

    /// The levels of a row, the cells of a finished one, or the values of a bottle.
    pub fn levels_mut(&mut self) -> Option<&mut Vec<u8>> {
        match self {
            Call::Program { levels, .. } | Call::Ask { levels, .. } => Some(levels),
            Call::Commit { finished, .. } => Some(finished),
            Call::Route { values } => Some(values),
            _ => None,
        }
    }

    /// The inputs of a lookup.
    pub fn inputs_mut(&mut self) -> Option<&mut Vec<u16>> {
        match self {
            Call::Lookup { inputs, .. } | Call::FirstMatch { inputs } => Some(inputs),
            _ => None,
        }
    }
}
