//! The log of a list, by document 01: what the list did. It is fed the shape and
//! the calls with their arguments, and none of the library's answers.

use std::mem;

use crate::call::Call;
use crate::router::Rule;
use crate::shape::Shape;
use crate::testing::naive::router::levels_of;
use crate::testing::naive::spec::{questions, Spec};
use crate::testing::verdict::Row;

/// Where the log's cycle is.
#[derive(Clone, Copy, Debug, PartialEq, Eq)]
pub enum LoggedCycle {
    /// There is none.
    None,
    /// Steps are still to come.
    Open,
    /// All of them were made.
    Ended,
}

/// What was written to a row last.
#[derive(Clone, Debug, PartialEq, Eq)]
pub enum Last {
    /// Nothing since the fresh array or a clear: the row holds no rule.
    Nothing,
    /// A belt rule.
    Rule(Rule<Vec<u8>>),
    /// Levels or a finished row, which are no rule.
    Plain,
}

/// What a list did.
#[derive(Clone, Debug, PartialEq, Eq)]
pub struct Log {
    /// The shape.
    pub spec: Spec,
    /// Each row as it was written.
    pub written: Vec<Vec<u8>>,
    /// Each row as it stands.
    pub standing: Vec<Vec<u8>>,
    /// What was written to each row last.
    pub last: Vec<Last>,
    /// The lines.
    pub lines: Vec<u8>,
    /// The belts.
    pub belts: Vec<u8>,
    /// Where the cycle is.
    pub cycle: LoggedCycle,
    /// The steps of the cycle, 0 where there is none.
    pub count: usize,
    /// The z of the cycle, 0 where there is none.
    pub skip: usize,
    /// Whether a cell drifted or a line was set since the start, to whatever.
    pub mark: bool,
    /// Whether a byte of cells or lines became another one by that. It stays a
    /// change where it is undone.
    pub changed: bool,
}

impl Log {
    /// The log of the list without a call, where all belts are 0.
    ///
    /// # Panics
    ///
    /// If the shape is not good.
    pub fn new(shape: Shape) -> Log {
        let spec = questions(shape).expect("a good shape");
        let zeros = vec![vec![0; spec.columns()]; shape.rows];
        Log {
            spec,
            written: zeros.clone(),
            standing: zeros,
            last: vec![Last::Nothing; shape.rows],
            lines: vec![0; shape.rows],
            belts: vec![0; shape.rows],
            cycle: LoggedCycle::None,
            count: 0,
            skip: 0,
            mark: false,
            changed: false,
        }
    }

    /// The log after one more call.
    ///
    /// # Panics
    ///
    /// If it is no call of demand 3's lists.
    pub fn feed(&mut self, call: &Call<Vec<u8>>) {
        match call {
            Call::Clear => self.clear(),
            Call::Program { row, levels } => self.program(*row, levels),
            Call::Commit { row, finished } => self.commit(*row, finished),
            Call::Rule { row, rule } => self.rule(*row, rule),
            Call::Drift { row, column, level } => self.drift(*row, *column, *level),
            Call::Line { row, byte } => self.line(*row, *byte),
            Call::Ask { .. } | Call::Lookup { .. } | Call::Route { .. } | Call::RuleAt { .. } => {}
            Call::Start { skip } => self.start(*skip),
            Call::Step { matches } => self.step(matches.len()),
            Call::Steps { most, matches } => self.steps(*most, matches.len()),
            Call::Sizes { .. }
            | Call::Run { .. }
            | Call::Panel
            | Call::FirstMatch { .. }
            | Call::Sound { .. }
            | Call::Read { .. } => panic!("{:?} is no call of these lists", call.name()),
        }
    }

    fn below(&self, levels: &[u8]) -> bool {
        levels
            .iter()
            .all(|&level| usize::from(level) < self.spec.levels)
    }

    /// The belts stay.
    fn clear(&mut self) {
        let belts = mem::take(&mut self.belts);
        *self = Log {
            belts,
            ..Log::new(self.spec.shape)
        };
    }

    fn program(&mut self, row: usize, levels: &[u8]) {
        if levels.len() == self.spec.shape.width && self.below(levels) {
            self.write_row(row, self.spec.encoded(levels), Last::Plain);
        }
    }

    fn commit(&mut self, row: usize, finished: &[u8]) {
        if finished.len() == self.spec.columns() && self.spec.is_sound(finished) {
            self.write_row(row, finished.to_vec(), Last::Plain);
        }
    }

    fn rule(&mut self, row: usize, rule: &Rule<Vec<u8>>) {
        let Rule { lows, highs, belt } = rule;
        let two_columns = |values: &[u8]| 2 * values.len() == self.spec.shape.width;
        let lengths = two_columns(lows) && two_columns(highs);
        let ranges = lows.iter().zip(highs).all(|(low, high)| low <= high);
        if lengths && self.below(lows) && self.below(highs) && ranges {
            let cells = self.spec.encoded(&levels_of(&self.spec, rule));
            self.write_row(row, cells, Last::Rule(rule.clone()));
            if let Some(kept) = self.belts.get_mut(row) {
                *kept = *belt;
            }
        }
    }

    /// A row is written, where there is such a one: both its forms become the
    /// cells, and there is no cycle any more.
    fn write_row(&mut self, row: usize, cells: Vec<u8>, last: Last) {
        if row < self.spec.shape.rows {
            self.written[row] = cells.clone();
            self.standing[row] = cells;
            self.last[row] = last;
            self.cycle = LoggedCycle::None;
            self.count = 0;
            self.skip = 0;
        }
    }

    fn drift(&mut self, row: usize, column: usize, level: u8) {
        if row < self.spec.shape.rows && column < self.spec.columns() && self.below(&[level]) {
            self.mark = true;
            self.changed |= self.standing[row][column] != level;
            self.standing[row][column] = level;
        }
    }

    fn line(&mut self, row: usize, byte: u8) {
        if row < self.spec.shape.rows && byte <= 2 {
            self.mark = true;
            self.changed |= self.lines[row] != byte;
            self.lines[row] = byte;
        }
    }

    fn start(&mut self, skip: usize) {
        if skip < self.spec.shape.digits {
            self.cycle = LoggedCycle::Open;
            self.count = 0;
            self.skip = skip;
            self.mark = false;
            self.changed = false;
        }
    }

    fn step(&mut self, match_bytes: usize) {
        if self.cycle == LoggedCycle::Open && match_bytes == self.spec.shape.rows {
            self.count += 1;
            if self.count == self.last_count() {
                self.cycle = LoggedCycle::Ended;
            }
        }
    }

    /// So many steps. No cycle has more than its last count says, so that those
    /// above it change nothing.
    fn steps(&mut self, most: usize, match_bytes: usize) {
        for _ in 0..most.min(self.last_count()) {
            self.step(match_bytes);
        }
    }

    /// The count at which the cycle is ended.
    fn last_count(&self) -> usize {
        let levels = self.spec.levels / self.spec.shape.radix.pow(self.skip as u32);
        2 + (levels - 1) * self.spec.weight()
    }

    /// The rows in both forms, with their lines.
    pub fn rows(&self) -> impl Iterator<Item = Row<'_>> {
        let forms = self.written.iter().zip(&self.standing);
        forms
            .zip(&self.lines)
            .map(|((written, standing), &line)| Row {
                written,
                standing,
                line,
            })
    }
}
