//! The shape of an array, and the questions that concern it alone.

use std::fmt::{self, Display};

use crate::matrix;

/// Why a call or a job was refused. The number is that of the question which
/// was answered with no.
#[derive(Clone, Copy, Debug, PartialEq, Eq, Hash)]
#[repr(u8)]
pub enum Refusal {
    /// The radix is not from 2 to 255.
    Radix = 1,
    /// There is no digit, or there are more than 256 levels.
    Digits = 2,
    /// The number of changed cells to be caught is not 1, 2 or 3.
    Errors = 3,
    /// There is no rule column, or there are too many.
    Width = 4,
    /// There is no row, or there are too many.
    Rows = 5,
    /// A lent buffer has the wrong length.
    Length = 6,
    /// The row or the column lies outside the array.
    Place = 7,
    /// A given level or value is not below the number of levels, or an input is
    /// above it.
    Level = 8,
    /// The record is not one that awaits a step on this shape.
    Record = 9,
    /// The job has too many bytes.
    JobSize = 10,
    /// The job has no version byte, or another version.
    JobVersion = 11,
    /// The job's length field is absent, wrong or too small.
    JobLength = 12,
    /// The job's array has too many cells.
    JobCells = 13,
    /// The job's levels or drifts are not all there, or bytes are left over.
    JobContents = 14,
    /// A cycle is to skip as many low digits as there are, or more.
    Skip = 15,
    /// A line byte to be set is above 2.
    Line = 16,
    /// A row to be committed is not sound.
    Unsound = 17,
    /// The rule columns do not pair up to features.
    Features = 18,
    /// A range of a rule has its low above its high.
    Range = 19,
}

impl Refusal {
    /// The number of the question that was answered with no.
    pub fn number(self) -> u8 {
        self as u8
    }
}

impl From<Refusal> for u8 {
    fn from(refusal: Refusal) -> u8 {
        refusal.number()
    }
}

/// The five numbers that fix an array. Any values may stand here; the
/// questions of [`Shape::layout`] tell the good ones from the rest.
#[derive(Clone, Copy, Debug, PartialEq, Eq, Hash)]
pub struct Shape {
    /// ρ, the radix of a level's digits.
    pub radix: usize,
    /// b, the number of digits of a level.
    pub digits: usize,
    /// τ, the number of changed cells per row to be caught.
    pub errors: usize,
    /// k, the number of rule columns.
    pub width: usize,
    /// m, the number of rows.
    pub rows: usize,
}

/// A shape that passed questions 1 to 5, with what follows from it.
#[derive(Clone, Copy, Debug, PartialEq, Eq)]
pub struct Layout {
    shape: Shape,
    levels: usize,
    checks: usize,
    rules: &'static [u8],
}

impl Shape {
    /// The smallest radix.
    pub const MIN_RADIX: usize = 2;
    /// The largest radix.
    pub const MAX_RADIX: usize = 255;
    /// The largest number of levels.
    pub const MAX_LEVELS: usize = 256;
    /// The largest number of changed cells to be caught.
    pub const MAX_ERRORS: usize = 3;
    /// The largest number of rows.
    pub const MAX_ROWS: usize = 4096;
    /// The rows of a block; the last block of an array may have fewer.
    pub const BLOCK: usize = 64;
    /// The largest line byte that a call sets.
    pub const MAX_LINE: u8 = 2;

    /// The shape with ρ, b, τ, k and m, in this order.
    pub const fn new(
        radix: usize,
        digits: usize,
        errors: usize,
        width: usize,
        rows: usize,
    ) -> Shape {
        Shape {
            radix,
            digits,
            errors,
            width,
            rows,
        }
    }

    /// Asks questions 1 to 5.
    pub fn layout(self) -> Result<Layout, Refusal> {
        if !(Self::MIN_RADIX..=Self::MAX_RADIX).contains(&self.radix) {
            return Err(Refusal::Radix);
        }
        let levels = levels(self.radix, self.digits).ok_or(Refusal::Digits)?;
        if !(1..=Self::MAX_ERRORS).contains(&self.errors) {
            return Err(Refusal::Errors);
        }
        let checks = matrix::checks(self.errors, self.width).ok_or(Refusal::Width)?;
        if !(1..=Self::MAX_ROWS).contains(&self.rows) {
            return Err(Refusal::Rows);
        }
        Ok(Layout {
            shape: self,
            levels,
            checks,
            rules: matrix::rule_columns(self.errors, checks, self.width),
        })
    }
}

impl Display for Shape {
    fn fmt(&self, f: &mut fmt::Formatter) -> fmt::Result {
        let Shape {
            radix,
            digits,
            errors,
            width,
            rows,
        } = self;
        write!(
            f,
            "radix {radix} digits {digits} errors {errors} width {width} rows {rows}"
        )
    }
}

/// The radix to the power of the digits, or none where there is no digit or
/// the power is above the limit. The loop ends after nine turns at most, since
/// the radix is 2 or more.
fn levels(radix: usize, digits: usize) -> Option<usize> {
    if digits == 0 {
        return None;
    }
    let mut levels = 1;
    for _ in 0..digits {
        levels *= radix;
        if levels > Shape::MAX_LEVELS {
            return None;
        }
    }
    Some(levels)
}

impl Layout {
    /// The shape that passed.
    pub fn shape(&self) -> Shape {
        self.shape
    }

    /// ρ, the radix.
    pub fn radix(&self) -> usize {
        self.shape.radix
    }

    /// b, the number of digits.
    pub fn digits(&self) -> usize {
        self.shape.digits
    }

    /// k, the number of rule columns.
    pub fn width(&self) -> usize {
        self.shape.width
    }

    /// m, the number of rows.
    pub fn rows(&self) -> usize {
        self.shape.rows
    }

    /// q, the number of levels.
    pub fn levels(&self) -> usize {
        self.levels
    }

    /// q / ρ^z, the number of levels that are told apart without their z low
    /// digits.
    ///
    /// # Panics
    ///
    /// If there are not more digits than that.
    #[inline]
    pub fn levels_above(&self, skip: usize) -> usize {
        assert!(skip < self.digits(), "no digit is left");
        self.radix().pow((self.digits() - skip) as u32)
    }

    /// q − 1, the highest level.
    pub fn highest(&self) -> u8 {
        (self.levels - 1) as u8
    }

    /// r, the number of check columns.
    pub fn checks(&self) -> usize {
        self.checks
    }

    /// n, the number of all columns.
    pub fn columns(&self) -> usize {
        self.shape.width + self.checks
    }

    /// m × n, the number of cells.
    pub fn cells(&self) -> usize {
        self.shape.rows * self.columns()
    }

    /// ⌈m / 64⌉, the number of blocks of rows.
    pub fn blocks(&self) -> usize {
        self.shape.rows.div_ceil(Shape::BLOCK)
    }

    /// f = k / 2, the number of features of a rule, where k is even.
    pub fn features(&self) -> usize {
        self.shape.width / 2
    }

    /// The rule columns of the parity-check matrix, in order.
    pub fn rules(&self) -> &'static [u8] {
        self.rules
    }

    /// Question 18: every feature has two rule columns.
    pub(crate) fn ask_features(&self) -> Result<(), Refusal> {
        if self.width().is_multiple_of(2) {
            Ok(())
        } else {
            Err(Refusal::Features)
        }
    }

    /// Question 15 for a number of low digits to skip.
    pub(crate) fn ask_skip(&self, skip: usize) -> Result<(), Refusal> {
        if skip < self.digits() {
            Ok(())
        } else {
            Err(Refusal::Skip)
        }
    }

    /// Question 6 for one buffer.
    pub(crate) fn ask_length<T>(&self, buffer: &[T], length: usize) -> Result<(), Refusal> {
        if buffer.len() == length {
            Ok(())
        } else {
            Err(Refusal::Length)
        }
    }

    /// Question 7 for a row.
    pub(crate) fn ask_row(&self, row: usize) -> Result<(), Refusal> {
        if row < self.rows() {
            Ok(())
        } else {
            Err(Refusal::Place)
        }
    }

    /// Question 7 for a column.
    pub(crate) fn ask_column(&self, column: usize) -> Result<(), Refusal> {
        if column < self.columns() {
            Ok(())
        } else {
            Err(Refusal::Place)
        }
    }

    /// Question 8 for levels, or for the values of a bottle.
    pub(crate) fn ask_levels(&self, levels: &[u8]) -> Result<(), Refusal> {
        if levels.iter().all(|&level| usize::from(level) < self.levels) {
            Ok(())
        } else {
            Err(Refusal::Level)
        }
    }

    /// Question 8 for the inputs of a lookup, which may be q.
    pub(crate) fn ask_inputs(&self, inputs: &[u16]) -> Result<(), Refusal> {
        if inputs
            .iter()
            .all(|&input| usize::from(input) <= self.levels)
        {
            Ok(())
        } else {
            Err(Refusal::Level)
        }
    }

    /// Question 16 for a line byte to be set.
    pub(crate) fn ask_line(&self, byte: u8) -> Result<(), Refusal> {
        if byte <= Shape::MAX_LINE {
            Ok(())
        } else {
            Err(Refusal::Line)
        }
    }

    /// Question 19 for the ranges of a rule.
    pub(crate) fn ask_ranges(&self, lows: &[u8], highs: &[u8]) -> Result<(), Refusal> {
        if lows.iter().zip(highs).all(|(low, high)| low <= high) {
            Ok(())
        } else {
            Err(Refusal::Range)
        }
    }
}
