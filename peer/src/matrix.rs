//! The parity-check matrix.
//!
//! A column of the matrix is a number of as many bits as there are check
//! columns; bit ℓ says whether the column has a one in check ℓ. Check column
//! k + ℓ is 2^ℓ, so only the rule columns are kept in tables.

use crate::shape::{Layout, Shape};

/// The largest number of check columns.
pub const MAX_CHECKS: usize = 8;

/// The largest number of rule columns.
pub const MAX_WIDTH: usize = 254;

/// The largest number of rule columns for each number of changed cells to be
/// caught (1 to 3) and each number of check columns (1 to 8). One changed cell
/// is always caught with one check column.
pub const LARGEST_WIDTH: [[usize; MAX_CHECKS]; Shape::MAX_ERRORS] = [
    [MAX_WIDTH, 0, 0, 0, 0, 0, 0, 0],
    [0, 1, 4, 11, 26, 57, 120, 247],
    [0, 0, 1, 4, 11, 26, 57, 120],
];

/// The 255 nonzero bytes, fewest ones first, and increasing among equals.
pub const ORDER: [u8; 255] = order();

const fn order() -> [u8; 255] {
    let mut table = [0; 255];
    let mut filled = 0;
    let mut ones = 1;
    while ones <= 8 {
        let mut byte = u8::MIN;
        while byte < u8::MAX {
            byte += 1;
            if byte.count_ones() == ones {
                table[filled] = byte;
                filled += 1;
            }
        }
        ones += 1;
    }
    table
}

/// The rule columns for each number of changed cells and of check columns, as
/// many as fit; the places after them hold 0 and are never used.
static RULE_COLUMNS: [[[u8; MAX_WIDTH]; MAX_CHECKS]; Shape::MAX_ERRORS] = all_rule_columns();

const fn all_rule_columns() -> [[[u8; MAX_WIDTH]; MAX_CHECKS]; Shape::MAX_ERRORS] {
    let mut tables = [[[0; MAX_WIDTH]; MAX_CHECKS]; Shape::MAX_ERRORS];
    let mut checks = 1;
    while checks <= MAX_CHECKS {
        tables[0][checks - 1] = [1; MAX_WIDTH];
        tables[1][checks - 1] = chosen(2, checks);
        tables[2][checks - 1] = chosen(3, checks);
        checks += 1;
    }
    tables
}

/// The entries of the order below 2^checks that may serve as rule columns.
const fn chosen(errors: usize, checks: usize) -> [u8; MAX_WIDTH] {
    let mut matrix = [0; MAX_WIDTH];
    let mut filled = 0;
    let mut place = 0;
    while place < ORDER.len() {
        let column = ORDER[place];
        if (column as usize) < 1 << checks && may_be_rule(errors, column) {
            matrix[filled] = column;
            filled += 1;
        }
        place += 1;
    }
    matrix
}

/// Two ones or more for two changed cells; an odd count of ones, three or
/// more, for three.
const fn may_be_rule(errors: usize, column: u8) -> bool {
    let ones = column.count_ones();
    ones >= 2 && (errors == 2 || ones % 2 == 1)
}

/// The least number of check columns that carries the rule columns, or none
/// where there is no rule column or no number carries them.
pub(crate) fn checks(errors: usize, width: usize) -> Option<usize> {
    if width == 0 {
        return None;
    }
    let least = LARGEST_WIDTH[errors - 1]
        .iter()
        .position(|&largest| width <= largest)?;
    Some(least + 1)
}

/// The first so many rule columns beside so many check columns, which need not be
/// the least number that carries them.
///
/// # Panics
///
/// If they do not carry so many.
pub fn rule_columns(errors: usize, checks: usize, width: usize) -> &'static [u8] {
    let largest = LARGEST_WIDTH[errors - 1][checks - 1];
    &RULE_COLUMNS[errors - 1][checks - 1][..largest][..width]
}

impl Layout {
    /// The columns of the parity-check matrix: rule columns, then check
    /// columns.
    pub fn matrix(&self) -> impl Iterator<Item = u8> {
        let check_columns = (0..self.checks()).map(|check| 1 << check);
        self.rules().iter().copied().chain(check_columns)
    }

    /// J(ℓ): the columns with a one in the check, in increasing order.
    ///
    /// # Panics
    ///
    /// If there is no such check.
    pub fn support(&self, check: usize) -> impl Iterator<Item = usize> {
        assert!(check < self.checks(), "no such check");
        self.matrix()
            .enumerate()
            .filter(move |(_, ones)| ones >> check & 1 == 1)
            .map(|(column, _)| column)
    }

    /// The size of J(ℓ): the rule columns with a one in the check, and its own
    /// check column.
    ///
    /// # Panics
    ///
    /// If there is no such check.
    pub fn support_size(&self, check: usize) -> usize {
        assert!(check < self.checks(), "no such check");
        ones_in_check(self.rules(), check) + 1
    }

    /// The sizes of J(0) to J(ℓ − 1) together.
    ///
    /// # Panics
    ///
    /// If there is no check ℓ.
    pub fn weight_before(&self, check: usize) -> usize {
        assert!(check < self.checks(), "no such check");
        ones_before_check(self.rules(), check) + check
    }

    /// W: the sizes of all J(ℓ) together.
    pub fn weight(&self) -> usize {
        (0..self.checks())
            .map(|check| self.support_size(check))
            .sum()
    }

    /// The number of openings of a detection cycle.
    pub const OPENINGS: usize = 2;

    /// The number of test vectors in a detection cycle that skips so many low
    /// digits: its openings are left out.
    ///
    /// # Panics
    ///
    /// If there are not more digits than that.
    pub fn lookups(&self, skip: usize) -> usize {
        (self.levels_above(skip) - 1) * self.weight()
    }

    /// The number of steps of such a cycle: one for each opening, and one for each
    /// test vector.
    ///
    /// # Panics
    ///
    /// If there are not more digits than that.
    pub fn steps(&self, skip: usize) -> usize {
        Self::OPENINGS + self.lookups(skip)
    }
}

/// How many columns have a one in the check. There are at most 254 of them, so
/// a byte holds the count.
pub(crate) fn ones_in_check(matrix: &[u8], check: usize) -> usize {
    let ones: u8 = matrix.iter().map(|column| column >> check & 1).sum();
    usize::from(ones)
}

/// How many ones the columns have in the checks before the given one.
pub(crate) fn ones_before_check(matrix: &[u8], check: usize) -> usize {
    let earlier = (1u8 << check) - 1;
    let ones: u16 = matrix
        .iter()
        .map(|column| (column & earlier).count_ones() as u16)
        .sum();
    usize::from(ones)
}
