//! The code of a row: the encoder of its check cells, and the codeword test.

use crate::matrix::MAX_CHECKS;
use crate::shape::Layout;

/// The largest number of digits: 2^8 is the largest number of levels.
const MAX_DIGITS: usize = 8;

/// One number for each digit of a level, the least digit first.
type Digits = [u16; MAX_DIGITS];

/// For each check, the sums of the digits of its cells. At most 255 cells
/// with digits of at most 254 are summed, so that two bytes hold a sum.
type Sums = [Digits; MAX_CHECKS];

/// Writes the check cells of a row of n cells whose rule cells hold levels
/// below q. The row is then sound, and no other check cells make it so.
///
/// # Panics
///
/// If the row has not n cells.
pub fn encode(layout: &Layout, row: &mut [u8]) {
    assert_eq!(row.len(), layout.columns(), "a row has n cells");
    let (rule_cells, check_cells) = row.split_at_mut(layout.width());
    let sums = digit_sums(layout, rule_cells);
    for (cell, sums) in check_cells.iter_mut().zip(&sums) {
        *cell = balancing_level(layout, sums);
    }
}

/// Whether a row of n cells is sound, a codeword: all its cells are below q, and
/// each digit sums to 0 mod the radix over each check.
///
/// # Panics
///
/// If the row has not n cells.
pub fn is_codeword(layout: &Layout, row: &[u8]) -> bool {
    assert_eq!(row.len(), layout.columns(), "a row has n cells");
    let radix = layout.radix() as u16;
    layout.ask_levels(row).is_ok()
        && digit_sums(layout, row)[..layout.checks()]
            .iter()
            .flat_map(|sums| &sums[..layout.digits()])
            .all(|sum| sum % radix == 0)
}

/// Sums the digits of the cells, which stand in the columns from 0 on.
fn digit_sums(layout: &Layout, cells: &[u8]) -> Sums {
    let mut sums = [[0; MAX_DIGITS]; MAX_CHECKS];
    for (ones, &cell) in layout.matrix().zip(cells) {
        let digits = digits(layout, cell);
        for (check, sums) in sums.iter_mut().enumerate().take(layout.checks()) {
            let one = u16::from(ones >> check & 1);
            for (sum, digit) in sums.iter_mut().zip(&digits) {
                *sum += one * digit;
            }
        }
    }
    sums
}

/// The digits of a level; those past b are 0.
fn digits(layout: &Layout, level: u8) -> Digits {
    let radix = layout.radix() as u8;
    let mut digits = [0; MAX_DIGITS];
    let mut rest = level;
    for digit in digits.iter_mut().take(layout.digits()) {
        *digit = u16::from(rest % radix);
        rest /= radix;
    }
    digits
}

/// The level whose digits bring the sums to 0 mod the radix.
fn balancing_level(layout: &Layout, sums: &Digits) -> u8 {
    let radix = layout.radix() as u16;
    let level = sums[..layout.digits()].iter().rev().fold(0, |level, sum| {
        level * radix + (radix - sum % radix) % radix
    });
    level as u8
}
