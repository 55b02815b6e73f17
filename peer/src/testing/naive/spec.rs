//! Shapes, the parity-check matrix, codewords and match lines.

use super::schedule::{Lookup, Vector};
use crate::shape::Shape;

/// A shape that passed questions 1 to 5, with what follows from it.
#[derive(Clone, Debug, PartialEq, Eq)]
pub struct Spec {
    /// The shape.
    pub shape: Shape,
    /// q.
    pub levels: usize,
    /// r.
    pub checks: usize,
    /// The columns of the parity-check matrix.
    pub matrix: Vec<usize>,
}

/// Questions 1 to 5.
pub fn questions(shape: Shape) -> Result<Spec, u8> {
    if shape.radix < 2 || shape.radix > 255 {
        return Err(1);
    }
    if shape.digits < 1 || shape.digits > 8 || shape.radix.pow(shape.digits as u32) > 256 {
        return Err(2);
    }
    if shape.errors < 1 || shape.errors > 3 {
        return Err(3);
    }
    if shape.width < 1 || shape.width > 254 {
        return Err(4);
    }
    let checks = checks(shape.errors, shape.width).ok_or(4)?;
    if shape.rows < 1 || shape.rows > 4096 {
        return Err(5);
    }
    Ok(Spec {
        shape,
        levels: shape.radix.pow(shape.digits as u32),
        checks,
        matrix: matrix(shape.errors, shape.width, checks),
    })
}

/// The least number of check columns, by the formulas.
fn checks(errors: usize, width: usize) -> Option<usize> {
    match errors {
        1 => (width <= 254).then_some(1),
        2 => (1..=8).find(|&r| width < (1 << r) - r),
        _ => (1..=8).find(|&r| width + r <= 1 << (r - 1)),
    }
}

/// The columns of the parity-check matrix: sorted, then the check columns.
fn matrix(errors: usize, width: usize, checks: usize) -> Vec<usize> {
    let mut matrix: Vec<usize> = match errors {
        1 => vec![1; width],
        2 => (1..1usize << checks)
            .filter(|c| c.count_ones() >= 2)
            .collect(),
        _ => (1..1usize << checks)
            .filter(|c| c.count_ones() >= 3 && c.count_ones() % 2 == 1)
            .collect(),
    };
    matrix.sort_by_key(|c| (c.count_ones(), *c));
    matrix.truncate(width);
    assert_eq!(matrix.len(), width);
    matrix.extend((0..checks).map(|check| 1 << check));
    matrix
}

/// The digit of a level at a place.
fn digit(level: usize, radix: usize, place: usize) -> usize {
    level / radix.pow(place as u32) % radix
}

impl Spec {
    /// n.
    pub fn columns(&self) -> usize {
        self.shape.width + self.checks
    }

    /// m × n.
    pub fn cells(&self) -> usize {
        self.shape.rows * self.columns()
    }

    /// J(ℓ).
    pub fn support(&self, check: usize) -> Vec<usize> {
        (0..self.columns())
            .filter(|&column| self.matrix[column] / (1 << check) % 2 == 1)
            .collect()
    }

    /// W.
    pub fn weight(&self) -> usize {
        (0..self.checks)
            .map(|check| self.support(check).len())
            .sum()
    }

    /// The number of vectors of a cycle that skips so many low digits, the
    /// openings left out.
    pub fn lookups(&self, skip: usize) -> usize {
        (self.levels / self.shape.radix.pow(skip as u32) - 1) * self.weight()
    }

    /// The number of steps of such a cycle.
    pub fn steps(&self, skip: usize) -> usize {
        2 + self.lookups(skip)
    }

    /// Whether a row is sound, by the definition.
    pub fn is_sound(&self, row: &[u8]) -> bool {
        row.iter().all(|&cell| usize::from(cell) < self.levels) && self.sums_hold(row, 0)
    }

    /// Whether for each ℓ and each s from the given one on the digits s of the
    /// cells in J(ℓ) sum to 0 mod ρ.
    pub fn sums_hold(&self, row: &[u8], from: usize) -> bool {
        assert_eq!(row.len(), self.columns());
        let radix = self.shape.radix;
        (0..self.checks).all(|check| {
            let support = self.support(check);
            (from..self.shape.digits).all(|place| {
                let sum: usize = support
                    .iter()
                    .map(|&column| digit(row[column].into(), radix, place))
                    .sum();
                sum.is_multiple_of(radix)
            })
        })
    }

    /// The levels and then the check cells that make them sound.
    pub fn encoded(&self, levels: &[u8]) -> Vec<u8> {
        let mut row = levels.to_vec();
        row.extend((0..self.checks).map(|check| self.check_cell(check, levels)));
        row
    }

    /// The check cell of ℓ, found by trying the digits.
    fn check_cell(&self, check: usize, levels: &[u8]) -> u8 {
        let radix = self.shape.radix;
        let mut support = self.support(check);
        support.retain(|&column| column < self.shape.width);
        let mut cell = 0;
        for place in 0..self.shape.digits {
            let sum: usize = support
                .iter()
                .map(|&column| digit(levels[column].into(), radix, place))
                .sum();
            let wanted = (0..radix).find(|d| (sum + d).is_multiple_of(radix));
            cell += wanted.expect("a digit") * radix.pow(place as u32);
        }
        u8::try_from(cell).expect("a level")
    }

    /// The n inputs of a lookup: all 0 in the first opening, all but one in the
    /// second and in a vector.
    pub fn inputs(&self, lookup: Lookup) -> Vec<u16> {
        let mut inputs = vec![0; self.columns()];
        match lookup {
            Lookup::Zeros => {}
            Lookup::Beyond => inputs[0] = self.levels as u16,
            Lookup::Vector(vector) => inputs[vector.column] = self.input(vector),
        }
        inputs
    }

    /// The input of a vector's column.
    fn input(&self, vector: Vector) -> u16 {
        let level = vector.factor * self.shape.radix.pow(vector.digit as u32);
        assert!(level < self.levels, "a level");
        level as u16
    }

    /// One row of the cells.
    pub fn row<'a>(&self, cells: &'a [u8], row: usize) -> &'a [u8] {
        &cells[row * self.columns()..(row + 1) * self.columns()]
    }

    /// The match bytes of a full vector.
    pub fn match_bytes(&self, cells: &[u8], lines: &[u8], inputs: &[u16]) -> Vec<u8> {
        (0..self.shape.rows)
            .map(|row| self.match_byte(lines[row], self.row(cells, row), inputs))
            .collect()
    }

    /// A task lookup's full vector: the check columns are fed 0.
    pub fn task_inputs(&self, inputs: &[u16]) -> Vec<u16> {
        let mut full = inputs.to_vec();
        full.resize(self.columns(), 0);
        full
    }

    /// The match byte of a row under a full vector: always 1 where its line is
    /// shorted, and always 0 where it is dead.
    fn match_byte(&self, line: u8, row: &[u8], inputs: &[u16]) -> u8 {
        assert_eq!(row.len(), inputs.len());
        match line {
            0 => {
                let mut cells = row.iter().zip(inputs);
                u8::from(cells.all(|(&cell, &input)| self.answers(cell, input)))
            }
            2 => 1,
            _ => 0,
        }
    }

    /// Whether a cell answers 1 to an input: never to q.
    pub fn answers(&self, cell: u8, input: u16) -> bool {
        usize::from(input) != self.levels && input <= u16::from(cell)
    }
}
