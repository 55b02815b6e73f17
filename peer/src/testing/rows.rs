//! Rows of cells: finished ones, such with something wrong in them, and all.

use crate::code::encode;
use crate::shape::Layout;
use crate::testing::random::Random;

/// The number of bytes there are.
const BYTES: usize = 256;

/// The finished row of k levels.
pub fn finished_row(layout: &Layout, levels: &[u8]) -> Vec<u8> {
    let mut row = levels.to_vec();
    row.resize(layout.columns(), 0);
    encode(layout, &mut row);
    row
}

/// The finished row of any levels.
pub fn sound_row(random: &mut Random, layout: &Layout) -> Vec<u8> {
    let levels = random.levels(layout.levels(), layout.width());
    finished_row(layout, &levels)
}

/// One cell of a row of levels gets another byte, half the time a level. A sound
/// row is not sound then.
pub fn damage(random: &mut Random, layout: &Layout, row: &mut [u8]) {
    let bound = random.pick(&[layout.levels(), BYTES]);
    let column = random.below(row.len());
    let other = usize::from(row[column]) + random.between(1, bound - 1);
    row[column] = (other % bound) as u8;
}

/// A row to commit: mostly the one that an ask wrote, with a cell damaged or not;
/// else another sound one, any levels, or any bytes.
pub fn any_row(random: &mut Random, layout: &Layout, asked: &[u8]) -> Vec<u8> {
    match random.below(8) {
        0..=2 => asked.to_vec(),
        3 | 4 => {
            let mut row = asked.to_vec();
            damage(random, layout, &mut row);
            row
        }
        5 => sound_row(random, layout),
        6 => random.levels(layout.levels(), layout.columns()),
        _ => random.bytes(layout.columns()),
    }
}

/// All rows of so many cells, each of them one of the bytes.
pub fn all_rows(bytes: &[u8], columns: usize) -> impl Iterator<Item = Vec<u8>> + '_ {
    let cell = move |number: usize, column: usize| {
        let turn = bytes.len().pow(column as u32);
        bytes[number / turn % bytes.len()]
    };
    (0..bytes.len().pow(columns as u32))
        .map(move |number| (0..columns).map(|column| cell(number, column)).collect())
}
