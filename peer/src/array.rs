//! The calls on an array outside its detection cycle.

use crate::code::{encode, is_codeword};
use crate::comparator::{answers, is_shorted, is_sound, match_beyond, match_byte};
use crate::cycle::Cycle;
use crate::matrix::MAX_WIDTH;
use crate::shape::{Layout, Refusal, Shape};
use crate::state::State;

/// Makes the fresh array: all bytes of the state 0, record idle.
pub fn clear(shape: Shape, state: State<&mut [u8]>, cycle: Cycle) -> (Cycle, Result<(), Refusal>) {
    match state.ask(shape) {
        Err(refusal) => (cycle, Err(refusal)),
        Ok(_) => {
            for buffer in state.into_array() {
                buffer.fill(0);
            }
            (Cycle::IDLE, Ok(()))
        }
    }
}

/// Programs a row with k levels and their check cells. The record becomes
/// idle. The row's line stays as it is.
pub fn program(
    shape: Shape,
    cells: &mut [u8],
    row: usize,
    levels: &[u8],
    cycle: Cycle,
) -> (Cycle, Result<(), Refusal>) {
    let asked = ask_program(shape, cells, row, levels);
    write_row(asked, cells, row, cycle, |layout, row| {
        finish(layout, levels, row);
    })
}

fn ask_program(shape: Shape, cells: &[u8], row: usize, levels: &[u8]) -> Result<Layout, Refusal> {
    let layout = ask_cells(shape, cells)?;
    ask_levels_for(&layout, row, levels, layout.width())?;
    Ok(layout)
}

/// Writes the finished row into a buffer of n cells that programming a row with
/// k levels would write, and gives the number of cells in which the row as it
/// stands differs from it. The array stays as it is.
pub fn ask(
    shape: Shape,
    cells: &[u8],
    row: usize,
    levels: &[u8],
    finished: &mut [u8],
) -> Result<usize, Refusal> {
    let layout = ask_cells(shape, cells)?;
    layout.ask_length(finished, layout.columns())?;
    ask_levels_for(&layout, row, levels, layout.width())?;
    finish(&layout, levels, finished);
    Ok(differing(finished, row_of(&layout, cells, row)))
}

/// Writes a finished row of n cells, which has to be sound: what programming its
/// first k levels does. The record becomes idle. The row's line stays as it is.
pub fn commit(
    shape: Shape,
    cells: &mut [u8],
    row: usize,
    finished: &[u8],
    cycle: Cycle,
) -> (Cycle, Result<(), Refusal>) {
    let asked = ask_commit(shape, cells, row, finished);
    write_row(asked, cells, row, cycle, |_, row| {
        row.copy_from_slice(finished);
    })
}

fn ask_commit(shape: Shape, cells: &[u8], row: usize, finished: &[u8]) -> Result<Layout, Refusal> {
    let layout = ask_cells(shape, cells)?;
    ask_levels_for(&layout, row, finished, layout.columns())?;
    if is_codeword(&layout, finished) {
        Ok(layout)
    } else {
        Err(Refusal::Unsound)
    }
}

/// Question 6 for levels that are to be so many, question 7 for the row that they
/// are for, and question 8.
fn ask_levels_for(
    layout: &Layout,
    row: usize,
    levels: &[u8],
    length: usize,
) -> Result<(), Refusal> {
    layout.ask_length(levels, length)?;
    layout.ask_row(row)?;
    layout.ask_levels(levels)
}

/// Writes a row, once the call's questions are asked. The record becomes idle
/// then; a refusal hands it back.
fn write_row(
    asked: Result<Layout, Refusal>,
    cells: &mut [u8],
    row: usize,
    cycle: Cycle,
    write: impl FnOnce(&Layout, &mut [u8]),
) -> (Cycle, Result<(), Refusal>) {
    match asked {
        Err(refusal) => (cycle, Err(refusal)),
        Ok(layout) => {
            let start = row * layout.columns();
            let end = start + layout.columns();
            write(&layout, &mut cells[start..end]);
            (Cycle::IDLE, Ok(()))
        }
    }
}

/// Makes the finished row of k levels: these, and then their check cells.
fn finish(layout: &Layout, levels: &[u8], row: &mut [u8]) {
    row[..layout.width()].copy_from_slice(levels);
    encode(layout, row);
}

/// The number of cells in which two rows differ.
fn differing(one: &[u8], other: &[u8]) -> usize {
    let pairs = one.iter().zip(other);
    pairs.filter(|(one, other)| one != other).count()
}

/// Lets one cell drift to a level. Nothing else changes.
pub fn drift(
    shape: Shape,
    cells: &mut [u8],
    row: usize,
    column: usize,
    level: u8,
) -> Result<(), Refusal> {
    let layout = ask_cells(shape, cells)?;
    layout.ask_row(row)?;
    layout.ask_column(column)?;
    layout.ask_levels(&[level])?;
    cells[row * layout.columns() + column] = level;
    Ok(())
}

/// Sets the line byte of a row: 0 for a sound line, 1 for a dead one, 2 for a
/// shorted one. Nothing else changes.
pub fn line(shape: Shape, lines: &mut [u8], row: usize, byte: u8) -> Result<(), Refusal> {
    let layout = shape.layout()?;
    layout.ask_length(lines, layout.rows())?;
    layout.ask_row(row)?;
    layout.ask_line(byte)?;
    lines[row] = byte;
    Ok(())
}

/// A task lookup of k inputs, the check columns fed 0: writes one match byte
/// per row and gives the number of matches. An input may be q, to which no cell
/// answers 1.
pub fn lookup(
    shape: Shape,
    cells: &[u8],
    lines: &[u8],
    inputs: &[u16],
    matches: &mut [u8],
) -> Result<usize, Refusal> {
    let layout = ask_cells(shape, cells)?;
    layout.ask_length(lines, layout.rows())?;
    layout.ask_length(inputs, layout.width())?;
    layout.ask_length(matches, layout.rows())?;
    layout.ask_inputs(inputs)?;
    match levels_of(&layout, inputs) {
        Some(levels) => match_levels(&layout, cells, lines, &levels[..layout.width()], matches),
        None => match_beyond(lines, matches),
    }
    Ok(matches.iter().map(|&matched| usize::from(matched)).sum())
}

/// Writes the match bytes of all rows under k levels.
fn match_levels(layout: &Layout, cells: &[u8], lines: &[u8], levels: &[u8], matches: &mut [u8]) {
    let rows = rows(layout, cells).zip(lines);
    for ((row, &line), matched) in rows.zip(matches) {
        *matched = match_byte(line, row, levels);
    }
}

/// The number of the first row that matches k inputs, fed as in a task lookup.
pub fn first_match(
    shape: Shape,
    cells: &[u8],
    lines: &[u8],
    inputs: &[u16],
) -> Result<Option<usize>, Refusal> {
    let layout = ask_cells(shape, cells)?;
    layout.ask_length(lines, layout.rows())?;
    layout.ask_length(inputs, layout.width())?;
    layout.ask_inputs(inputs)?;
    Ok(match levels_of(&layout, inputs) {
        Some(levels) => first_row(&layout, cells, lines, &levels[..layout.width()]),
        None => lines.iter().position(|&line| is_shorted(line)),
    })
}

/// The first row that matches k levels. Cells are looked at only where the line is
/// sound: a shorted row is the answer, and a dead one is passed over.
pub(crate) fn first_row(
    layout: &Layout,
    cells: &[u8],
    lines: &[u8],
    levels: &[u8],
) -> Option<usize> {
    'rows: for (number, (row, &line)) in rows(layout, cells).zip(lines).enumerate() {
        if !is_sound(line) {
            if is_shorted(line) {
                return Some(number);
            }
            continue 'rows;
        }
        for (&cell, &level) in row.iter().zip(levels) {
            if !answers(cell, level) {
                continue 'rows;
            }
        }
        return Some(number);
    }
    None
}

/// The inputs as levels, or none where one of them is q. The places after them
/// hold 0 and are not used.
fn levels_of(layout: &Layout, inputs: &[u16]) -> Option<[u8; MAX_WIDTH]> {
    let mut levels = [0; MAX_WIDTH];
    let mut beyond = false;
    for (level, &input) in levels.iter_mut().zip(inputs) {
        beyond |= usize::from(input) == layout.levels();
        *level = input as u8;
    }
    (!beyond).then_some(levels)
}

/// Whether a row is sound, whatever its line.
pub fn sound(shape: Shape, cells: &[u8], row: usize) -> Result<bool, Refusal> {
    let layout = ask_cells(shape, cells)?;
    layout.ask_row(row)?;
    Ok(is_codeword(&layout, row_of(&layout, cells, row)))
}

/// Copies the k rule cells of a row out, whatever its line.
pub fn read(shape: Shape, cells: &[u8], row: usize, out: &mut [u8]) -> Result<(), Refusal> {
    let layout = ask_cells(shape, cells)?;
    layout.ask_length(out, layout.width())?;
    layout.ask_row(row)?;
    out.copy_from_slice(&row_of(&layout, cells, row)[..layout.width()]);
    Ok(())
}

/// Questions 1 to 5, and question 6 for the cells.
fn ask_cells(shape: Shape, cells: &[u8]) -> Result<Layout, Refusal> {
    let layout = shape.layout()?;
    layout.ask_length(cells, layout.cells())?;
    Ok(layout)
}

/// The rows of the array, in order.
fn rows<'a>(layout: &Layout, cells: &'a [u8]) -> impl Iterator<Item = &'a [u8]> {
    cells.chunks_exact(layout.columns())
}

/// One row of the array.
pub(crate) fn row_of<'a>(layout: &Layout, cells: &'a [u8], row: usize) -> &'a [u8] {
    let start = row * layout.columns();
    &cells[start..start + layout.columns()]
}
