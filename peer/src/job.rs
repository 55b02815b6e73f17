//! The job program: one job in, its report out.
//!
//! A job is a version byte, the length of the rest in four bytes, then radix,
//! digits, errors and width in one byte each, the rows in two, the levels of
//! all rows, the number of drifts in two bytes, and the drifts: row in two
//! bytes, column, level. Numbers of several bytes have the highest byte first.

use std::fmt::Write;

use crate::array::{drift, program};
use crate::cycle::{self, Cycle};
use crate::shape::{Layout, Refusal, Shape};
use crate::state::State;

/// The largest number of bytes of a job.
pub const MAX_BYTES: usize = 32_768;

/// The largest number of cells of a job's array.
pub const MAX_CELLS: usize = 16_384;

/// The only version of a job.
pub const VERSION: u8 = 1;

/// Version and length.
const HEADER: usize = 5;

/// Radix, digits, errors, width and rows.
const SHAPE: usize = 6;

/// The drift count.
const COUNT: usize = 2;

/// One drift.
const DRIFT: usize = 4;

/// The cycle of a job looks at all digits.
const NO_SKIP: usize = 0;

/// A job whose parts are all there; levels and drifts are not yet looked at.
struct Parts<'a> {
    layout: Layout,
    levels: &'a [u8],
    drifts: &'a [u8],
}

/// One drift of a job.
struct Drift {
    row: usize,
    column: usize,
    level: u8,
}

/// Runs one job and gives what is to be printed.
pub fn job(input: &[u8]) -> Vec<u8> {
    match run(input) {
        Ok(report) => report.into_bytes(),
        Err(refusal) => format!("refused {}\n", refusal.number()).into_bytes(),
    }
}

/// Asks the job's questions, makes its array, and runs one cycle on it.
fn run(input: &[u8]) -> Result<String, Refusal> {
    let parts = split(unwrap_header(input)?)?;
    let layout = parts.layout;
    let mut state = State::fresh(&layout);
    program_rows(&layout, parts.levels, &mut state.cells)?;
    apply_drifts(&layout, parts.drifts, &mut state.cells)?;
    let cycle = run_cycle(&layout, &mut state)?;
    Ok(report(&layout, &cycle, &state.flags))
}

/// Questions 10 to 12: gives what follows the length.
fn unwrap_header(input: &[u8]) -> Result<&[u8], Refusal> {
    if input.len() > MAX_BYTES {
        return Err(Refusal::JobSize);
    }
    if input.first() != Some(&VERSION) {
        return Err(Refusal::JobVersion);
    }
    let (header, rest) = input.split_at_checked(HEADER).ok_or(Refusal::JobLength)?;
    let stated = number(&header[1..]);
    if stated != rest.len() || stated < SHAPE + COUNT {
        return Err(Refusal::JobLength);
    }
    Ok(rest)
}

/// Questions 1 to 5, 13 and 14.
fn split(rest: &[u8]) -> Result<Parts<'_>, Refusal> {
    let (shape, rest) = rest.split_at(SHAPE);
    let layout = shape_of(shape).layout()?;
    if layout.cells() > MAX_CELLS {
        return Err(Refusal::JobCells);
    }
    let (levels, rest) = rest
        .split_at_checked(layout.rows() * layout.width())
        .ok_or(Refusal::JobContents)?;
    let (count, drifts) = rest.split_at_checked(COUNT).ok_or(Refusal::JobContents)?;
    if drifts.len() != DRIFT * number(count) {
        return Err(Refusal::JobContents);
    }
    Ok(Parts {
        layout,
        levels,
        drifts,
    })
}

fn shape_of(bytes: &[u8]) -> Shape {
    Shape {
        radix: usize::from(bytes[0]),
        digits: usize::from(bytes[1]),
        errors: usize::from(bytes[2]),
        width: usize::from(bytes[3]),
        rows: number(&bytes[4..]),
    }
}

/// Programs all rows. Shape, lengths and row numbers are good here, so only a
/// level can be refused.
fn program_rows(layout: &Layout, levels: &[u8], cells: &mut [u8]) -> Result<(), Refusal> {
    for (row, levels) in levels.chunks_exact(layout.width()).enumerate() {
        program(layout.shape(), cells, row, levels, Cycle::IDLE).1?;
    }
    Ok(())
}

/// Applies the drifts in turn.
fn apply_drifts(layout: &Layout, drifts: &[u8], cells: &mut [u8]) -> Result<(), Refusal> {
    for bytes in drifts.chunks_exact(DRIFT) {
        let Drift { row, column, level } = drift_of(bytes);
        drift(layout.shape(), cells, row, column, level)?;
    }
    Ok(())
}

fn drift_of(bytes: &[u8]) -> Drift {
    Drift {
        row: number(&bytes[..2]),
        column: usize::from(bytes[2]),
        level: bytes[3],
    }
}

/// Runs one cycle; gives the record it leaves.
fn run_cycle(layout: &Layout, state: &mut State<Vec<u8>>) -> Result<Cycle, Refusal> {
    let (shape, state) = (layout.shape(), state.lend());
    let mut matches = vec![0; layout.rows()];
    let (cycle, answer) = cycle::run(shape, NO_SKIP, state, &mut matches, Cycle::IDLE);
    answer.map(|()| cycle)
}

/// One line for the array, then one per row.
fn report(layout: &Layout, cycle: &Cycle, flags: &[u8]) -> String {
    let mut text = format!(
        "levels {} columns {} lookups {}\n",
        layout.levels(),
        layout.columns(),
        cycle.count
    );
    for (row, &flag) in flags.iter().enumerate() {
        let verdict = if flag == 0 { "ok" } else { "flagged" };
        writeln!(text, "row {row} {verdict}").expect("a string takes any text");
    }
    text
}

/// A number of up to four bytes, the highest first.
fn number(bytes: &[u8]) -> usize {
    bytes
        .iter()
        .fold(0, |number, &byte| number << 8 | usize::from(byte))
}
