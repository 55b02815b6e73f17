//! The calls. A refused one leaves all that is lent as it was.

use super::panel::{blocks, counts, panel};
use super::router::{route, rule, rule_at};
use super::schedule::{Lookup, Schedule};
use super::sizes::sizes;
use super::spec::{questions, Spec};
use super::{all_below, ask, none_above};
use crate::call::{Answer, Call};
use crate::cycle::{Cycle, Phase};
use crate::list::Array;

/// The idle record, written out anew: the definitions share the types of the
/// build that they judge, and none of its values.
pub const IDLE: Cycle = Cycle {
    phase: Phase::Idle,
    check: 0,
    digit: 0,
    column: 0,
    factor: 0,
    count: 0,
    skip: 0,
};

/// Makes a call by the definitions.
pub fn make(array: &mut Array, call: &mut Call<Vec<u8>>) -> Answer {
    match call {
        Call::Sizes { skip } => Answer::of(sizes(array.shape, *skip), Answer::Sizes),
        Call::Clear => Answer::done(clear(array)),
        Call::Program { row, levels } => Answer::done(program(array, *row, levels)),
        Call::Ask {
            row,
            levels,
            finished,
        } => Answer::of(ask_row(array, *row, levels, finished), Answer::Changed),
        Call::Commit { row, finished } => Answer::done(commit(array, *row, finished)),
        Call::Drift { row, column, level } => Answer::done(drift(array, *row, *column, *level)),
        Call::Line { row, byte } => Answer::done(line(array, *row, *byte)),
        Call::Lookup { inputs, matches } => {
            Answer::of(lookup(array, inputs, matches), Answer::Count)
        }
        Call::Start { skip } => Answer::done(start(array, *skip)),
        Call::Step { matches } => Answer::done(step(array, matches)),
        Call::Steps { most, matches } => Answer::done(steps(array, *most, matches)),
        Call::Run { skip, matches } => Answer::done(run(array, *skip, matches)),
        Call::Panel => Answer::of(panel(array), Answer::Panel),
        Call::FirstMatch { inputs } => Answer::of(first_match(array, inputs), Answer::Row),
        Call::Sound { row } => Answer::of(sound(array, *row), Answer::Sound),
        Call::Read { row, out } => Answer::done(read(array, *row, out)),
        Call::Rule { row, rule: given } => Answer::done(rule(array, *row, given)),
        Call::Route { values } => Answer::of(route(array, values), Answer::Route),
        Call::RuleAt { row, lows, highs } => {
            Answer::of(rule_at(array, *row, lows, highs), Answer::Belt)
        }
    }
}

/// Questions 1 to 5, and question 6 for the cells.
fn ask_cells(array: &Array) -> Result<Spec, u8> {
    let spec = questions(array.shape)?;
    ask(array.state.cells.len() == spec.cells(), 6)?;
    Ok(spec)
}

/// Question 6 for the lines.
pub(super) fn ask_lines(array: &Array) -> Result<(), u8> {
    ask(array.state.lines.len() == array.shape.rows, 6)
}

/// Question 6 for counters, flags and totals.
fn ask_rows(array: &Array) -> Result<(), u8> {
    ask(array.state.counters.len() == array.shape.rows, 6)?;
    ask(array.state.flags.len() == array.shape.rows, 6)?;
    ask(array.state.totals.len() == blocks(array.shape.rows), 6)
}

/// Counters, flags and totals all 0.
fn clear_rows(array: &mut Array) {
    array.state.counters = vec![0; array.shape.rows];
    array.state.flags = vec![0; array.shape.rows];
    array.state.totals = vec![0; blocks(array.shape.rows)];
}

fn clear(array: &mut Array) -> Result<(), u8> {
    let spec = ask_cells(array)?;
    ask_lines(array)?;
    ask_rows(array)?;
    array.state.cells = vec![0; spec.cells()];
    array.state.lines = vec![0; array.shape.rows];
    clear_rows(array);
    array.cycle = IDLE;
    Ok(())
}

pub(super) fn program(array: &mut Array, row: usize, levels: &[u8]) -> Result<(), u8> {
    let spec = ask_cells(array)?;
    ask(levels.len() == array.shape.width, 6)?;
    ask(row < array.shape.rows, 7)?;
    ask(all_below(levels, spec.levels), 8)?;
    write_row(&spec, array, row, &spec.encoded(levels));
    Ok(())
}

/// The row takes the cells, and the record becomes idle.
fn write_row(spec: &Spec, array: &mut Array, row: usize, cells: &[u8]) {
    for (column, &cell) in cells.iter().enumerate() {
        array.state.cells[row * spec.columns() + column] = cell;
    }
    array.cycle = IDLE;
}

fn ask_row(array: &Array, row: usize, levels: &[u8], finished: &mut Vec<u8>) -> Result<usize, u8> {
    let spec = ask_cells(array)?;
    ask(levels.len() == array.shape.width, 6)?;
    ask(finished.len() == spec.columns(), 6)?;
    ask(row < array.shape.rows, 7)?;
    ask(all_below(levels, spec.levels), 8)?;
    *finished = spec.encoded(levels);
    let standing = spec.row(&array.state.cells, row);
    let changes = |&column: &usize| finished[column] != standing[column];
    Ok((0..spec.columns()).filter(changes).count())
}

fn commit(array: &mut Array, row: usize, finished: &[u8]) -> Result<(), u8> {
    let spec = ask_cells(array)?;
    ask(finished.len() == spec.columns(), 6)?;
    ask(row < array.shape.rows, 7)?;
    ask(all_below(finished, spec.levels), 8)?;
    ask(spec.is_sound(finished), 17)?;
    write_row(&spec, array, row, finished);
    Ok(())
}

fn drift(array: &mut Array, row: usize, column: usize, level: u8) -> Result<(), u8> {
    let spec = ask_cells(array)?;
    ask(row < array.shape.rows && column < spec.columns(), 7)?;
    ask(usize::from(level) < spec.levels, 8)?;
    array.state.cells[row * spec.columns() + column] = level;
    Ok(())
}

fn line(array: &mut Array, row: usize, byte: u8) -> Result<(), u8> {
    questions(array.shape)?;
    ask_lines(array)?;
    ask(row < array.shape.rows, 7)?;
    ask(byte <= 2, 16)?;
    array.state.lines[row] = byte;
    Ok(())
}

fn lookup(array: &Array, inputs: &[u16], matches: &mut Vec<u8>) -> Result<usize, u8> {
    let spec = ask_cells(array)?;
    ask_lines(array)?;
    ask(inputs.len() == array.shape.width, 6)?;
    ask(matches.len() == array.shape.rows, 6)?;
    ask(none_above(inputs, spec.levels), 8)?;
    *matches = match_bytes(&spec, array, &spec.task_inputs(inputs));
    Ok(matches.iter().filter(|&&matched| matched == 1).count())
}

/// The match bytes of a full vector on the array as it stands.
fn match_bytes(spec: &Spec, array: &Array, inputs: &[u16]) -> Vec<u8> {
    spec.match_bytes(&array.state.cells, &array.state.lines, inputs)
}

fn start(array: &mut Array, skip: usize) -> Result<(), u8> {
    let spec = questions(array.shape)?;
    ask(skip < array.shape.digits, 15)?;
    ask_rows(array)?;
    clear_rows(array);
    array.cycle = spec.schedule(skip).record(0);
    Ok(())
}

fn step(array: &mut Array, matches: &mut Vec<u8>) -> Result<(), u8> {
    let (spec, schedule) = ask_step(array, matches)?;
    take_step(&spec, &schedule, array, matches);
    Ok(())
}

/// As many steps as are asked for, or as many as the schedule still has.
fn steps(array: &mut Array, most: usize, matches: &mut Vec<u8>) -> Result<(), u8> {
    let (spec, schedule) = ask_step(array, matches)?;
    let left = schedule.steps() - array.cycle.count;
    for _ in 0..usize::min(most, left) {
        take_step(&spec, &schedule, array, matches);
    }
    Ok(())
}

/// Question 9 asks for a z whose start and accepted steps leave the record.
fn ask_step(array: &Array, matches: &[u8]) -> Result<(Spec, Schedule), u8> {
    let spec = questions(array.shape)?;
    ask_lent(&spec, array, matches)?;
    let schedule = spec
        .schedules()
        .find(|schedule| schedule.awaits(&array.cycle));
    Ok((spec, schedule.ok_or(9)?))
}

/// A step with a schedule of the shape at hand.
pub fn step_with(
    spec: &Spec,
    schedule: &Schedule,
    array: &mut Array,
    matches: &mut Vec<u8>,
) -> Result<(), u8> {
    ask_lent(spec, array, matches)?;
    ask(schedule.awaits(&array.cycle), 9)?;
    take_step(spec, schedule, array, matches);
    Ok(())
}

/// Question 6 for all buffers of a step.
fn ask_lent(spec: &Spec, array: &Array, matches: &[u8]) -> Result<(), u8> {
    ask(array.state.cells.len() == spec.cells(), 6)?;
    ask_lines(array)?;
    ask_rows(array)?;
    ask(matches.len() == spec.shape.rows, 6)
}

/// What an accepted step does.
fn take_step(spec: &Spec, schedule: &Schedule, array: &mut Array, matches: &mut Vec<u8>) {
    let count = array.cycle.count;
    let lookup = schedule.lookups[count];
    *matches = match_bytes(spec, array, &spec.inputs(lookup));
    match lookup {
        Lookup::Zeros => flag_rows(array, |_, row| matches[row] == 0),
        Lookup::Beyond => flag_rows(array, |_, row| matches[row] == 1),
        Lookup::Vector(_) => {
            count_matches(spec, array, matches);
            close(schedule, count, array);
        }
    }
    array.cycle = schedule.record(count + 1);
}

/// Flags the rows of which it is true, and counts the flags anew.
fn flag_rows(array: &mut Array, is_true: impl Fn(&Array, usize) -> bool) {
    for row in 0..array.shape.rows {
        if is_true(array, row) {
            array.state.flags[row] = 1;
        }
    }
    array.state.totals = counts(&array.state.flags);
}

/// Each match byte is added to its row's counter mod ρ.
fn count_matches(spec: &Spec, array: &mut Array, matches: &[u8]) {
    let radix = spec.shape.radix;
    for (counter, &matched) in array.state.counters.iter_mut().zip(matches) {
        let sum = usize::from(*counter) % radix + usize::from(matched);
        *counter = (sum % radix) as u8;
    }
}

/// What the end of a digit and the end of a check bring.
fn close(schedule: &Schedule, count: usize, array: &mut Array) {
    if schedule.ends_digit(count) {
        flag_rows(array, |array, row| array.state.counters[row] != 0);
    }
    if schedule.ends_check(count) {
        array.state.counters = vec![0; array.shape.rows];
    }
}

/// A start and as many steps as the cycle has lookups.
fn run(array: &mut Array, skip: usize, matches: &mut Vec<u8>) -> Result<(), u8> {
    let spec = questions(array.shape)?;
    ask(skip < array.shape.digits, 15)?;
    ask_lent(&spec, array, matches)?;
    start(array, skip)?;
    let schedule = spec.schedule(skip);
    for _ in &schedule.lookups {
        take_step(&spec, &schedule, array, matches);
    }
    Ok(())
}

pub(super) fn first_match(array: &Array, inputs: &[u16]) -> Result<Option<usize>, u8> {
    let spec = ask_cells(array)?;
    ask_lines(array)?;
    ask(inputs.len() == array.shape.width, 6)?;
    ask(none_above(inputs, spec.levels), 8)?;
    let matches = match_bytes(&spec, array, &spec.task_inputs(inputs));
    Ok((0..array.shape.rows).find(|&row| matches[row] == 1))
}

fn sound(array: &Array, row: usize) -> Result<bool, u8> {
    let spec = ask_cells(array)?;
    ask(row < array.shape.rows, 7)?;
    Ok(spec.is_sound(spec.row(&array.state.cells, row)))
}

fn read(array: &Array, row: usize, out: &mut Vec<u8>) -> Result<(), u8> {
    let spec = ask_cells(array)?;
    ask(out.len() == array.shape.width, 6)?;
    ask(row < array.shape.rows, 7)?;
    *out = spec.row(&array.state.cells, row)[..array.shape.width].to_vec();
    Ok(())
}
