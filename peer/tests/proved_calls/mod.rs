//! The calls of the proved library, from the archive that `tools/build jorivelune`
//! makes. A slice crosses as its address and its length.

// the benchmark makes some of the calls, and each by itself
#![allow(dead_code)]

mod linked;

use std::cmp::Ordering;

use linked::*;
use peer::state::Bytes;
use peer::testing::records::Words;
use peer::{Answer, Call, Panel, Route, Rule, Shape, Sizes, State};

/// Makes a call of the proved library. No answer comes where a value is none
/// that the call may give.
pub fn make<S: Bytes, B: Bytes>(
    shape: Shape,
    state: &mut State<S>,
    belts: &mut [u8],
    words: &mut Words,
    call: &mut Call<B>,
) -> Option<Answer> {
    let (cells, lines) = (&mut state.cells, &mut state.lines);
    let number = match call {
        Call::Clear => clear(words, shape, state.lend()),
        Call::Program { row, levels } => program(words, shape, cells, *row, levels),
        Call::Commit { row, finished } => commit(words, shape, cells, *row, finished),
        Call::Start { skip } => start(words, shape, *skip, state.lend()),
        Call::Step { matches } => step(words, shape, state.lend(), matches),
        Call::Steps { most, matches } => steps(words, shape, *most, state.lend(), matches),
        Call::Run { skip, matches } => run(words, shape, *skip, state.lend(), matches),
        Call::Drift { row, column, level } => drift(shape, cells, *row, *column, *level),
        Call::Line { row, byte } => line(shape, lines, *row, *byte),
        Call::Read { row, out } => read(shape, cells, *row, out),
        Call::Rule { row, rule: given } => rule(words, shape, cells, belts, *row, given.lend()),
        Call::Sizes { skip } => {
            let (number, told) = sizes(shape, *skip);
            return with_value(number, told, |told| Some(sizes_told(told)));
        }
        Call::Ask {
            row,
            levels,
            finished,
        } => {
            let (number, changed) = ask(shape, cells, *row, levels, finished);
            return with_value(number, changed, |changed| Some(Answer::Changed(changed)));
        }
        Call::Lookup { inputs, matches } => {
            let (number, count) = lookup(shape, cells, lines, inputs, matches);
            return with_value(number, count, |count| Some(Answer::Count(count)));
        }
        Call::Panel => {
            let (number, told) = panel(shape, &state.flags, &state.totals);
            return with_value(number, told, |told| panel_told(shape, told));
        }
        Call::FirstMatch { inputs } => {
            let (number, found) = first_match(shape, cells, lines, inputs);
            return with_value(number, found, |found| {
                row_or_none(shape, found).map(Answer::Row)
            });
        }
        Call::Sound { row } => {
            let (number, holds) = sound(shape, cells, *row);
            return with_value(number, holds, yes_or_no);
        }
        Call::Route { values } => {
            let (number, told) = route(shape, cells, lines, belts, values);
            return with_value(number, told, |told| route_told(shape, told));
        }
        Call::RuleAt { row, lows, highs } => {
            let (number, belt) = rule_at(shape, cells, belts, *row, lows, highs);
            return with_value(number, belt, |belt| Some(Answer::Belt(belt)));
        }
    };
    with_value(number, (), |()| Some(Answer::Done))
}

/// The answer of a call that also gives a value, or several; each is 0 where it
/// is refused.
fn with_value<V: Default + PartialEq>(
    number: u8,
    value: V,
    taken: impl Fn(V) -> Option<Answer>,
) -> Option<Answer> {
    if number == 0 {
        taken(value)
    } else {
        (value == V::default()).then_some(Answer::Refused(number))
    }
}

/// A row, or m where there is none.
fn row_or_none(shape: Shape, found: usize) -> Option<Option<usize>> {
    match found.cmp(&shape.rows) {
        Ordering::Less => Some(Some(found)),
        Ordering::Equal => Some(None),
        Ordering::Greater => None,
    }
}

/// The sizes, from q, r, n, cells, blocks and steps.
fn sizes_told([levels, checks, columns, cells, blocks, steps]: [usize; 6]) -> Answer {
    Answer::Sizes(Sizes {
        levels,
        checks,
        columns,
        cells,
        blocks,
        steps,
    })
}

/// What the panel is told, from total, first row and flags read.
fn panel_told(shape: Shape, [total, first, read]: [usize; 3]) -> Option<Answer> {
    let first = row_or_none(shape, first)?;
    Some(Answer::Panel(Panel { total, first, read }))
}

/// Where a bottle goes, from the row, m where there is none, and the belt, which is
/// 0 then.
fn route_told(shape: Shape, (found, belt): (usize, u8)) -> Option<Answer> {
    match row_or_none(shape, found)? {
        Some(row) => Some(Answer::Route(Some(Route { row, belt }))),
        None => (belt == 0).then_some(Answer::Route(None)),
    }
}

/// 1 or 0.
fn yes_or_no(holds: u8) -> Option<Answer> {
    match holds {
        0 | 1 => Some(Answer::Sound(holds == 1)),
        _ => None,
    }
}

// The safe calls. Each gives the number of the first question that fails, 0
// where it is taken. The functions ask nothing of their caller but that the
// slices are there and apart, which references always are.

pub fn clear(words: &mut Words, shape: Shape, state: State<&mut [u8]>) -> u8 {
    unsafe {
        jorivelune_clear(
            words,
            shape.into(),
            state.cells.as_mut_ptr(),
            state.cells.len(),
            state.lines.as_mut_ptr(),
            state.lines.len(),
            state.counters.as_mut_ptr(),
            state.counters.len(),
            state.flags.as_mut_ptr(),
            state.flags.len(),
            state.totals.as_mut_ptr(),
            state.totals.len(),
        )
    }
}

/// Program and commit are given the same, but for what is to be in the row.
macro_rules! writing {
    ($name:ident, $linked:ident, $given:ident) => {
        pub fn $name(
            words: &mut Words,
            shape: Shape,
            cells: &mut [u8],
            row: usize,
            $given: &[u8],
        ) -> u8 {
            unsafe {
                $linked(
                    words,
                    shape.into(),
                    cells.as_mut_ptr(),
                    cells.len(),
                    row,
                    $given.as_ptr(),
                    $given.len(),
                )
            }
        }
    };
}

writing!(program, jorivelune_program, levels);
writing!(commit, jorivelune_commit, finished);

pub fn start(words: &mut Words, shape: Shape, skip: usize, state: State<&mut [u8]>) -> u8 {
    unsafe {
        jorivelune_start(
            words,
            shape.into(),
            skip,
            state.counters.as_mut_ptr(),
            state.counters.len(),
            state.flags.as_mut_ptr(),
            state.flags.len(),
            state.totals.as_mut_ptr(),
            state.totals.len(),
        )
    }
}

/// Step, steps and run are given the same, but for the number of steps and for
/// what a run skips.
macro_rules! stepping {
    ($name:ident, $linked:ident $(, $number:ident)?) => {
        pub fn $name(
            words: &mut Words,
            shape: Shape,
            $($number: usize,)?
            state: State<&mut [u8]>,
            matches: &mut [u8],
        ) -> u8 {
            unsafe {
                $linked(
                    words,
                    shape.into(),
                    $($number,)?
                    state.cells.as_ptr(),
                    state.cells.len(),
                    state.lines.as_ptr(),
                    state.lines.len(),
                    state.counters.as_mut_ptr(),
                    state.counters.len(),
                    state.flags.as_mut_ptr(),
                    state.flags.len(),
                    state.totals.as_mut_ptr(),
                    state.totals.len(),
                    matches.as_mut_ptr(),
                    matches.len(),
                )
            }
        }
    };
}

stepping!(step, jorivelune_step);
stepping!(steps, jorivelune_steps, most);
stepping!(run, jorivelune_run, skip);

pub fn rule(
    words: &mut Words,
    shape: Shape,
    cells: &mut [u8],
    belts: &mut [u8],
    row: usize,
    rule: Rule<&[u8]>,
) -> u8 {
    unsafe {
        jorivelune_rule(
            words,
            shape.into(),
            cells.as_mut_ptr(),
            cells.len(),
            belts.as_mut_ptr(),
            belts.len(),
            row,
            rule.lows.as_ptr(),
            rule.lows.len(),
            rule.highs.as_ptr(),
            rule.highs.len(),
            rule.belt,
        )
    }
}

pub fn drift(shape: Shape, cells: &mut [u8], row: usize, column: usize, level: u8) -> u8 {
    let (address, length) = (cells.as_mut_ptr(), cells.len());
    unsafe { jorivelune_drift(shape.into(), address, length, row, column, level) }
}

pub fn line(shape: Shape, lines: &mut [u8], row: usize, byte: u8) -> u8 {
    unsafe { jorivelune_line(shape.into(), lines.as_mut_ptr(), lines.len(), row, byte) }
}

pub fn read(shape: Shape, cells: &[u8], row: usize, out: &mut [u8]) -> u8 {
    unsafe {
        jorivelune_read(
            shape.into(),
            cells.as_ptr(),
            cells.len(),
            row,
            out.as_mut_ptr(),
            out.len(),
        )
    }
}

// A result that goes out beside the number starts with a value that no call
// gives, so that one which is not written is seen. A belt may be any byte: it
// starts with one that few belts are, and that no refusal gives.

/// The number, and q, r, n, the cells, the blocks and the steps of a cycle.
pub fn sizes(shape: Shape, skip: usize) -> (u8, [usize; 6]) {
    let [mut levels, mut checks, mut columns] = [usize::MAX; 3];
    let [mut cells, mut blocks, mut steps] = [usize::MAX; 3];
    let number = unsafe {
        jorivelune_sizes(
            shape.into(),
            skip,
            &mut levels,
            &mut checks,
            &mut columns,
            &mut cells,
            &mut blocks,
            &mut steps,
        )
    };
    (number, [levels, checks, columns, cells, blocks, steps])
}

/// The number, and the count of cells that would change.
pub fn ask(
    shape: Shape,
    cells: &[u8],
    row: usize,
    levels: &[u8],
    finished: &mut [u8],
) -> (u8, usize) {
    let mut changed = usize::MAX;
    let number = unsafe {
        jorivelune_ask(
            shape.into(),
            cells.as_ptr(),
            cells.len(),
            row,
            levels.as_ptr(),
            levels.len(),
            finished.as_mut_ptr(),
            finished.len(),
            &mut changed,
        )
    };
    (number, changed)
}

/// The number, and the count of matches.
pub fn lookup(
    shape: Shape,
    cells: &[u8],
    lines: &[u8],
    inputs: &[u16],
    matches: &mut [u8],
) -> (u8, usize) {
    let mut count = usize::MAX;
    let number = unsafe {
        jorivelune_lookup(
            shape.into(),
            cells.as_ptr(),
            cells.len(),
            lines.as_ptr(),
            lines.len(),
            inputs.as_ptr(),
            inputs.len(),
            matches.as_mut_ptr(),
            matches.len(),
            &mut count,
        )
    };
    (number, count)
}

/// The number, and the sum of the totals, the first flagged row, m where there
/// is none, and the number of flags read.
pub fn panel(shape: Shape, flags: &[u8], totals: &[u8]) -> (u8, [usize; 3]) {
    let [mut total, mut first, mut read] = [usize::MAX; 3];
    let number = unsafe {
        jorivelune_panel(
            shape.into(),
            flags.as_ptr(),
            flags.len(),
            totals.as_ptr(),
            totals.len(),
            &mut total,
            &mut first,
            &mut read,
        )
    };
    (number, [total, first, read])
}

/// The number, and the row: m where none matches.
pub fn first_match(shape: Shape, cells: &[u8], lines: &[u8], inputs: &[u16]) -> (u8, usize) {
    let mut found = usize::MAX;
    let number = unsafe {
        jorivelune_first_match(
            shape.into(),
            cells.as_ptr(),
            cells.len(),
            lines.as_ptr(),
            lines.len(),
            inputs.as_ptr(),
            inputs.len(),
            &mut found,
        )
    };
    (number, found)
}

/// The number, and 1 for a sound row, else 0.
pub fn sound(shape: Shape, cells: &[u8], row: usize) -> (u8, u8) {
    let mut holds = u8::MAX;
    let number =
        unsafe { jorivelune_sound(shape.into(), cells.as_ptr(), cells.len(), row, &mut holds) };
    (number, holds)
}

/// The number, the row that a bottle goes to, m where there is none, and its belt.
pub fn route(
    shape: Shape,
    cells: &[u8],
    lines: &[u8],
    belts: &[u8],
    values: &[u8],
) -> (u8, (usize, u8)) {
    let (mut found, mut belt) = (usize::MAX, u8::MAX);
    let number = unsafe {
        jorivelune_route(
            shape.into(),
            cells.as_ptr(),
            cells.len(),
            lines.as_ptr(),
            lines.len(),
            belts.as_ptr(),
            belts.len(),
            values.as_ptr(),
            values.len(),
            &mut found,
            &mut belt,
        )
    };
    (number, (found, belt))
}

/// The number, and the belt of the rule that is copied out.
pub fn rule_at(
    shape: Shape,
    cells: &[u8],
    belts: &[u8],
    row: usize,
    lows: &mut [u8],
    highs: &mut [u8],
) -> (u8, u8) {
    let mut belt = u8::MAX;
    let number = unsafe {
        jorivelune_rule_at(
            shape.into(),
            cells.as_ptr(),
            cells.len(),
            belts.as_ptr(),
            belts.len(),
            row,
            lows.as_mut_ptr(),
            lows.len(),
            highs.as_mut_ptr(),
            highs.len(),
            &mut belt,
        )
    };
    (number, belt)
}
