//! The job program.

use super::calls::step_with;
use super::panel::blocks;
use super::spec::{questions, Spec};
use super::{all_below, ask};
use crate::cycle::Phase;
use crate::list::Array;
use crate::shape::Shape;
use crate::state::State;

/// What the job program prints, by the definitions.
pub fn job(input: &[u8]) -> String {
    report(input).unwrap_or_else(|number| format!("refused {number}\n"))
}

fn report(input: &[u8]) -> Result<String, u8> {
    let (spec, drifts) = ask_sizes(input)?;
    let levels = &input[11..11 + spec.shape.rows * spec.shape.width];
    ask(all_below(levels, spec.levels), 8)?;
    let mut cells = Vec::new();
    for row in levels.chunks(spec.shape.width) {
        cells.extend(spec.encoded(row));
    }
    apply(&spec, &input[input.len() - 4 * drifts..], &mut cells)?;
    let mut report = format!(
        "levels {} columns {} lookups {}\n",
        spec.levels,
        spec.columns(),
        spec.steps(0)
    );
    for (row, flag) in cycle_flags(&spec, cells).iter().enumerate() {
        let verdict = if *flag == 0 { "ok" } else { "flagged" };
        report += &format!("row {row} {verdict}\n");
    }
    Ok(report)
}

/// Questions 10 to 12, 1 to 5, 13 and 14; the number of drifts.
fn ask_sizes(input: &[u8]) -> Result<(Spec, usize), u8> {
    let at = |place: usize| usize::from(input[place]);
    ask(input.len() <= 32_768, 10)?;
    ask(!input.is_empty() && input[0] == 1, 11)?;
    ask(input.len() >= 5, 12)?;
    let length = ((at(1) * 256 + at(2)) * 256 + at(3)) * 256 + at(4);
    ask(length == input.len() - 5 && length >= 8, 12)?;
    let rows = at(9) * 256 + at(10);
    let spec = questions(Shape::new(at(5), at(6), at(7), at(8), rows))?;
    ask(spec.cells() <= 16_384, 13)?;
    let levels = rows * spec.shape.width;
    ask(11 + levels + 2 <= input.len(), 14)?;
    let drifts = at(11 + levels) * 256 + at(12 + levels);
    ask(length == 8 + levels + 4 * drifts, 14)?;
    Ok((spec, drifts))
}

/// Applies the drifts in turn.
fn apply(spec: &Spec, drifts: &[u8], cells: &mut [u8]) -> Result<(), u8> {
    for drift in drifts.chunks(4) {
        let row = usize::from(drift[0]) * 256 + usize::from(drift[1]);
        let column = usize::from(drift[2]);
        ask(row < spec.shape.rows && column < spec.columns(), 7)?;
        ask(usize::from(drift[3]) < spec.levels, 8)?;
        cells[row * spec.columns() + column] = drift[3];
    }
    Ok(())
}

/// The flags that a whole cycle leaves where all lines are sound, by full
/// lookups through the nested loops of the schedule.
fn cycle_flags(spec: &Spec, cells: Vec<u8>) -> Vec<u8> {
    let schedule = spec.schedule(0);
    let mut matches = vec![0; spec.shape.rows];
    let mut array = Array {
        shape: spec.shape,
        state: State {
            cells,
            lines: vec![0; spec.shape.rows],
            counters: vec![0; spec.shape.rows],
            flags: vec![0; spec.shape.rows],
            totals: vec![0; blocks(spec.shape.rows)],
        },
        belts: Vec::new(),
        cycle: schedule.record(0),
    };
    while array.cycle.phase == Phase::Open {
        step_with(spec, &schedule, &mut array, &mut matches).expect("a step of an open cycle");
    }
    array.state.flags
}
