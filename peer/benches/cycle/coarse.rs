//! A coarse cycle beside the cycle of all digits on the same array.

use peer::Shape;

use crate::small_table::{heading, line, Numbers};
use crate::{micros, times, Steps, Work};

/// What the table is called.
pub const TITLE: &str = "coarse cycle";

/// Times both and prints the table: their steps and microseconds, and what part
/// of the whole cycle's the coarse one takes.
pub fn table(shape: Shape, skip: usize) {
    println!("\n{TITLE}, {shape}");
    heading("steps");
    let (whole_steps, whole) = timed(shape, 0);
    let (coarse_steps, coarse) = timed(shape, skip);
    let part = coarse_steps as f64 / whole_steps as f64;
    let parts = [0, 1, 2].map(|build| Some(coarse[build]? / whole[build]?));
    line("coarse / whole", &format!("{part:.4}"), 4, parts);
}

/// Times one cycle and prints its line.
fn timed(shape: Shape, skip: usize) -> (usize, Numbers) {
    let work = Steps::whole(shape, skip);
    let times = times(shape, Work::Steps(work)).map(|time| time.map(micros));
    let title = format!("{skip} digits skipped, µs");
    line(&title, &work.steps.to_string(), 1, times);
    (work.steps, times)
}
