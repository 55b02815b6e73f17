//! The lines of a small table: a title, what it is of, and a number for each
//! build.

use std::fmt::Display;

use crate::cell;

/// A number for each build, none where it is not there.
pub type Numbers = [Option<f64>; 3];

/// The heading.
pub fn heading(of: &str) {
    print_line("", of, ["proved", "Rust", "C"]);
}

/// One line, with so many places after the point.
pub fn line(title: &str, of: &str, places: usize, numbers: Numbers) {
    let cells = numbers.map(|number| cell(9, places, number));
    print_line(title, of, cells);
}

fn print_line(title: &str, of: &str, [proved, rust, c]: [impl Display; 3]) {
    println!("{title:28} {of:13} | {proved:>9} {rust:>9} {c:>9}");
}
