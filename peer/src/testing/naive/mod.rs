//! The definitions written out in the plainest way, to compare with. Nothing
//! here uses the library but for the names of a shape, an array, a record and
//! a call.

pub mod calls;
pub mod job;
pub mod panel;
pub mod router;
pub mod schedule;
pub mod sizes;
pub mod spec;

/// Yes goes on, no gives the number.
fn ask(yes: bool, number: u8) -> Result<(), u8> {
    if yes {
        Ok(())
    } else {
        Err(number)
    }
}

/// Question 8 for levels and values: all of them are below q.
fn all_below(levels: &[u8], bound: usize) -> bool {
    levels.iter().all(|&level| usize::from(level) < bound)
}

/// Question 8 for inputs: none of them is above q.
fn none_above(inputs: &[u16], bound: usize) -> bool {
    !inputs.iter().any(|&input| usize::from(input) > bound)
}
