//! The rule of a cell and of a match line.
//!
//! A row's line byte is 0 for a sound line, 2 for a shorted one, and any other for
//! a dead one. What the cells say counts in a row with a sound line alone: a
//! shorted row matches every vector, and a dead one none.

/// The match byte of a row under inputs that are levels: 1 where its line is
/// sound and every cell answers 1, and where its line is shorted; else 0. A cell
/// answers 1 exactly when its input is at most what it holds. Cells past the last
/// input are fed 0 and so always answer 1.
///
/// The line is looked at without a branch, so that a loop over rows can take
/// many of them at a time.
#[inline]
pub fn match_byte(line: u8, row: &[u8], levels: &[u8]) -> u8 {
    let answered = row
        .iter()
        .zip(levels)
        .fold(true, |all, (&cell, &level)| all & answers(cell, level));
    u8::from(answered & is_sound(line) | is_shorted(line))
}

/// Writes the match bytes of all rows under a vector with an input of q. Every
/// cell answers 0 to that, whatever byte it holds, so that the lines alone decide.
pub(crate) fn match_beyond(lines: &[u8], matches: &mut [u8]) {
    for (&line, matched) in lines.iter().zip(matches) {
        *matched = u8::from(is_shorted(line));
    }
}

/// Whether a cell answers 1 to an input that is a level.
#[inline]
pub(crate) fn answers(cell: u8, level: u8) -> bool {
    level <= cell
}

/// Whether a line byte is that of a sound line.
#[inline]
pub(crate) fn is_sound(line: u8) -> bool {
    line == 0
}

/// Whether a line byte is that of a shorted line.
#[inline]
pub(crate) fn is_shorted(line: u8) -> bool {
    line == 2
}
