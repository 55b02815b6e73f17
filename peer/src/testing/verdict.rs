//! What the flag of a row says after a cycle in which neither cells nor lines
//! changed.

use crate::testing::naive::spec::Spec;

/// A row of levels.
#[derive(Clone, Copy, Debug)]
pub struct Row<'a> {
    /// As it was written.
    pub written: &'a [u8],
    /// As it stands.
    pub standing: &'a [u8],
    /// Its line byte.
    pub line: u8,
}

impl Row<'_> {
    /// Whether its line is sound, and so neither dead nor shorted.
    pub fn has_sound_line(&self) -> bool {
        self.line == 0
    }

    /// The number of cells in which floor(level / ρ^z) differs.
    pub fn differing(&self, spec: &Spec, skip: usize) -> usize {
        let floor = |&level: &u8| usize::from(level) / spec.shape.radix.pow(skip as u32);
        let pairs = self.written.iter().zip(self.standing);
        pairs.filter(|(one, two)| floor(one) != floor(two)).count()
    }
}

/// The flag is right: 1 exactly where the line is not sound or a sum of the digits
/// from z on is not 0. Where the row differs in at most τ cells above the skipped
/// digits, that is exactly where the line is not sound or a cell differs there; and
/// a row whose line is not sound is flagged however many cells differ.
///
/// # Panics
///
/// If that is not so.
pub fn assert_flag(spec: &Spec, row: Row, skip: usize, flag: u8) {
    let shape = spec.shape;
    let right = |reason: bool| {
        assert_eq!(flag, u8::from(reason), "{shape} skip {skip} {row:?}");
    };
    let unsound_line = !row.has_sound_line();
    right(unsound_line || !spec.sums_hold(row.standing, skip));
    let differing = row.differing(spec, skip);
    if unsound_line || differing <= shape.errors {
        right(unsound_line || differing > 0);
    }
}
