//! The levels for each row, and the programming of all of them, one call for each.

use std::time::Duration;

use peer::testing::random::Random;
use peer::testing::records::{cycle_of, words_of};
use peer::Shape;

use crate::{in_c, proved_calls, timed_each, Bench, Build};

/// What the rows are to hold.
pub struct Rules {
    pub shape: Shape,
    /// k levels for each row, row after row.
    levels: Vec<u8>,
}

impl Rules {
    pub fn new(shape: Shape, levels: Vec<u8>) -> Rules {
        assert_eq!(levels.len(), shape.rows * shape.width);
        Rules { shape, levels }
    }

    pub fn drawn(random: &mut Random, shape: Shape) -> Rules {
        let layout = shape.layout().expect("a good shape");
        let levels = random.levels(layout.levels(), shape.rows * shape.width);
        Rules::new(shape, levels)
    }

    /// Each row with its levels.
    pub fn rows(&self) -> impl ExactSizeIterator<Item = (usize, &[u8])> {
        self.levels.chunks_exact(self.shape.width).enumerate()
    }

    /// Programs all rows: the times of the pieces.
    pub fn program(&self, build: Build, Bench { words, state, .. }: &mut Bench) -> Vec<Duration> {
        let (shape, cells) = (self.shape, &mut state.cells);
        let array = in_c::Array::new(shape);
        match build {
            Build::Proved => timed_each(self.rows(), |(row, levels)| {
                let number = proved_calls::program(words, shape, cells, row, levels);
                assert_eq!(number, 0);
            }),
            Build::Rust => {
                let mut cycle = cycle_of(words);
                let pieces = timed_each(self.rows(), |(row, levels)| {
                    let (next, answer) = peer::program(shape, cells, row, levels, cycle);
                    assert_eq!(answer, Ok(()));
                    cycle = next;
                });
                *words = words_of(cycle);
                pieces
            }
            Build::C => timed_each(self.rows(), |(row, levels)| {
                in_c::program(&array, words, cells, row, levels);
            }),
        }
    }
}
