//! A belt change as a user makes it: a clear, and then each row is programmed
//! with levels of its own, one call for each.

use std::time::Duration;

use peer::testing::naive::spec::questions;
use peer::testing::random::Random;
use peer::testing::records::{cycle_of, words_of, Words};
use peer::Shape;

use crate::rules::Rules;
use crate::{in_c, least, proved_calls, timed, Bench, Build, Pieces};

/// What its lines are called.
pub const TITLE: &str = "belt change";

/// A record that looks open and shares no word with the idle one.
const FOREIGN: Words = [1; 7];

/// The least times of its pieces: the clear is the first of them.
pub fn change(shape: Shape) -> Pieces {
    let mut random = Random::new(17);
    let belt = Belt::drawn(&mut random, shape);
    let begin = foreign(&mut random, shape);
    let (least, end) = least(&begin, |build, bench| belt.run(build, bench));
    belt.check_end(&end);
    least
}

/// Any bytes in the array, and a record that is none of its own.
fn foreign(random: &mut Random, shape: Shape) -> Bench {
    let mut bench = Bench::fresh(shape);
    bench.words = FOREIGN;
    bench.state = bench.state.map(|buffer| random.bytes(buffer.len()));
    bench
}

struct Belt {
    /// What the rows are to hold.
    rules: Rules,
    /// What the clear is to leave.
    fresh: Bench,
}

impl Belt {
    fn drawn(random: &mut Random, shape: Shape) -> Belt {
        Belt {
            rules: Rules::drawn(random, shape),
            fresh: Bench::fresh(shape),
        }
    }

    /// One run: the times of its pieces. What the clear leaves is looked at in
    /// between, outside of the time: afterwards every cell is written anew.
    fn run(&self, build: Build, bench: &mut Bench) -> Vec<Duration> {
        let mut pieces = self.clear(build, bench);
        assert!(*bench == self.fresh, "this is not the fresh array");
        pieces.extend(self.rules.program(build, bench));
        pieces
    }

    fn clear(&self, build: Build, Bench { words, state, .. }: &mut Bench) -> Vec<Duration> {
        let shape = self.rules.shape;
        let array = in_c::Array::new(shape);
        timed(1, |_| match build {
            Build::Proved => assert_eq!(proved_calls::clear(words, shape, state.lend()), 0),
            Build::Rust => {
                let (cycle, answer) = peer::clear(shape, state.lend(), cycle_of(words));
                assert_eq!(answer, Ok(()));
                *words = words_of(cycle);
            }
            Build::C => in_c::clear(&array, words, state.lend()),
        })
    }

    /// Each row is sound and holds its levels; all else is that of the fresh
    /// array, the idle record too.
    fn check_end(&self, end: &Bench) {
        let spec = questions(self.rules.shape).expect("a good shape");
        let cells = &end.state.cells;
        for (row, levels) in self.rules.rows() {
            let row = spec.row(cells, row);
            assert!(row.starts_with(levels) && spec.is_sound(row));
        }
        let mut wanted = self.fresh.clone();
        wanted.state.cells.copy_from_slice(cells);
        assert!(*end == wanted, "more than the cells was written");
    }
}
