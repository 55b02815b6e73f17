//! Programming, ask and commit of the same rows, one call for each. All rows are
//! programmed; then on the array as it was they are asked for, and then committed.

use std::time::Duration;

use peer::testing::naive::spec::questions;
use peer::testing::random::Random;
use peer::testing::records::{cycle_of, words_of};
use peer::{Cycle, Shape};

use crate::rules::Rules;
use crate::{begin_line, drifted, in_c, least, print_numbers, print_times, proved_calls, ratios};
use crate::{timed_each, Bench, Build, Times, PIECE};

/// By what its lines are chosen.
pub const TITLE: &str = "program, ask, commit";

/// The lines of all shapes; the first two have the least to encode for their width.
pub fn all_lines() {
    for (radix, digits, errors, width) in [
        (2, 1, 1, 1),
        (255, 1, 1, 254),
        (2, 3, 1, 50),
        (16, 2, 2, 60),
        (2, 8, 2, 247),
    ] {
        lines(Shape::new(radix, digits, errors, width, 4096));
    }
}

/// Times the three and prints a line for each, and for ask and commit what part of
/// programming's time they take.
fn lines(shape: Shape) {
    let [program, ask, commit] = times(shape);
    for (title, times) in [("program", program), ("ask", ask), ("commit", commit)] {
        print_times(title, shape, shape.rows, shape.rows, times);
    }
    for (title, times) in [("ask / program", ask), ("commit / program", commit)] {
        begin_line(title, shape, shape.rows);
        print_numbers(2, ratios(times, program));
        println!();
    }
}

/// The least times of programming, ask and commit of all rows.
fn times(shape: Shape) -> [Times; 3] {
    let asks = Asks::drawn(shape);
    let (least, _) = least(&asks.begin, |build, bench| asks.run(build, bench));
    let pieces = shape.rows.div_ceil(PIECE);
    [0, 1, 2].map(|call| {
        let of_build = |all: &Vec<Duration>| Some(all.chunks(pieces).nth(call)?.iter().sum());
        least.each_ref().map(of_build)
    })
}

struct Asks {
    rules: Rules,
    /// An array of other rows, whose cycle is open.
    begin: Bench,
    /// The same with the rules in it, whose cycle is idle.
    end: Bench,
    /// In how many cells the two differ.
    changed: usize,
}

impl Asks {
    fn drawn(shape: Shape) -> Asks {
        let rules = Rules::drawn(&mut Random::new(19), shape);
        let spec = questions(shape).expect("a good shape");
        let mut begin = drifted(shape);
        begin.words = words_of(Cycle::open(0));
        let mut end = begin.clone();
        end.words = words_of(Cycle::IDLE);
        end.state.cells = rules
            .rows()
            .flat_map(|(_, levels)| spec.encoded(levels))
            .collect();
        let cells = begin.state.cells.iter().zip(&end.state.cells);
        let changed = cells.filter(|(before, after)| before != after).count();
        Asks {
            rules,
            begin,
            end,
            changed,
        }
    }

    /// One run: the times of the pieces of programming, of ask and of commit. What
    /// each leaves is looked at outside of the time.
    fn run(&self, build: Build, bench: &mut Bench) -> Vec<Duration> {
        let mut pieces = self.rules.program(build, bench);
        assert!(*bench == self.end, "this is not what programming leaves");
        bench.copy_from(&self.begin);
        let mut finished = vec![0; bench.state.cells.len()];
        pieces.extend(self.ask(build, bench, &mut finished));
        assert!(*bench == self.begin, "an ask changed the array");
        assert!(
            finished == self.end.state.cells,
            "other rows were asked for"
        );
        pieces.extend(self.commit(build, bench, &finished));
        assert!(*bench == self.end, "this is not what programming leaves");
        pieces
    }

    /// The cells of one row.
    fn columns(&self) -> usize {
        self.end.state.cells.len() / self.rules.shape.rows
    }

    fn ask(&self, build: Build, bench: &Bench, finished: &mut [u8]) -> Vec<Duration> {
        let (shape, cells) = (self.rules.shape, &bench.state.cells);
        let array = in_c::Array::new(shape);
        let rows = self.rules.rows();
        let rows = rows.zip(finished.chunks_exact_mut(self.columns()));
        let mut all = 0;
        let pieces = timed_each(rows, |((row, levels), finished)| {
            all += match build {
                Build::Proved => {
                    let (number, changed) = proved_calls::ask(shape, cells, row, levels, finished);
                    assert_eq!(number, 0);
                    changed
                }
                Build::Rust => peer::ask(shape, cells, row, levels, finished).expect("a good rule"),
                Build::C => in_c::ask(&array, cells, row, levels, finished),
            };
        });
        assert_eq!(all, self.changed);
        pieces
    }

    fn commit(&self, build: Build, bench: &mut Bench, finished: &[u8]) -> Vec<Duration> {
        let Bench { words, state, .. } = bench;
        let (shape, cells) = (self.rules.shape, &mut state.cells);
        let array = in_c::Array::new(shape);
        let rows = finished.chunks_exact(self.columns()).enumerate();
        match build {
            Build::Proved => timed_each(rows, |(row, finished)| {
                let number = proved_calls::commit(words, shape, cells, row, finished);
                assert_eq!(number, 0);
            }),
            Build::Rust => {
                let mut cycle = cycle_of(words);
                let pieces = timed_each(rows, |(row, finished)| {
                    let (next, answer) = peer::commit(shape, cells, row, finished, cycle);
                    assert_eq!(answer, Ok(()));
                    cycle = next;
                });
                *words = words_of(cycle);
                pieces
            }
            Build::C => timed_each(rows, |(row, finished)| {
                let number = in_c::commit(&array, words, cells, row, finished);
                assert_eq!(number, 0);
            }),
        }
    }
}
