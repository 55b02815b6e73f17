//! Steps one call for each, by calls of several, and by the call for a whole cycle.
//! The loops in C are timed in two ways: step by step, as in the other tables, and
//! with the cells of the column held in a buffer, from which its tests count.

use std::time::Duration;

use peer::testing::records::{cycle_of, words_of};
use peer::{Cycle, Refusal, Shape};

use crate::{cell, check_end, drifted, in_c, least_of, proved_calls, timed, timed_in};
use crate::{Bench, Patience, Steps};

/// What the table is called.
pub const TITLE: &str = "several steps";

/// Of a long cycle so many steps are timed, but for the call for the whole of it.
const STEPS: usize = 4_096;

/// The steps of one piece.
const PIECE: usize = 512;

/// For steps, and for whole cycles, of which the longest take seconds.
const PATIENCE: Patience = Patience {
    least: Duration::from_millis(600),
    runs: 7,
};
const PATIENCE_OF_RUNS: Patience = Patience {
    least: Duration::from_millis(600),
    runs: 5,
};

/// The calls that make the steps.
#[derive(Clone, Copy, PartialEq, Eq)]
enum Calls {
    Single,
    Several(usize),
    Run,
}

const CALLS: [Calls; 4] = [
    Calls::Single,
    Calls::Several(8),
    Calls::Several(64),
    Calls::Run,
];

/// Who makes them.
#[derive(Clone, Copy, PartialEq, Eq)]
enum Way {
    Proved,
    Rust,
    C,
    Held,
}

const WAYS: [Way; 4] = [Way::Proved, Way::Rust, Way::C, Way::Held];

/// Prints the table: the nanoseconds of a step on arrays of all these sizes, and on
/// one of a single row, which is the part that does not hang on their number.
pub fn table() {
    heading();
    lines(Shape::new(2, 3, 2, 50, 1));
    for rows in [64, 512, 4096] {
        for width in [50, 120, 247] {
            for digits in [1, 3, 8] {
                lines(Shape::new(2, digits, 2, width, rows));
            }
        }
    }
}

fn heading() {
    println!("\n{TITLE}, radix 2, errors 2");
    println!("{:47} | {:^39} | {:^20}", "", "ns per step", "proved /");
    print!("{:14} rows width columns digits  steps |", "calls");
    for way in ["proved", "Rust", "C", "C held"] {
        print!(" {way:>9}");
    }
    println!(" | {:>6} {:>6} {:>6}", "Rust", "C", "C held");
}

/// Times all calls on arrays of the shape and prints a line for each.
fn lines(shape: Shape) {
    for calls in CALLS {
        let work = Work::new(shape, calls);
        let [proved, others @ ..] = work.times();
        let layout = shape.layout().expect("a good shape");
        print!("{:14} {:4} {:5}", calls.title(), shape.rows, shape.width);
        print!(" {:7} {:6}", layout.columns(), shape.digits);
        print!(" {:6} | {}", work.steps.steps, cell(9, 1, proved));
        for other in others {
            print!(" {}", cell(9, 1, other));
        }
        print!(" |");
        for other in others {
            let ratio = proved.zip(other).map(|(proved, other)| proved / other);
            print!(" {}", cell(6, 2, ratio));
        }
        println!();
    }
}

impl Calls {
    fn title(self) -> String {
        match self {
            Calls::Single => "single steps".to_string(),
            Calls::Several(most) => format!("steps of {most}"),
            Calls::Run => "run".to_string(),
        }
    }

    /// Whether the steps can be made in the way: single steps hold no column.
    fn has(self, way: Way) -> bool {
        match way {
            Way::Proved | Way::Rust => true,
            Way::C => in_c::THERE,
            Way::Held => in_c::THERE && self != Calls::Single,
        }
    }
}

/// What is timed: a start, and so many steps by these calls.
struct Work {
    shape: Shape,
    calls: Calls,
    steps: Steps,
}

impl Work {
    fn new(shape: Shape, calls: Calls) -> Work {
        let mut steps = Steps::whole(shape, 0);
        if calls != Calls::Run {
            steps.steps = steps.steps.min(STEPS);
        }
        Work {
            shape,
            calls,
            steps,
        }
    }

    /// The nanoseconds of a step in each way, none where it is not there.
    fn times(&self) -> [Option<f64>; 4] {
        let begin = drifted(self.shape);
        let patience = match self.calls {
            Calls::Run => PATIENCE_OF_RUNS,
            _ => PATIENCE,
        };
        let ways: Vec<Way> = WAYS
            .into_iter()
            .filter(|&way| self.calls.has(way))
            .collect();
        let (least, end) = least_of(&ways, patience, &begin, |way, bench| self.run(way, bench));
        check_end(&begin, &end, self.steps, self.shape);
        WAYS.map(|way| {
            let place = ways.iter().position(|&there| there == way)?;
            let time: Duration = least[place].iter().sum();
            Some(time.as_secs_f64() * 1e9 / self.steps.steps as f64)
        })
    }

    fn run(&self, way: Way, bench: &mut Bench) -> Vec<Duration> {
        match way {
            Way::Proved => self.proved(bench),
            Way::Rust => self.rust(bench),
            Way::C | Way::Held => self.c(way, bench),
        }
    }

    /// The times of the pieces of all steps, whose making is given: it is told how
    /// many a call is to make.
    fn timed(&self, mut call: impl FnMut(usize)) -> Vec<Duration> {
        let most = match self.calls {
            Calls::Several(most) => most,
            _ => 1,
        };
        timed_in(PIECE, self.steps.steps, |steps| {
            for made in (0..steps).step_by(most) {
                call(most.min(steps - made));
            }
        })
    }

    fn proved(&self, bench: &mut Bench) -> Vec<Duration> {
        let Bench {
            words,
            state,
            matches,
            ..
        } = bench;
        let (shape, skip) = (self.shape, self.steps.skip);
        let mut number = 0;
        if self.calls != Calls::Run {
            number |= proved_calls::start(words, shape, skip, state.lend());
        }
        let pieces = match self.calls {
            Calls::Single => {
                self.timed(|_| number |= proved_calls::step(words, shape, state.lend(), matches))
            }
            Calls::Several(_) => self.timed(|most| {
                number |= proved_calls::steps(words, shape, most, state.lend(), matches);
            }),
            Calls::Run => timed(1, |_| {
                number |= proved_calls::run(words, shape, skip, state.lend(), matches);
            }),
        };
        assert_eq!(number, 0);
        pieces
    }

    fn rust(&self, bench: &mut Bench) -> Vec<Duration> {
        let Bench {
            words,
            state,
            matches,
            ..
        } = bench;
        let (shape, skip) = (self.shape, self.steps.skip);
        let mut cycle = cycle_of(words);
        let keep = |(next, answer): (Cycle, Result<(), Refusal>)| {
            assert_eq!(answer, Ok(()));
            next
        };
        if self.calls != Calls::Run {
            cycle = keep(peer::start(shape, skip, state.lend(), cycle));
        }
        let pieces = match self.calls {
            Calls::Single => {
                self.timed(|_| cycle = keep(peer::step(shape, state.lend(), matches, cycle)))
            }
            Calls::Several(_) => self.timed(|most| {
                cycle = keep(peer::steps(shape, most, state.lend(), matches, cycle));
            }),
            Calls::Run => timed(1, |_| {
                cycle = keep(peer::run(shape, skip, state.lend(), matches, cycle));
            }),
        };
        *words = words_of(cycle);
        pieces
    }

    fn c(&self, way: Way, bench: &mut Bench) -> Vec<Duration> {
        let Bench {
            words,
            state,
            matches,
            ..
        } = bench;
        let array = in_c::Array::new(self.shape);
        let mut held = vec![0; self.shape.rows];
        let Steps { skip, steps } = self.steps;
        let mut make = |words: &mut _, state: &mut peer::State<Vec<u8>>, steps| match way {
            Way::Held => in_c::held_steps(&array, words, state.lend(), matches, &mut held, steps),
            _ => in_c::steps(&array, words, state.lend(), matches, steps),
        };
        if self.calls == Calls::Run {
            return timed(1, |_| {
                in_c::start(&array, words, skip, state.lend());
                make(words, state, steps);
            });
        }
        in_c::start(&array, words, skip, state.lend());
        self.timed(|most| make(words, state, most))
    }
}
