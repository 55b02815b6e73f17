//! Task lookups and first matches, one call for each of many inputs.

use std::time::Duration;

use peer::testing::inputs::as_inputs;
use peer::testing::naive::spec::{questions, Spec};
use peer::testing::random::Random;
use peer::{Shape, State};

use crate::{drifted, drifted_to_search, in_c, least, proved_calls, timed_each};
use crate::{Bench, Build, Pieces};

/// The two calls.
#[derive(Clone, Copy, PartialEq, Eq)]
pub enum Lookup {
    Task,
    First,
}

/// How many inputs are looked up.
pub const CALLS: usize = 400;

impl Lookup {
    /// What its lines are called.
    pub fn title(self) -> &'static str {
        match self {
            Lookup::Task => "task lookup",
            Lookup::First => "first match",
        }
    }

    /// The least times of the pieces of all calls.
    pub fn all(self, shape: Shape) -> Pieces {
        let begin = match self {
            Lookup::Task => drifted(shape),
            Lookup::First => drifted_to_search(shape),
        };
        let tasks = Tasks::drawn(&begin, shape, self);
        let (least, _) = least(&begin, |build, bench| tasks.run(build, bench));
        least
    }
}

/// The inputs of each call, with the answer that they get: the number of matches,
/// or the first row that matches, m where there is none.
struct Tasks {
    shape: Shape,
    lookup: Lookup,
    inputs: Vec<(Vec<u16>, usize)>,
}

impl Tasks {
    /// In turn any levels, and those that a row holds in its rule cells.
    fn drawn(begin: &Bench, shape: Shape, lookup: Lookup) -> Tasks {
        let mut random = Random::new(18);
        let spec = questions(shape).expect("a good shape");
        let draw = |call: usize| {
            let mut levels = random.levels(spec.levels, shape.width);
            if call.is_multiple_of(2) {
                let row = spec.row(&begin.state.cells, random.below(shape.rows));
                levels.copy_from_slice(&row[..shape.width]);
            }
            let inputs = as_inputs(&levels);
            let answer = wanted(&spec, &begin.state, &inputs, lookup);
            (inputs, answer)
        };
        Tasks {
            shape,
            lookup,
            inputs: (0..CALLS).map(draw).collect(),
        }
    }

    /// One run: the times of its pieces. Each answer is looked at, and the match
    /// bytes that the last task lookup leaves are compared.
    fn run(&self, build: Build, bench: &mut Bench) -> Vec<Duration> {
        let Bench { state, matches, .. } = bench;
        let array = in_c::Array::new(self.shape);
        timed_each(self.inputs.iter(), |(inputs, answer)| {
            let given = match self.lookup {
                Lookup::Task => look_up(build, self.shape, &array, state, inputs, matches),
                Lookup::First => find(build, self.shape, &array, state, inputs),
            };
            assert_eq!(given, *answer);
        })
    }
}

/// The answer by the definitions.
fn wanted(spec: &Spec, state: &State<Vec<u8>>, inputs: &[u16], lookup: Lookup) -> usize {
    let inputs = spec.task_inputs(inputs);
    let matches = spec.match_bytes(&state.cells, &state.lines, &inputs);
    let mut matching = (0..spec.shape.rows).filter(|&row| matches[row] == 1);
    match lookup {
        Lookup::Task => matching.count(),
        Lookup::First => matching.next().unwrap_or(spec.shape.rows),
    }
}

/// A task lookup: the number of matches.
fn look_up(
    build: Build,
    shape: Shape,
    array: &in_c::Array,
    State { cells, lines, .. }: &State<Vec<u8>>,
    inputs: &[u16],
    matches: &mut [u8],
) -> usize {
    match build {
        Build::Proved => {
            let (number, count) = proved_calls::lookup(shape, cells, lines, inputs, matches);
            assert_eq!(number, 0);
            count
        }
        Build::Rust => peer::lookup(shape, cells, lines, inputs, matches).expect("a good task"),
        Build::C => in_c::lookup(array, cells, lines, inputs, matches),
    }
}

/// A first match: the row, m where there is none.
fn find(
    build: Build,
    shape: Shape,
    array: &in_c::Array,
    State { cells, lines, .. }: &State<Vec<u8>>,
    inputs: &[u16],
) -> usize {
    match build {
        Build::Proved => {
            let (number, found) = proved_calls::first_match(shape, cells, lines, inputs);
            assert_eq!(number, 0);
            found
        }
        Build::Rust => {
            let first = peer::first_match(shape, cells, lines, inputs);
            first.expect("a good task").unwrap_or(shape.rows)
        }
        Build::C => in_c::first_match(array, cells, lines, inputs),
    }
}
