//! Times of three builds side by side: the proved library, this build in safe
//! Rust, and plain loops in C (loops.c says what these leave out). All three
//! work in turn on the same buffers, which are set to the same bytes before
//! each run, and must leave the same bytes. A run is timed in pieces; of each
//! piece the least time of several runs counts. Words given after `--` choose
//! the lines whose title has one of them. The works are cycles, programming, ask
//! and commit of the same rows, a belt change (a clear and the programming of
//! every row), task lookups and first matches, and belt rules and routes beside
//! programming and first match. At the end a coarse cycle is timed
//! beside the one of all digits, the panel beside a full reading of the flags, and
//! calls of several steps and of a whole cycle beside single steps.

mod asks;
mod belt;
mod coarse;
mod in_c;
mod lookups;
mod panel;
#[path = "../../tests/proved_calls/mod.rs"]
mod proved_calls;
mod router;
mod rules;
mod several;
mod small_table;

use std::time::{Duration, Instant};

use lookups::Lookup;
use peer::testing::naive::spec::questions;
use peer::testing::random::Random;
use peer::testing::records::{cycle_of, words_of, Words};
use peer::testing::rows::sound_row;
use peer::{Cycle, Phase, Shape, State};
use small_table::Numbers;

/// How long a work is run.
#[derive(Clone, Copy)]
struct Patience {
    /// The least time of all runs.
    least: Duration,
    /// The least number of runs.
    runs: usize,
}

/// What is spent on each line of the table.
const PATIENCE: Patience = Patience {
    least: Duration::from_secs(1),
    runs: 7,
};

/// The steps or lookups of one piece, and the rows of one piece where they are
/// programmed, asked for or committed.
const PIECE: usize = 40;

#[derive(Clone, Copy, PartialEq, Eq)]
enum Build {
    Proved,
    Rust,
    C,
}

const BUILDS: [Build; 3] = [Build::Proved, Build::Rust, Build::C];

/// All that a run works on.
#[derive(Clone, PartialEq, Eq)]
struct Bench {
    words: Words,
    state: State<Vec<u8>>,
    matches: Vec<u8>,
    belts: Vec<u8>,
}

impl Bench {
    /// The fresh array.
    fn fresh(shape: Shape) -> Bench {
        Bench {
            words: words_of(Cycle::IDLE),
            state: State::fresh(&shape.layout().expect("a good shape")),
            matches: vec![0; shape.rows],
            belts: vec![0; shape.rows],
        }
    }

    /// The same bytes at the same addresses as before.
    fn copy_from(&mut self, other: &Bench) {
        self.words = other.words;
        let buffers = self.state.each_mut().into_array().into_iter();
        for (buffer, other) in buffers.zip(other.state.each().into_array()) {
            buffer.copy_from_slice(other);
        }
        self.matches.copy_from_slice(&other.matches);
        self.belts.copy_from_slice(&other.belts);
    }
}

/// A start with z, and so many steps.
#[derive(Clone, Copy)]
struct Steps {
    skip: usize,
    steps: usize,
}

impl Steps {
    /// The first steps of a cycle of all digits, its openings among them.
    fn first(steps: usize) -> Steps {
        Steps { skip: 0, steps }
    }

    /// A whole cycle.
    fn whole(shape: Shape, skip: usize) -> Steps {
        let layout = shape.layout().expect("a good shape");
        Steps {
            skip,
            steps: layout.steps(skip),
        }
    }
}

/// What is timed.
#[derive(Clone, Copy)]
enum Work {
    /// A start and steps, one call for each.
    Steps(Steps),
    /// A clear and the programming of all rows, one call for each.
    Belt,
    /// Task lookups or first matches.
    Lookups(Lookup),
}

/// The times of the pieces of a run by each build, no piece by C where it is not
/// there.
type Pieces = [Vec<Duration>; 3];

/// The time of each build, none for C where it is not there.
type Times = [Option<Duration>; 3];

fn main() {
    heading();
    for errors in [1, 2, 3] {
        let shape = Shape::new(2, 3, errors, 50, 512);
        line("cycle, Example 1", shape, whole(shape));
    }
    let largest = Shape::new(2, 8, 2, 247, 4096);
    line("first steps", largest, Work::Steps(Steps::first(2_000)));
    if chosen(asks::TITLE) {
        asks::all_lines();
    }
    for rows in [64, 512, 4096] {
        let shape = Shape::new(2, 3, 2, 50, rows);
        line("cycle, more rows", shape, whole(shape));
    }
    for width in [50, 120, 247] {
        let shape = Shape::new(2, 3, 2, width, 512);
        let first = Work::Steps(Steps::first(1_000));
        line("1,000 steps, wider", shape, first);
    }
    for (radix, digits) in [(2, 8), (16, 2)] {
        for width in [60, 247] {
            let shape = Shape::new(radix, digits, 2, width, 4096);
            line(belt::TITLE, shape, Work::Belt);
        }
    }
    for shape in [Shape::new(2, 3, 2, 50, 512), largest] {
        for lookup in [Lookup::Task, Lookup::First] {
            line(lookup.title(), shape, Work::Lookups(lookup));
        }
    }
    if chosen(router::TITLE) {
        router::all_lines();
    }
    tables(largest);
}

/// The tables after the lines.
fn tables(largest: Shape) {
    if chosen(coarse::TITLE) {
        coarse::table(Shape::new(2, 8, 2, 60, 512), 4);
    }
    if chosen(panel::TITLE) {
        panel::table(largest);
    }
    if chosen(several::TITLE) {
        several::table();
    }
}

/// A whole cycle of all digits.
fn whole(shape: Shape) -> Work {
    Work::Steps(Steps::whole(shape, 0))
}

fn heading() {
    match in_c::COMPILER {
        Some(compiler) => println!("C: {compiler} -O3"),
        None => println!("C: no compiler was found"),
    }
    println!(
        "{:55} | {:^29} | {:^29} | {:^13}",
        "", "microseconds", "ns per row (and call)", "proved /"
    );
    print!("{:18} radix digits errors width rows calls |", "work");
    for _ in 0..2 {
        print!(" {:>9} {:>9} {:>9} |", "proved", "Rust", "C");
    }
    println!(" {:>6} {:>6}", "Rust", "C");
}

/// Times one work and prints its line.
fn line(title: &str, shape: Shape, work: Work) {
    if !chosen(title) {
        return;
    }
    let (calls, row_steps) = match work {
        Work::Steps(Steps { steps, .. }) => (steps, steps * shape.rows),
        Work::Belt => (1 + shape.rows, shape.rows),
        Work::Lookups(_) => (lookups::CALLS, lookups::CALLS * shape.rows),
    };
    print_times(title, shape, calls, row_steps, times(shape, work));
}

/// Prints a line with the times of so many calls, and of each row in them.
fn print_times(title: &str, shape: Shape, calls: usize, row_steps: usize, times: Times) {
    let all = times.map(|time| time.map(micros));
    let each = all.map(|time| time.map(|time| time * 1e3 / row_steps as f64));
    begin_line(title, shape, calls);
    print_numbers(1, all);
    print_numbers(3, each);
    let [proved, rust, c] = all;
    for other in [rust, c] {
        let ratio = proved.zip(other).map(|(proved, other)| proved / other);
        print!(" {}", cell(6, 2, ratio));
    }
    println!();
}

/// What stands before the numbers of a line.
fn begin_line(title: &str, shape: Shape, calls: usize) {
    print!("{title:18} {:5} {:6}", shape.radix, shape.digits);
    print!(" {:6} {:5} {:4}", shape.errors, shape.width, shape.rows);
    print!(" {calls:5} |");
}

/// A number for each build, with so many places after the point.
fn print_numbers(places: usize, numbers: Numbers) {
    for number in numbers {
        print!(" {}", cell(9, places, number));
    }
    print!(" |");
}

/// What part of other times these are.
fn ratios(times: Times, other: Times) -> Numbers {
    [0, 1, 2].map(|build| Some(micros(times[build]?) / micros(other[build]?)))
}

/// Whether the words of the command line choose the title.
fn chosen(title: &str) -> bool {
    let mut words = std::env::args()
        .skip(1)
        .filter(|word| !word.starts_with('-'))
        .peekable();
    words.peek().is_none() || words.any(|word| title.contains(&word))
}

fn micros(time: Duration) -> f64 {
    time.as_secs_f64() * 1e6
}

/// A number of the table, or a dash.
fn cell(width: usize, places: usize, number: Option<f64>) -> String {
    match number {
        Some(number) => format!("{number:width$.places$}"),
        None => format!("{:>width$}", "-"),
    }
}

/// The least time of each build, none for C where it is not there.
fn times(shape: Shape, work: Work) -> Times {
    let least = match work {
        Work::Steps(steps) => cycle(shape, steps),
        Work::Belt => belt::change(shape),
        Work::Lookups(lookup) => lookup.all(shape),
    };
    least.map(|pieces| (!pieces.is_empty()).then(|| pieces.iter().sum()))
}

/// The least times of the pieces of a start and steps.
fn cycle(shape: Shape, steps: Steps) -> Pieces {
    let begin = drifted(shape);
    let (least, end) = least(&begin, |build, bench| match build {
        Build::Proved => proved_steps(shape, steps, bench),
        Build::Rust => rust_steps(shape, steps, bench),
        Build::C => c_steps(shape, steps, bench),
    });
    check_end(&begin, &end, steps, shape);
    least
}

/// The least times of all pieces of a run by each build; and what each run
/// leaves.
fn least(begin: &Bench, run: impl FnMut(Build, &mut Bench) -> Vec<Duration>) -> (Pieces, Bench) {
    let there = |build: &Build| *build != Build::C || in_c::THERE;
    let builds: Vec<Build> = BUILDS.into_iter().filter(there).collect();
    let (mut least, end) = least_of(&builds, PATIENCE, begin, run);
    least.resize(BUILDS.len(), Vec::new());
    (least.try_into().expect("one for each build"), end)
}

/// The least times of all pieces of a run in each way, which take turns; and what
/// each run leaves.
fn least_of<W: Copy>(
    ways: &[W],
    patience: Patience,
    begin: &Bench,
    mut run: impl FnMut(W, &mut Bench) -> Vec<Duration>,
) -> (Vec<Vec<Duration>>, Bench) {
    let mut bench = begin.clone();
    let mut end: Option<Bench> = None;
    let mut least = vec![Vec::new(); ways.len()];
    let clock = Instant::now();
    let mut runs = 0;
    while runs < patience.runs || clock.elapsed() < patience.least {
        runs += 1;
        for (&way, least) in ways.iter().zip(&mut least) {
            bench.copy_from(begin);
            let pieces = run(way, &mut bench);
            if least.is_empty() {
                least.clone_from(&pieces);
            }
            for (least, time) in least.iter_mut().zip(pieces) {
                *least = time.min(*least);
            }
            let end = end.get_or_insert_with(|| bench.clone());
            assert!(bench == *end, "the builds leave different bytes");
        }
    }
    (least, end.expect("a run"))
}

/// All steps were made; a whole cycle flags and counts the rows with a dead or a
/// shorted line and those that drifted in a digit that it does not skip.
fn check_end(begin: &Bench, end: &Bench, Steps { skip, steps }: Steps, shape: Shape) {
    let cycle = cycle_of(&end.words);
    assert_eq!((cycle.count, cycle.skip), (steps, skip));
    if steps == Steps::whole(shape, skip).steps {
        assert_eq!(cycle.phase, Phase::Complete);
        let spec = questions(shape).expect("a good shape");
        for (row, &flag) in end.state.flags.iter().enumerate() {
            let sound = begin.state.lines[row] == 0;
            let row = spec.row(&begin.state.cells, row);
            assert_eq!(flag == 0, sound && spec.sums_hold(row, skip));
        }
        let State { flags, totals, .. } = &end.state;
        let panel = peer::panel(shape, flags, totals).expect("a good array");
        assert_eq!(panel.total, flags.iter().filter(|&&flag| flag != 0).count());
    }
}

/// The times of all pieces of a work, which is told how much of it to do.
fn timed(all: usize, work: impl FnMut(usize)) -> Vec<Duration> {
    timed_in(PIECE, all, work)
}

/// The same for pieces of another size.
fn timed_in(piece: usize, all: usize, mut work: impl FnMut(usize)) -> Vec<Duration> {
    (0..all)
        .step_by(piece)
        .map(|done| {
            let clock = Instant::now();
            work(piece.min(all - done));
            clock.elapsed()
        })
        .collect()
}

/// The times of all pieces of a work on each of the items.
fn timed_each<I: ExactSizeIterator>(mut items: I, mut work: impl FnMut(I::Item)) -> Vec<Duration> {
    timed(items.len(), |count| {
        items.by_ref().take(count).for_each(&mut work)
    })
}

fn proved_steps(shape: Shape, work: Steps, bench: &mut Bench) -> Vec<Duration> {
    let Bench {
        words,
        state,
        matches,
        ..
    } = bench;
    let mut number = 0;
    let mut pieces = timed(1, |_| {
        number |= proved_calls::start(words, shape, work.skip, state.lend())
    });
    pieces.extend(timed(work.steps, |steps| {
        for _ in 0..steps {
            number |= proved_calls::step(words, shape, state.lend(), matches);
        }
    }));
    assert_eq!(number, 0);
    pieces
}

fn rust_steps(shape: Shape, work: Steps, bench: &mut Bench) -> Vec<Duration> {
    let Bench { state, matches, .. } = bench;
    let mut now = (Cycle::IDLE, Ok(()));
    let mut pieces = timed(1, |_| {
        now = peer::start(shape, work.skip, state.lend(), now.0)
    });
    pieces.extend(timed(work.steps, |steps| {
        for _ in 0..steps {
            let next = peer::step(shape, state.lend(), matches, now.0);
            now = (next.0, now.1.and(next.1));
        }
    }));
    assert_eq!(now.1, Ok(()));
    bench.words = words_of(now.0);
    pieces
}

fn c_steps(shape: Shape, work: Steps, bench: &mut Bench) -> Vec<Duration> {
    let Bench {
        words,
        state,
        matches,
        ..
    } = bench;
    let array = in_c::Array::new(shape);
    let mut pieces = timed(1, |_| in_c::start(&array, words, work.skip, state.lend()));
    pieces.extend(timed(work.steps, |steps| {
        in_c::steps(&array, words, state.lend(), matches, steps);
    }));
    pieces
}

/// Rows of random levels with their check cells; in every 16th one cell has
/// drifted in one binary digit, and of 32 one has a dead line and one a shorted one.
fn drifted(shape: Shape) -> Bench {
    let layout = shape.layout().expect("a good shape");
    let mut bench = Bench::fresh(shape);
    let mut random = Random::new(16);
    let rows = bench.state.cells.chunks_exact_mut(layout.columns());
    for (number, row) in rows.enumerate() {
        row.copy_from_slice(&sound_row(&mut random, &layout));
        if number % 16 == 5 {
            let column = random.below(layout.columns());
            row[column] ^= 1 << random.below(shape.digits);
        }
        bench.state.lines[number] = match number % 32 {
            9 => 1,
            25 => 2,
            _ => 0,
        };
    }
    bench
}

/// The same with sound lines for the shorted ones, the first of which would end
/// every search for a row.
fn drifted_to_search(shape: Shape) -> Bench {
    let mut bench = drifted(shape);
    for line in bench.state.lines.iter_mut().filter(|line| **line == 2) {
        *line = 0;
    }
    bench
}
