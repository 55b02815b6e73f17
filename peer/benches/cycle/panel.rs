//! The panel beside a full reading of the flags, in an array with one flagged
//! row: in turn its first, its middle and its last one.

use std::hint::black_box;
use std::ops::Range;
use std::time::{Duration, Instant};

use peer::{Panel, Shape, State};

use crate::in_c::{self, Told};
use crate::small_table::{heading, line, Numbers};
use crate::{least, proved_calls, Bench, Build};

/// What the table is called.
pub const TITLE: &str = "panel and full reading";

/// The calls of one piece.
const CALLS: usize = 1_000;

/// How many pieces the panel has, and as many a full reading after them.
const PIECES: usize = 3;

/// The flagged row of each piece.
fn flagged_rows(rows: usize) -> [usize; PIECES] {
    [0, rows / 2, rows - 1]
}

/// Times both and prints the table: the mean of all pieces, and the last one,
/// which takes the panel the longest.
pub fn table(shape: Shape) {
    let begin = Bench::fresh(shape);
    let (least, _) = least(&begin, |build, bench| run(build, shape, bench));
    println!("\n{TITLE}, {} rows, one flagged", shape.rows);
    heading("flagged row");
    for (rows, of) in [("mean of three", mean as fn(&[_]) -> _), ("last", last)] {
        let times = |range: Range<usize>| {
            let pieces = least.each_ref().map(|all| all.get(range.clone()));
            pieces.map(|pieces| pieces.map(of))
        };
        let panel = times(0..PIECES);
        let reading = times(PIECES..2 * PIECES);
        let [_, rust, c] = reading;
        line("panel, ns", rows, 1, panel);
        line("full reading, ns", rows, 1, reading);
        line("panel / full reading in Rust", rows, 4, ratios(panel, rust));
        line("panel / full reading in C", rows, 4, ratios(panel, c));
    }
}

fn ratios(times: Numbers, other: Option<f64>) -> Numbers {
    times.map(|time| time.zip(other).map(|(time, other)| time / other))
}

/// The nanoseconds of one call, over all pieces.
fn mean(pieces: &[Duration]) -> f64 {
    pieces.iter().sum::<Duration>().as_secs_f64() * 1e9 / (pieces.len() * CALLS) as f64
}

/// The nanoseconds of one call in the last piece.
fn last(pieces: &[Duration]) -> f64 {
    mean(&pieces[PIECES - 1..])
}

/// One run: the times of the panel's pieces, and of those of a full reading
/// where the build has one.
fn run(build: Build, shape: Shape, bench: &mut Bench) -> Vec<Duration> {
    let array = in_c::Array::new(shape);
    match build {
        Build::Proved => panels(bench, |flags, totals| {
            let (number, told) = proved_calls::panel(black_box(shape), flags, totals);
            assert_eq!(number, 0);
            told
        }),
        Build::Rust => {
            let mut times = panels(bench, |flags, totals| rust_panel(shape, flags, totals));
            times.extend(readings(bench, reading));
            times
        }
        Build::C => {
            let mut times = panels(bench, |flags, totals| in_c::panel(&array, flags, totals));
            times.extend(readings(bench, |flags| in_c::reading(&array, flags)));
            times
        }
    }
}

fn rust_panel(shape: Shape, flags: &[u8], totals: &[u8]) -> Told {
    let panel = peer::panel(black_box(shape), flags, totals);
    let Panel { total, first, read } = panel.expect("a good array");
    [total, first.unwrap_or(shape.rows), read]
}

/// The number of flagged rows and the first of them, by one loop over all flags.
fn reading(flags: &[u8]) -> Told {
    let (mut total, mut first) = (0, flags.len());
    for (row, &flag) in flags.iter().enumerate() {
        if flag != 0 {
            first = first.min(row);
            total += 1;
        }
    }
    [total, first, flags.len()]
}

/// The times of a panel's pieces. It reads from the start of the row's block.
fn panels(bench: &mut Bench, panel: impl Fn(&[u8], &[u8]) -> Told) -> Vec<Duration> {
    pieces(bench, panel, |row| row % Shape::BLOCK + 1)
}

/// The times of a full reading's pieces.
fn readings(bench: &mut Bench, reading: impl Fn(&[u8]) -> Told) -> Vec<Duration> {
    let rows = bench.state.flags.len();
    pieces(bench, |flags, _| reading(flags), |_| rows)
}

/// The times of the calls with each row flagged in turn. What a call tells is
/// looked at outside of the time.
fn pieces(
    bench: &mut Bench,
    call: impl Fn(&[u8], &[u8]) -> Told,
    read: impl Fn(usize) -> usize,
) -> Vec<Duration> {
    let rows = flagged_rows(bench.state.flags.len());
    let time = |row| {
        flag_alone(&mut bench.state, row);
        let State { flags, totals, .. } = &bench.state;
        assert_eq!(call(flags, totals), [1, row, read(row)]);
        timed(|| call(black_box(flags), black_box(totals)))
    };
    rows.map(time).to_vec()
}

/// Flags one row and no other.
fn flag_alone(state: &mut State<Vec<u8>>, row: usize) {
    state.flags.fill(0);
    state.totals.fill(0);
    state.flags[row] = 1;
    state.totals[row / Shape::BLOCK] = 1;
}

/// The time of all calls of a piece.
fn timed(call: impl Fn() -> Told) -> Duration {
    let clock = Instant::now();
    for _ in 0..CALLS {
        black_box(call());
    }
    clock.elapsed()
}
