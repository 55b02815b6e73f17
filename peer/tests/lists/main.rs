//! Random lists of calls through the proved library and through this build.
//! After each call the answer, the record and every lent byte are compared,
//! and with them the bytes before and after each lent part.
//!
//! The library is ../target/staticlib/libjorivelune.a, made by tools/build jorivelune.

mod asks;
mod coarse;
mod drawn;
mod event;
mod inputs;
mod lines;
mod list;
mod pieces;
#[path = "../proved_calls/mod.rs"]
mod proved_calls;
mod router;
mod side;
mod steps;

use list::{List, Seen};
use peer::testing::panels::EXAMPLE;
use peer::testing::random::Random;
use peer::testing::settings;
use peer::testing::shapes::{block_shape, limit_shape, small_shape, BLOCK_EDGES};
use peer::{Answer, Shape};

const SEED: u64 = 20_261_116;

/// A shape at the limits with few rows.
fn flat_shape(random: &mut Random) -> Shape {
    Shape {
        rows: random.pick(&[
            1, 2, 3, 15, 16, 17, 31, 32, 33, 63, 64, 65, 127, 128, 129, 130,
        ]),
        ..limit_shape(random)
    }
}

#[test]
fn random_lists_leave_the_same() {
    let mut seed = settings::seed(SEED);
    let [small, flat, limit, block] = [1_000, 250, 60, 200].map(settings::lists);
    println!("one seed more for each of {small} + {flat} + {limit} + {block} lists");
    let mut seen = Seen::default();
    let mut make = |lists, shape: fn(&mut Random) -> Shape, pieces, steps| {
        for _ in 0..lists {
            List::new(seed, shape, &mut seen).pieces(pieces, steps);
            seed = seed.wrapping_add(1);
        }
    };
    make(small, small_shape, 20, usize::MAX);
    make(flat, flat_shape, 20, 300);
    make(limit, limit_shape, 13, 10);
    make(block, block_shape, 20, 100);
    println!("{} calls: {seen:?}", seen.tally.calls());
    assert!(seen.tally.calls() >= 100_000);
    assert!(seen.by_errors[1..].iter().all(|&calls| calls >= 10_000));
    assert!(seen.ended >= 1_000);
    assert!(seen.whole.iter().all(|&cycles| cycles >= 200));
    assert!(seen.forged >= 1_000 && seen.nameless >= 100);
    seen.tally.assert_complete();
    seen.asks.assert_each(80);
    seen.rules.assert_each(25);
    seen.skips.assert_each(80);
    seen.steps.assert_each(25);
    seen.lines.assert_each(5);
    seen.inputs.assert_each(80);
    seen.panels.assert_each(1);
}

/// Whole cycles at the largest shapes for each number of errors, every step
/// compared.
#[test]
fn whole_cycles_at_the_limits_leave_the_same() {
    let mut seed = settings::seed(SEED);
    let mut seen = Seen::default();
    for (radix, digits, errors, width, skips) in [
        (255, 1, 1, 254, &[0][..]),
        (2, 8, 2, 247, &[0, 4, 7]),
        (16, 2, 3, 120, &[0, 1]),
    ] {
        seed = seed.wrapping_sub(1);
        let shape = Shape::new(radix, digits, errors, width, 2);
        let mut list = List::new(seed, |_| shape, &mut seen);
        for &skip in skips {
            list.whole_cycles(skip);
        }
    }
    println!("{} calls", seen.tally.calls());
    assert_eq!(seen.ended, 6);
}

#[test]
fn the_example_of_the_panel() {
    let mut seen = Seen::default();
    let mut list = List::new(settings::seed(SEED), |_| EXAMPLE.shape, &mut seen);
    for call in EXAMPLE.calls {
        let drawn = list.lent(call);
        assert_eq!(list.make(drawn), Answer::Done);
    }
    assert_eq!(*list.ours.lent.state.totals, EXAMPLE.totals);
    assert_eq!(list.panel(), Answer::Panel(EXAMPLE.told));
}

/// What the panel is told of any flags and totals.
#[test]
fn panels_on_foreign_bytes_are_told_the_same() {
    let mut seed = settings::seed(SEED);
    let mut seen = Seen::default();
    for _ in 0..settings::lists(300) {
        let mut list = List::new(seed, block_shape, &mut seen);
        (0..100).for_each(|_| list.foreign_panel());
        seed = seed.wrapping_add(1);
    }
    println!("{} answers: {:?}", seen.panels.answers(), seen.panels);
    assert!(seen.panels.answers() >= 20_000);
    seen.panels.assert_each(1_000);
}

/// Totals of a wrong length, in each call that is lent them.
#[test]
fn totals_of_a_wrong_length_are_refused_by_both() {
    let mut seed = settings::seed(SEED);
    for rows in BLOCK_EDGES {
        seed = seed.wrapping_sub(1);
        let shape = |random: &mut Random| Shape {
            rows,
            ..small_shape(random)
        };
        List::new(seed, shape, &mut Seen::default()).wrong_totals();
    }
}
