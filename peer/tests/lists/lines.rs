//! Match lines through both builds.

use peer::testing::lines::{beside_openings, dead_line, shorted_line, Example, Made, SETTABLE};
use peer::testing::naive::spec::questions;
use peer::testing::random::Random;
use peer::testing::records::words_of;
use peer::testing::settings;
use peer::testing::shapes::{block_shape, even, small_shape, spoil};
use peer::{Answer, Call, Cycle, Name, Shape};

use crate::list::{List, Seen};
use crate::SEED;

#[test]
fn the_examples_of_a_dead_and_a_shorted_line() {
    for Example {
        shape,
        calls,
        lines,
    } in [dead_line(), shorted_line()]
    {
        let mut seen = Seen::default();
        let mut list = List::new(settings::seed(SEED), |_| shape, &mut seen);
        for made in calls {
            let Made { flags, count, .. } = made;
            let mut matches = list.ours.lent.own[0].to_vec();
            let drawn = list.lent(made.call);
            assert_eq!(list.make(drawn), made.answer);
            if let Some(written) = made.matches {
                matches = written.to_vec();
            }
            let lent = &list.ours.lent;
            assert_eq!(*lent.own[0], matches);
            assert_eq!(*lent.state.flags, flags);
            assert_eq!(*lent.state.counters, [0, 0]);
            assert_eq!(list.record().count, count);
        }
        assert_eq!(*list.ours.lent.state.lines, lines);
    }
}

/// The line call with every byte, and with what fails before it: a shape, the
/// length of the lines, and the row.
#[test]
fn line_calls_are_answered_the_same() {
    let mut seed = settings::seed(SEED);
    for _ in 0..settings::lists(20) {
        let mut seen = Seen::default();
        let mut list = List::new(seed, small_shape, &mut seen);
        for byte in 0..=255 {
            let row = list.random.below(list.shape.rows);
            let right = list.lent(Call::Line { row, byte });
            let number = if SETTABLE.contains(&byte) { 0 } else { 16 };
            assert_eq!(list.make(right.clone()).number(), number);
            let row = list.shape.rows + list.random.pick(&[0, 1, 256, 1 << 32]);
            let mut outside = list.lent(Call::Line { row, byte });
            assert_eq!(list.make(outside.clone()), Answer::Refused(7));
            outside.lengths.state.lines += 1;
            assert_eq!(list.make(outside), Answer::Refused(6));
            let mut spoiled = right;
            spoil(&mut list.random, &mut spoiled.shape);
            let wanted = questions(spoiled.shape).expect_err("a bad shape");
            assert_eq!(list.make(spoiled), Answer::Refused(wanted));
        }
        seed = seed.wrapping_sub(1);
    }
}

/// Lines of a wrong length, in each call that is lent them.
#[test]
fn lines_of_a_wrong_length_are_refused_by_both() {
    let mut seed = settings::seed(SEED);
    for rows in [1, 2, 63, 64, 65, 4096] {
        seed = seed.wrapping_sub(1);
        let shape = |random: &mut Random| Shape {
            rows,
            ..even(small_shape(random))
        };
        List::new(seed, shape, &mut Seen::default()).wrong_lines();
    }
}

/// The records of the openings with every z are taken, and what stands beside them is
/// not.
#[test]
fn records_beside_the_openings_are_answered_the_same() {
    let mut seed = settings::seed(SEED);
    for _ in 0..settings::lists(50) {
        let mut seen = Seen::default();
        let mut list = List::new(seed, small_shape, &mut seen);
        let spec = questions(list.shape).expect("a good shape");
        for skip in 0..list.shape.digits {
            for count in [0, 1] {
                let opening = Cycle::open(skip);
                list.put(words_of(Cycle { count, ..opening }));
                let step = list.right(Name::Step);
                assert_eq!(list.make(step), Answer::Done);
                assert_eq!(list.record(), list.schedules[skip].record(count + 1));
            }
            for beside in beside_openings(&spec, skip) {
                list.put(words_of(beside));
                let step = list.right(Name::Step);
                assert_eq!(list.make(step), Answer::Refused(9));
            }
        }
        seed = seed.wrapping_sub(1);
    }
}

/// One row with a line of every byte: cycles of every z flag it where it is not
/// sound, and task lookup and first match find it where it is not dead, and with an
/// input of q where it is shorted.
#[test]
fn lines_of_every_kind_in_cycles_and_lookups() {
    let mut seed = settings::seed(SEED);
    for line in 0..=255 {
        seed = seed.wrapping_sub(1);
        let mut seen = Seen::default();
        let shape = |random: &mut Random| Shape {
            rows: 1,
            ..small_shape(random)
        };
        let mut list = List::new(seed, shape, &mut seen);
        let clear = list.right(Name::Clear);
        assert_eq!(list.make(clear), Answer::Done);
        list.write_lines(vec![line]);
        for skip in 0..list.shape.digits {
            list.whole_cycles(skip);
            assert_eq!(*list.ours.lent.state.flags, [u8::from(line != 0)]);
            assert_eq!(*list.ours.lent.state.lines, [line]);
        }
        list.look_up_row(0, None);
        assert_eq!(*list.ours.lent.own[0], [u8::from(line == 0 || line == 2)]);
        for column in 0..list.shape.width {
            list.look_up_row(0, Some(column));
            assert_eq!(*list.ours.lent.own[0], [u8::from(line == 2)]);
        }
    }
}

/// The two openings, by a step each and by several, on lines of every kind and any
/// bytes in all else, at arrays of every size.
#[test]
fn openings_leave_the_same_on_any_bytes() {
    let mut seed = settings::seed(SEED);
    let mut seen = Seen::default();
    for _ in 0..settings::lists(300) {
        seed = seed.wrapping_sub(1);
        let mut list = List::new(seed, block_shape, &mut seen);
        for name in [Name::Step, Name::Steps] {
            for count in [0, 1] {
                let skip = list.random.below(list.shape.digits);
                list.put(words_of(list.schedules[skip].record(count)));
                list.any_lines();
                list.foreign_bytes();
                let mut step = list.right(name);
                *step.call.most_mut().unwrap_or(&mut 0) = list.random.between(1, 3);
                assert_eq!(list.make(step), Answer::Done);
            }
        }
    }
    println!("{:?}", seen.lines);
}
