//! Asks and commits through both builds.

use peer::testing::asks::{example, Example};
use peer::testing::lent::Own;
use peer::testing::naive::spec::questions;
use peer::testing::settings;
use peer::testing::shapes::{small_shape, spoil};
use peer::{Answer, Call, Name, Shape};

use crate::drawn::Drawn;
use crate::list::{List, Seen};
use crate::side::Side;
use crate::SEED;

#[test]
fn the_example_of_an_asked_row() {
    let Example {
        shape,
        calls,
        standing,
        finished,
    } = example();
    let mut seen = Seen::default();
    let mut list = List::new(settings::seed(SEED), |_| shape, &mut seen);
    for (call, wanted) in calls {
        let drawn = list.lent(call);
        assert_eq!(list.make(drawn), wanted);
    }
    assert_eq!(list.ours.lent.state.cells[..4], standing);
    assert_eq!(list.asked(), finished);
    let commit = list.lent(Call::Commit {
        row: 0,
        finished: list.asked(),
    });
    assert_eq!(list.make(commit), Answer::Done);
    assert_eq!(list.ours.lent.state.cells[..4], finished);
}

/// The call with one of its levels or cells changed.
fn with_cell(drawn: &Drawn, change: impl FnOnce(u8) -> u8) -> Drawn {
    let mut changed = drawn.clone();
    let levels = changed.call.levels_mut().expect("a call with levels");
    levels[0] = change(levels[0]);
    changed
}

/// The call with each of the buffers that it is lent a byte longer.
fn lengthened(drawn: &Drawn) -> Vec<Drawn> {
    let mut cells = drawn.clone();
    cells.lengths.state.cells += 1;
    let mut levels = drawn.clone();
    levels.call.levels_mut().expect("levels").push(0);
    let mut all = vec![cells, levels];
    if drawn.call.name() == Name::Ask {
        let mut finished = drawn.clone();
        finished.lengths.own[Own::Finished as usize] += 1;
        all.push(finished);
    }
    all
}

impl List<'_> {
    /// An ask or a commit with something wrong in its levels or cells; then with a
    /// row outside besides, then with a wrong length too, and then with a bad shape.
    fn check_order(&mut self, wrong: Drawn, number: u8) {
        assert_eq!(self.make(wrong.clone()), Answer::Refused(number));
        let mut outside = wrong;
        *outside.call.row_mut().expect("a call on a row") += 1 << 32;
        assert_eq!(self.make(outside.clone()), Answer::Refused(7));
        for mut longer in lengthened(&outside) {
            assert_eq!(self.make(longer.clone()), Answer::Refused(6));
            spoil(&mut self.random, &mut longer.shape);
            let wanted = questions(longer.shape).expect_err("a bad shape");
            assert_eq!(self.make(longer), Answer::Refused(wanted));
        }
    }
}

/// Each question against the earlier ones, 8 and for commits 17 at the end.
#[test]
fn the_questions_of_asks_and_commits_come_in_the_same_order() {
    let mut seed = settings::seed(SEED);
    for _ in 0..settings::lists(100) {
        let mut seen = Seen::default();
        let mut list = List::new(seed, small_shape, &mut seen);
        let levels = list.layout.levels() as u8;
        let above = [levels, list.random.between(levels.into(), 255) as u8, 255];
        for name in [Name::Ask, Name::Commit] {
            let right = list.right(name);
            assert_eq!(list.make(right.clone()).number(), 0);
            for byte in above {
                list.check_order(with_cell(&right, |_| byte), 8);
            }
            if name == Name::Commit {
                let unsound = with_cell(&right, |cell| (cell + 1) % levels);
                list.check_order(unsound, 17);
            }
        }
        seed = seed.wrapping_sub(1);
    }
}

/// At the largest shapes a row is asked for, and committed with each of its cells
/// at other bytes. A level that is not its own is refused with 17, any other byte
/// with 8.
#[test]
fn rows_with_a_cell_changed_are_refused_the_same() {
    let mut seed = settings::seed(SEED);
    for (radix, digits, errors, width) in [(255, 1, 1, 254), (2, 8, 2, 247), (11, 2, 3, 120)] {
        seed = seed.wrapping_sub(1);
        let mut seen = Seen::default();
        let shape = Shape::new(radix, digits, errors, width, 2);
        let mut list = List::new(seed, |_| shape, &mut seen);
        let ask = list.right(Name::Ask);
        list.make(ask);
        let asked = list.asked();
        let levels = list.layout.levels();
        for (column, &cell) in asked.iter().enumerate() {
            let beside = [cell.wrapping_add(1), cell.wrapping_sub(1), cell ^ 0x80];
            let limits = [0, (levels - 1) as u8, levels as u8, 255];
            for byte in beside.into_iter().chain(limits).chain([cell]) {
                let mut finished = asked.clone();
                finished[column] = byte;
                let commit = list.lent(Call::Commit { row: 1, finished });
                let wanted = match byte {
                    _ if usize::from(byte) >= levels => 8,
                    _ if byte != cell => 17,
                    _ => 0,
                };
                assert_eq!(list.make(commit).number(), wanted);
            }
        }
    }
}

/// A list with an ask, and after it a row is written with the levels asked for.
/// Gives what it leaves.
fn left_by(
    seed: u64,
    write: impl Fn(usize, Vec<u8>, Vec<u8>) -> Call<Own>,
    seen: &mut Seen,
) -> Side {
    let mut list = List::new(seed, small_shape, seen);
    list.pieces(2, 20);
    let mut ask = list.right(Name::Ask);
    let levels = ask.call.levels_mut().expect("levels").clone();
    list.make(ask);
    let finished = list.asked();
    list.pieces(2, 20);
    let row = list.random.below(list.shape.rows);
    let writing = list.lent(write(row, levels, finished));
    assert_eq!(list.make(writing), Answer::Done);
    list.pieces(2, 20);
    list.ours.clone()
}

/// The same list once with a commit of what its ask wrote and once with a
/// programming in its place, any calls before, between and after.
#[test]
fn a_commit_of_an_asked_row_leaves_what_programming_leaves() {
    let mut seed = settings::seed(SEED);
    let mut seen = Seen::default();
    for _ in 0..settings::lists(100) {
        let committed = left_by(
            seed,
            |row, _, finished| Call::Commit { row, finished },
            &mut seen,
        );
        let programmed = left_by(
            seed,
            |row, levels, _| Call::Program { row, levels },
            &mut seen,
        );
        assert!(committed == programmed, "seed {seed}");
        seed = seed.wrapping_add(1);
    }
    println!("{} calls", seen.tally.calls());
}
