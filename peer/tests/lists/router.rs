//! Belt rules and bottles through both builds.

use peer::testing::lent::{wrong_lengths, Lent, Own};
use peer::testing::naive::router::levels_of;
use peer::testing::naive::spec::questions;
use peer::testing::random::Random;
use peer::testing::rules::{any_rule, example, Example, WITH_BELTS};
use peer::testing::settings;
use peer::testing::shapes::{block_shape, even, limit_shape, small_shape, spoil, BLOCK_EDGES};
use peer::{Answer, Call, Name, Rule, Shape};

use crate::drawn::Drawn;
use crate::list::{List, Seen};
use crate::pieces::{CELLS, LINES};
use crate::side::Side;
use crate::{flat_shape, SEED};

/// What is written to a row: a rule most often.
const WRITTEN: [Name; 5] = [
    Name::Rule,
    Name::Rule,
    Name::Rule,
    Name::Program,
    Name::Commit,
];

/// The places of the buffers that are lent to a call of the router, but for its
/// arguments.
fn lent_to(name: Name) -> Vec<usize> {
    let own = |own: Own| Lent::MATCHES + own as usize;
    match name {
        Name::Rule => vec![CELLS, Lent::BELTS],
        Name::Route => vec![CELLS, LINES, Lent::BELTS],
        _ => vec![CELLS, Lent::BELTS, own(Own::Lows), own(Own::Highs)],
    }
}

/// The arguments of a call that have one byte for each feature.
fn of_features(drawn: &mut Drawn) -> Vec<&mut Vec<u8>> {
    match &mut drawn.call {
        Call::Rule { rule, .. } => vec![&mut rule.lows, &mut rule.highs],
        Call::Route { values } => vec![values],
        _ => Vec::new(),
    }
}

impl List<'_> {
    /// Rows are written, mostly with rules, and changed; bottles for them are
    /// routed and rules are read, with other calls between. Often a cycle is open.
    pub fn ruled_rows(&mut self) {
        for _ in 0..self.random.between(1, 4) {
            if self.random.one_in(4) {
                self.jump();
            }
            let row = self.some_row();
            let name = self.random.pick(&WRITTEN);
            self.make_on(name, row);
        }
        if self.random.one_in(4) {
            self.jump();
        }
        for _ in 0..self.random.between(4, 14) {
            match self.random.below(24) {
                0 => self.there_and_back(),
                1 => self.set_line(),
                2 => self.foreign_bytes(),
                3 => self.call_between(),
                4 => self.any_of_router(),
                5 if self.random.one_in(4) => {
                    let clear = self.right(Name::Clear);
                    self.make(clear);
                }
                5 | 6 => {
                    let row = self.some_row();
                    self.make_on(Name::RuleAt, row);
                }
                _ => self.route(),
            }
        }
    }

    /// A call on a row, with nothing wrong in it.
    fn make_on(&mut self, name: Name, row: usize) -> Answer {
        let mut drawn = self.right(name);
        *drawn.call.row_mut().expect("a call on a row") = row;
        self.make(drawn)
    }

    /// The line of a row is set.
    fn set_line(&mut self) {
        let row = self.some_row();
        self.make_on(Name::Line, row);
    }

    /// A call of the router with some things wrong in it, or none.
    fn any_of_router(&mut self) {
        let name = self.random.pick(&WITH_BELTS);
        let call = self.any(name);
        self.make(call);
    }

    fn route(&mut self) {
        let route = self.right(Name::Route);
        self.make(route);
    }

    /// A cell drifts, a bottle is routed, and the cell drifts back, which is
    /// refused where it was no level.
    fn there_and_back(&mut self) {
        let row = self.some_row();
        let column = self.random.below(self.layout.columns());
        let back = self.row(row)[column];
        for level in [self.random.level(self.layout.levels()), back] {
            let drift = self.lent(Call::Drift { row, column, level });
            self.make(drift);
            self.route();
        }
    }

    /// The calls of the router, with a wrong length of each buffer that they are
    /// lent.
    fn wrong_lengths(&mut self) {
        for name in WITH_BELTS {
            let right = self.right(name);
            assert_eq!(self.make(right.clone()).number(), 0);
            for place in lent_to(name) {
                let mut drawn = right.clone();
                for length in wrong_lengths(*drawn.lengths.at(place)) {
                    *drawn.lengths.at(place) = length;
                    assert_eq!(self.make(drawn.clone()), Answer::Refused(6));
                }
            }
            for argument in 0..of_features(&mut right.clone()).len() {
                for length in wrong_lengths(self.layout.features()) {
                    let mut drawn = right.clone();
                    of_features(&mut drawn)[argument].resize(length, 0);
                    assert_eq!(self.make(drawn), Answer::Refused(6));
                }
            }
        }
    }

    /// A call of the router with every choice of things wrong in it, put in from
    /// the last question up: the first question of them counts.
    fn check_order_of_router(&mut self, name: Name) {
        let right = self.right(name);
        for faults in 0..1 << FAULTS.len() {
            let mut drawn = right.clone();
            let mut wanted = 0;
            for (place, fault) in FAULTS.into_iter().enumerate() {
                if faults >> place & 1 == 1 {
                    wanted = fault(self, &mut drawn).unwrap_or(wanted);
                }
            }
            assert_eq!(self.make(drawn).number(), wanted);
        }
    }
}

/// Puts something wrong in a call, and gives the number with which it is refused
/// then; none where the call has not the matter.
type Fault = fn(&mut List, &mut Drawn) -> Option<u8>;

/// What can be wrong, the last question first.
const FAULTS: [Fault; 6] = [
    low_above_high,
    level_too_high,
    row_outside,
    wrong_length,
    odd_width,
    bad_shape,
];

fn low_above_high(list: &mut List, drawn: &mut Drawn) -> Option<u8> {
    let feature = list.random.below(list.layout.features());
    let rule = drawn.call.rule_mut()?;
    rule.lows[feature] = list.layout.highest();
    rule.highs[feature] = 0;
    Some(19)
}

/// A byte of q or more, where there is one, as a value, or as a low or a high.
fn level_too_high(list: &mut List, drawn: &mut Drawn) -> Option<u8> {
    let above = usize::from(list.layout.highest()) + 1;
    let mut arguments = of_features(drawn);
    if above > 255 || arguments.is_empty() {
        return None;
    }
    let argument = list.random.below(arguments.len());
    let feature = list.random.below(list.layout.features());
    let any_above = list.random.between(above, 255);
    arguments[argument][feature] = list.random.pick(&[above, any_above, 255]) as u8;
    Some(8)
}

fn row_outside(list: &mut List, drawn: &mut Drawn) -> Option<u8> {
    let rows = list.shape.rows;
    let outside = [rows, rows + 1, rows + (1 << 32), usize::MAX];
    *drawn.call.row_mut()? = list.random.pick(&outside);
    Some(7)
}

fn wrong_length(list: &mut List, drawn: &mut Drawn) -> Option<u8> {
    let places = lent_to(drawn.call.name());
    let mut arguments = of_features(drawn);
    let number = arguments.len();
    match list.random.below(number + places.len()) {
        chosen if chosen < number => arguments[chosen].push(0),
        chosen => *drawn.lengths.at(places[chosen - number]) += 1,
    }
    Some(6)
}

/// A rule column more or fewer, half the time with cells for so many.
fn odd_width(list: &mut List, drawn: &mut Drawn) -> Option<u8> {
    let width = &mut drawn.shape.width;
    *width = list.random.pick(&[*width - 1, *width + 1]);
    let odd = drawn.shape.layout().expect("a good shape");
    let room = list.ours.lent.state.cells.room();
    if list.random.one_in(2) && odd.cells() <= room {
        drawn.lengths.state.cells = odd.cells();
    }
    Some(18)
}

fn bad_shape(list: &mut List, drawn: &mut Drawn) -> Option<u8> {
    spoil(&mut list.random, &mut drawn.shape);
    questions(drawn.shape).err()
}

#[test]
fn the_example_of_belt_rules() {
    let Example {
        shape,
        calls,
        rows,
        belts,
        first,
    } = example();
    let mut seen = Seen::default();
    let mut list = List::new(settings::seed(SEED), |_| shape, &mut seen);
    let third = list.ours.lent.belts[2];
    for (call, wanted) in calls {
        let drawn = list.lent(call);
        assert_eq!(list.make(drawn), wanted);
    }
    assert_eq!(*list.ours.lent.state.cells, rows.concat());
    assert_eq!(*list.ours.lent.belts, [belts[0], belts[1], third]);
    assert_eq!(list.make_on(Name::RuleAt, 0), Answer::Belt(first.belt));
    let own = |own: Own| list.ours.lent.own[own as usize].to_vec();
    assert_eq!([own(Own::Lows), own(Own::Highs)], [first.lows, first.highs]);
    for name in WITH_BELTS {
        let mut odd = list.right(name);
        odd.shape.width = 3;
        assert_eq!(list.make(odd), Answer::Refused(18));
    }
}

/// Rules, bottles and all else on arrays of every kind.
#[test]
fn random_rules_and_bottles_leave_the_same() {
    let mut seed = settings::seed(SEED);
    let [small, flat, limit, block] = [900, 200, 30, 80].map(settings::lists);
    let mut seen = Seen::default();
    let mut make = |lists, shape: fn(&mut Random) -> Shape| {
        for _ in 0..lists {
            seed = seed.wrapping_sub(1);
            let mut list = List::new(seed, shape, &mut seen);
            (0..10).for_each(|_| list.ruled_rows());
        }
    };
    make(small, |random| even(small_shape(random)));
    make(flat, |random| even(flat_shape(random)));
    make(limit, |random| even(limit_shape(random)));
    make(block, |random| even(block_shape(random)));
    make(small / 10, small_shape);
    let Seen { tally, rules, .. } = &seen;
    println!("{} bottles: {rules:?} {tally:?}", rules.routed);
    assert!(rules.routed >= 50_000);
    rules.assert_each(100);
    tally.assert_complete_for(&WITH_BELTS);
}

/// The fewest and the most rule columns for each number of errors, 2 levels and
/// 256, and one row, some and the most.
#[test]
fn rules_at_the_limits_leave_the_same() {
    let mut seed = settings::seed(SEED);
    let mut seen = Seen::default();
    for (radix, digits, errors, width) in [
        (2, 1, 1, 2),
        (16, 2, 1, 2),
        (2, 8, 1, 254),
        (255, 1, 1, 254),
        (4, 4, 2, 2),
        (16, 2, 2, 246),
        (254, 1, 3, 2),
        (2, 8, 3, 120),
    ] {
        for (rows, times) in [(1, 10), (65, 10), (4096, 3)] {
            seed = seed.wrapping_sub(1);
            let shape = Shape::new(radix, digits, errors, width, rows);
            let mut list = List::new(seed, |_| shape, &mut seen);
            for _ in 0..times {
                let row = list.random.pick(&[0, rows - 1]);
                assert_eq!(list.make_on(Name::Rule, row), Answer::Done);
                list.ruled_rows();
            }
            let mut odd = list.right(Name::Route);
            odd.shape.width -= 1;
            assert_eq!(list.make(odd), Answer::Refused(18));
        }
    }
    println!("{} bottles", seen.rules.routed);
}

/// Each buffer of a wrong length, in each call that is lent the belts.
#[test]
fn wrong_lengths_of_the_router_are_refused_by_both() {
    let mut seed = settings::seed(SEED);
    for rows in BLOCK_EDGES {
        seed = seed.wrapping_sub(1);
        let shape = |random: &mut Random| Shape {
            rows,
            ..even(small_shape(random))
        };
        List::new(seed, shape, &mut Seen::default()).wrong_lengths();
    }
}

/// Every choice of things wrong in each call that is lent the belts.
#[test]
fn the_questions_of_the_router_come_in_the_same_order() {
    let mut seed = settings::seed(SEED);
    let mut seen = Seen::default();
    for _ in 0..settings::lists(150) {
        let mut list = List::new(seed, |random| even(small_shape(random)), &mut seen);
        for name in WITH_BELTS {
            list.check_order_of_router(name);
        }
        seed = seed.wrapping_sub(1);
    }
    println!("{} calls: {:?}", seen.tally.calls(), seen.tally);
    seen.tally.assert_complete_for(&WITH_BELTS);
}

/// Every low with every high of some numbers of levels is written, the values
/// beside the ends are routed, and the rule is read.
#[test]
fn ranges_and_their_ends_are_answered_the_same() {
    let mut seed = settings::seed(SEED);
    for (radix, digits) in [(2, 1), (3, 1), (2, 3), (5, 2)] {
        seed = seed.wrapping_sub(1);
        let mut seen = Seen::default();
        let shape = Shape::new(radix, digits, 1, 2, 1);
        let mut list = List::new(seed, |_| shape, &mut seen);
        list.write_lines(vec![0]);
        let highest = list.layout.highest();
        let pairs = (0..=highest).flat_map(|low| (0..=highest).map(move |high| (low, high)));
        for (low, high) in pairs {
            let rule = Rule {
                lows: vec![low],
                highs: vec![high],
                belt: list.random.byte(),
            };
            let written = list.lent(Call::Rule { row: 0, rule });
            let wanted = if low <= high { 0 } else { 19 };
            assert_eq!(list.make(written).number(), wanted);
            list.make_on(Name::RuleAt, 0);
            for value in [low.saturating_sub(1), low, high, (high + 1).min(highest)] {
                let values = vec![value];
                let route = list.lent(Call::Route { values });
                list.make(route);
            }
        }
    }
}

/// A list in which a row is written with a rule, by the given call, with any calls
/// before and after. Gives what it leaves.
fn left_by(
    seed: u64,
    write: impl Fn(usize, Rule<Vec<u8>>, Vec<u8>) -> Call<Own>,
    seen: &mut Seen,
) -> (usize, Side) {
    let mut list = List::new(seed, |random| even(small_shape(random)), seen);
    list.pieces(2, 20);
    let rule = any_rule(&mut list.random, &list.layout);
    let levels = levels_of(&questions(list.shape).expect("a good shape"), &rule);
    let row = list.random.below(list.shape.rows);
    let writing = list.lent(write(row, rule, levels));
    assert_eq!(list.make(writing), Answer::Done);
    list.pieces(2, 20);
    (row, list.ours.clone())
}

/// The same list once with a rule and once with a programming of its levels: all
/// but the belt of the row is the same.
#[test]
fn a_rule_leaves_what_programming_leaves_and_a_belt() {
    let mut seed = settings::seed(SEED);
    let mut seen = Seen::default();
    for _ in 0..settings::lists(100) {
        let (row, mut ruled) = left_by(seed, |row, rule, _| Call::Rule { row, rule }, &mut seen);
        let (_, mut programmed) = left_by(
            seed,
            |row, _, levels| Call::Program { row, levels },
            &mut seen,
        );
        for side in [&mut ruled, &mut programmed] {
            side.lent.belts.set_length(row + 1);
            side.lent.belts[row] = 0;
        }
        assert!(ruled == programmed, "seed {seed}");
        seed = seed.wrapping_add(1);
    }
    println!("{} calls", seen.tally.calls());
}
