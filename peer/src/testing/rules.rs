//! For belt rules: an example, rules and bottles of every kind, such with something
//! wrong in them, and what was seen of them.

use std::mem;
use std::ops::Range;

use crate::call::{Answer, Call, Name};
use crate::cycle::{Cycle, Phase};
use crate::router::{Route, Rule};
use crate::shape::{Layout, Shape};
use crate::testing::counts::Counts;
use crate::testing::lent::Own;
use crate::testing::random::Random;
use crate::testing::shapes::layout;

/// The example: two rules, of which the second holds every bottle, bottles for
/// both, and rules that are refused.
pub struct Example {
    /// The shape.
    pub shape: Shape,
    /// The calls from any state on, each with its answer.
    pub calls: Vec<(Call<Own>, Answer)>,
    /// The rows as they leave them.
    pub rows: [[u8; 5]; 3],
    /// The belts of the first two rows; that of the third stays.
    pub belts: [u8; 2],
    /// The rule of the first row.
    pub first: Rule<Vec<u8>>,
}

/// The example.
pub fn example() -> Example {
    let rule = |lows: [u8; 2], highs: [u8; 2], belt| Rule {
        lows: lows.to_vec(),
        highs: highs.to_vec(),
        belt,
    };
    let written = |row, rule, answer| (Call::Rule { row, rule }, answer);
    let routed = |values: [u8; 2], row: Option<(usize, u8)>| {
        let values = values.to_vec();
        let found = row.map(|(row, belt)| Route { row, belt });
        (Call::Route { values }, Answer::Route(found))
    };
    let first = rule([2, 0], [5, 3], 7);
    Example {
        shape: Shape::new(2, 3, 1, 4, 3),
        calls: vec![
            (Call::Clear, Answer::Done),
            routed([0, 0], None),
            written(0, first.clone(), Answer::Done),
            written(1, rule([0, 0], [7, 7], 9), Answer::Done),
            routed([2, 3], Some((0, 7))),
            routed([6, 3], Some((1, 9))),
            written(2, rule([3, 0], [2, 3], 1), Answer::Refused(19)),
            written(2, rule([3, 0], [8, 3], 1), Answer::Refused(8)),
        ],
        rows: [[5, 5, 3, 7, 4], [7, 7, 7, 7, 0], [0; 5]],
        belts: [7, 9],
        first,
    }
}

/// The calls that are lent the belts.
pub const WITH_BELTS: [Name; 3] = [Name::Rule, Name::Route, Name::RuleAt];

/// A rule with ranges of every kind, whole ones and single values among them.
pub fn any_rule(random: &mut Random, layout: &Layout) -> Rule<Vec<u8>> {
    let highest = layout.highest();
    let ranges = (0..layout.features()).map(|_| {
        let [one, two] = [(); 2].map(|()| random.level(layout.levels()));
        match random.below(6) {
            0 => (0, highest),
            1 => (one, one),
            2 => (0, one),
            3 => (one, highest),
            _ => (one.min(two), one.max(two)),
        }
    });
    let (lows, highs) = ranges.unzip();
    Rule {
        lows,
        highs,
        belt: random.byte(),
    }
}

/// The rule whose ranges stand in a row of cells, with the belt 0.
pub fn rule_of(layout: &Layout, row: &[u8]) -> Rule<Vec<u8>> {
    let pairs = row[..layout.width()].chunks_exact(2);
    let low = |pair: &[u8]| layout.highest().saturating_sub(pair[1]);
    let (lows, highs) = pairs.map(|pair| (low(pair), pair[0])).unzip();
    Rule {
        lows,
        highs,
        belt: 0,
    }
}

/// A bottle of any values.
pub fn any_bottle(random: &mut Random, layout: &Layout) -> Vec<u8> {
    random.levels(layout.levels(), layout.features())
}

/// A bottle for ranges: each value lies in its range, often at an end of it, and is
/// any where the low is above the high. Now and then one value is another, often
/// just outside.
pub fn bottle_for(random: &mut Random, layout: &Layout, rule: &Rule<Vec<u8>>) -> Vec<u8> {
    let ranges = rule.lows.iter().zip(&rule.highs);
    let mut values: Vec<u8> = ranges
        .map(|(&low, &high)| value_in(random, layout, low, high))
        .collect();
    if random.one_in(3) && !values.is_empty() {
        let feature = random.below(values.len());
        let [low, high] = [rule.lows[feature], rule.highs[feature]];
        let below = low.saturating_sub(1);
        let above = high.saturating_add(1).min(layout.highest());
        let other = random.level(layout.levels());
        values[feature] = random.pick(&[below, above, other]);
    }
    values
}

/// A level from the low to the high, where there is one, else any.
fn value_in(random: &mut Random, layout: &Layout, low: u8, high: u8) -> u8 {
    let high = high.min(layout.highest());
    match random.below(4) {
        _ if low > high => random.level(layout.levels()),
        0 => low,
        1 => high,
        _ => random.between(low.into(), high.into()) as u8,
    }
}

/// Puts one thing wrong in a rule: another number of lows or highs, any byte for
/// one of them, or a low and its high swapped.
pub fn spoil_rule(random: &mut Random, rule: &mut Rule<Vec<u8>>) {
    let Rule { lows, highs, .. } = rule;
    let features = lows.len().min(highs.len());
    if features > 0 && random.one_in(2) {
        let feature = random.below(features);
        mem::swap(&mut lows[feature], &mut highs[feature]);
        return;
    }
    let spoiled = if random.one_in(2) { lows } else { highs };
    if features > 0 && random.one_in(2) {
        spoiled[random.below(features)] = random.byte();
    } else {
        let others = [0, features.saturating_sub(1), features + 1, 2 * features];
        spoiled.resize(random.pick(&others), 0);
    }
}

/// The row that a bottle went to.
#[derive(Clone, Copy, Debug, PartialEq, Eq, PartialOrd, Ord)]
enum Found {
    /// The first one.
    First,
    /// A later one.
    Later,
    /// None.
    None,
}

/// What was seen.
#[derive(Clone, Copy, Debug, PartialEq, Eq, PartialOrd, Ord)]
enum Case {
    /// A rule was written: whether a cycle was open.
    Written { open: bool },
    /// A bottle was routed: whether a dead line or a cell of q or more stood in the
    /// rows up to the one found, and whether that one is shorted.
    Routed {
        found: Found,
        dead: bool,
        foreign: bool,
        shorted: bool,
    },
    /// A rule was read: whether a cell of q or more stood in its row.
    Read { foreign: bool },
}

/// The two of a rule that is written; those of a bottle: in the first row, which
/// passed over no dead line, in a later one, and in none, which is not shorted; and
/// the two of a rule that is read.
const CASES: usize = 2 + (4 + 8 + 4) + 2;

/// Whether a cell of q or more stands in the rows.
fn is_foreign(shape: Shape, cells: &[u8], rows: Range<usize>) -> bool {
    let layout = layout(shape);
    let columns = layout.columns();
    let cells = &cells[rows.start * columns..rows.end * columns];
    layout.ask_levels(cells).is_err()
}

/// The case of a bottle that was routed.
fn routed(shape: Shape, found: Option<Route>, cells: &[u8], lines: &[u8]) -> Case {
    let looked_at = found.map_or(shape.rows, |found| found.row + 1);
    Case::Routed {
        found: match found {
            Some(Route { row: 0, .. }) => Found::First,
            Some(_) => Found::Later,
            None => Found::None,
        },
        dead: lines[..looked_at]
            .iter()
            .any(|&line| line != 0 && line != 2),
        foreign: is_foreign(shape, cells, 0..looked_at),
        shorted: found.is_some_and(|found| lines[found.row] == 2),
    }
}

/// How often each case was seen, and how many bottles were routed.
#[derive(Debug, Default)]
pub struct Rules {
    counts: Counts<Case>,
    /// How many bottles were routed.
    pub routed: usize,
}

impl Rules {
    /// Counts a call of the router that was taken, by its answer and the record
    /// before it, and by cells and lines as it leaves them.
    pub fn add<B>(
        &mut self,
        shape: Shape,
        call: &Call<B>,
        answer: Answer,
        before: Cycle,
        cells: &[u8],
        lines: &[u8],
    ) {
        self.counts.add(match (call, answer) {
            (Call::Rule { .. }, Answer::Done) => Case::Written {
                open: before.phase == Phase::Open,
            },
            (_, Answer::Route(found)) => {
                self.routed += 1;
                routed(shape, found, cells, lines)
            }
            (Call::RuleAt { row, .. }, Answer::Belt(_)) => Case::Read {
                foreign: is_foreign(shape, cells, *row..*row + 1),
            },
            _ => return,
        });
    }

    /// Each case was seen at least so often.
    ///
    /// # Panics
    ///
    /// If that is not so.
    pub fn assert_each(&self, least: usize) {
        self.counts.assert_each(CASES, least);
    }
}
