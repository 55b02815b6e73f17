//! Random lists of the calls of demand 3.

use crate::call::{Call, Name};
use crate::router::Rule;
use crate::shape::{Layout, Shape};
use crate::testing::draw::{self, some_bytes, some_length, some_number, Draw};
use crate::testing::inputs::{any_inputs, spoil_input};
use crate::testing::lent::Own;
use crate::testing::lines::settable;
use crate::testing::random::Random;
use crate::testing::rows::{any_row, finished_row, sound_row};
use crate::testing::rules::{any_bottle, any_rule, bottle_for, spoil_rule};
use crate::testing::shapes::layout;
use crate::testing::skips::too_many;
use crate::testing::steps::some_most;

/// The calls of a list, each as often as its share.
const SHARES: [Name; 23] = [
    Name::Clear,
    Name::Program,
    Name::Program,
    Name::Ask,
    Name::Commit,
    Name::Commit,
    Name::Drift,
    Name::Drift,
    Name::Drift,
    Name::Line,
    Name::Line,
    Name::Lookup,
    Name::Lookup,
    Name::Start,
    Name::Step,
    Name::Step,
    Name::Step,
    Name::Steps,
    Name::Steps,
    Name::Rule,
    Name::Rule,
    Name::Route,
    Name::RuleAt,
];

/// A list of so many pieces: a piece is one call with arbitrary arguments, a row
/// written and then changed in a few cells and perhaps in its line, a row that is
/// asked for and committed, rules and bottles for them, or a cycle that is run to
/// its end, mostly without a disturbance.
pub fn list(random: &mut Random, shape: Shape, pieces: usize) -> Vec<Call<Vec<u8>>> {
    let layout = layout(shape);
    let mut calls = Vec::new();
    for _ in 0..pieces {
        match random.below(8) {
            0..=2 => push_some_call(random, &layout, &mut calls),
            3 | 4 => push_changed_row(random, &layout, &mut calls),
            5 => push_asked_row(random, &layout, &mut calls),
            6 => push_ruled_rows(random, &layout, &mut calls),
            _ => push_cycle(random, &layout, &mut calls),
        }
    }
    calls
}

/// A list of so many pieces, of which most are rules and bottles for them.
pub fn router_list(random: &mut Random, shape: Shape, pieces: usize) -> Vec<Call<Vec<u8>>> {
    let layout = layout(shape);
    let mut calls = Vec::new();
    for _ in 0..pieces {
        match random.below(24) {
            0..=3 => push_some_call(random, &layout, &mut calls),
            4 => push_changed_row(random, &layout, &mut calls),
            5 => push_asked_row(random, &layout, &mut calls),
            6 => push_cycle(random, &layout, &mut calls),
            7 | 8 => calls.push(Call::Clear),
            _ => push_ruled_rows(random, &layout, &mut calls),
        }
    }
    calls
}

/// One call with arbitrary arguments, most of them in range.
fn push_some_call(random: &mut Random, layout: &Layout, calls: &mut Vec<Call<Vec<u8>>>) {
    let name = random.pick(&SHARES);
    let asked = last_asked(layout, calls);
    let rule = some_rule(random, calls);
    let mut mostly = Mostly {
        random,
        layout,
        asked,
        rule,
    };
    calls.push(draw::call(name, &mut mostly));
}

/// What the last ask of the calls writes that has good levels, if there is one.
fn last_asked(layout: &Layout, calls: &[Call<Vec<u8>>]) -> Option<Vec<u8>> {
    let is_rule = |levels: &[u8]| {
        layout.ask_length(levels, layout.width()).is_ok() && layout.ask_levels(levels).is_ok()
    };
    calls.iter().rev().find_map(|call| match call {
        Call::Ask { levels, .. } if is_rule(levels) => Some(finished_row(layout, levels)),
        _ => None,
    })
}

/// Writes a row, then lets up to four of its cells drift; now and then its line is
/// set too.
fn push_changed_row(random: &mut Random, layout: &Layout, calls: &mut Vec<Call<Vec<u8>>>) {
    let row = random.below(layout.rows());
    if random.one_in(2) {
        calls.push(right_row(random, layout, row));
    }
    for _ in 0..random.below(5) {
        calls.push(Call::Drift {
            row,
            column: random.below(layout.columns()),
            level: random.level(layout.levels()),
        });
    }
    if random.one_in(3) {
        calls.push(right_line(random, row));
    }
}

/// One of the last rules of the calls, written or refused, if there is one.
fn some_rule(random: &mut Random, calls: &[Call<Vec<u8>>]) -> Option<Rule<Vec<u8>>> {
    let rules = calls.iter().rev().filter_map(|call| match call {
        Call::Rule { rule, .. } => Some(rule),
        _ => None,
    });
    rules.take(4).nth(random.below(4)).cloned()
}

/// Writes rules to some rows; now and then a cell of one drifts and mostly back,
/// its line is set, or a rule is written to it that is mostly refused. Bottles for
/// these and earlier rules are routed, and a rule is read.
fn push_ruled_rows(random: &mut Random, layout: &Layout, calls: &mut Vec<Call<Vec<u8>>>) {
    for _ in 0..random.between(1, 4) {
        let row = random.below(layout.rows());
        let rule = any_rule(random, layout);
        let kept = rule.clone();
        calls.push(Call::Rule { row, rule });
        match random.below(8) {
            0 | 1 if layout.features() > 0 => {
                push_there_and_back(random, layout, row, &kept, calls);
            }
            2 => calls.push(right_line(random, row)),
            3 => calls.push(spoiled_rule(random, layout, row)),
            _ => {}
        }
    }
    for _ in 0..random.between(1, 5) {
        let rule = some_rule(random, calls);
        calls.push(right_route(random, layout, rule.as_ref()));
    }
    calls.push(Call::RuleAt {
        row: random.below(layout.rows()),
        lows: random.bytes(layout.features()),
        highs: random.bytes(layout.features()),
    });
}

/// A rule with something wrong in it is written to a row.
fn spoiled_rule(random: &mut Random, layout: &Layout, row: usize) -> Call<Vec<u8>> {
    let mut rule = any_rule(random, layout);
    for _ in 0..random.between(1, 2) {
        spoil_rule(random, &mut rule);
    }
    Call::Rule { row, rule }
}

/// A rule cell of the row to which a rule was written drifts, a bottle is routed,
/// and mostly the cell drifts back.
fn push_there_and_back(
    random: &mut Random,
    layout: &Layout,
    row: usize,
    rule: &Rule<Vec<u8>>,
    calls: &mut Vec<Call<Vec<u8>>>,
) {
    let feature = random.below(layout.features());
    let (column, back) = match random.one_in(2) {
        true => (2 * feature, rule.highs[feature]),
        false => (2 * feature + 1, layout.highest() - rule.lows[feature]),
    };
    let drift = |level| Call::Drift { row, column, level };
    calls.push(drift(random.level(layout.levels())));
    calls.push(right_route(random, layout, Some(rule)));
    if !random.one_in(4) {
        calls.push(drift(back));
    }
}

/// A bottle for a rule is routed, or any.
fn right_route(
    random: &mut Random,
    layout: &Layout,
    rule: Option<&Rule<Vec<u8>>>,
) -> Call<Vec<u8>> {
    Call::Route {
        values: some_bottle(random, layout, rule),
    }
}

/// A bottle for a rule, or any where there is none or one of another length.
fn some_bottle(random: &mut Random, layout: &Layout, rule: Option<&Rule<Vec<u8>>>) -> Vec<u8> {
    let fits = |rule: &&Rule<Vec<u8>>| {
        let lengths = [rule.lows.len(), rule.highs.len()];
        lengths == [layout.features(); 2]
    };
    match rule.filter(fits) {
        Some(rule) => bottle_for(random, layout, rule),
        None => any_bottle(random, layout),
    }
}

/// A row is programmed with any levels, or their finished row is committed.
fn right_row(random: &mut Random, layout: &Layout, row: usize) -> Call<Vec<u8>> {
    let levels = random.levels(layout.levels(), layout.width());
    if random.one_in(2) {
        Call::Program { row, levels }
    } else {
        let finished = finished_row(layout, &levels);
        Call::Commit { row, finished }
    }
}

/// Asks for a row and commits what the ask writes, or something else, for that row
/// or another one; a few other calls may come between.
fn push_asked_row(random: &mut Random, layout: &Layout, calls: &mut Vec<Call<Vec<u8>>>) {
    let [row, other] = [(); 2].map(|()| random.below(layout.rows()));
    calls.push(right_ask(random, layout, row));
    let asked = last_asked(layout, calls).expect("the ask");
    for _ in 0..random.below(4) {
        push_disturbance(random, layout, calls);
    }
    calls.push(Call::Commit {
        row: random.pick(&[row, other]),
        finished: any_row(random, layout, &asked),
    });
}

/// A row is asked for with any levels.
fn right_ask(random: &mut Random, layout: &Layout, row: usize) -> Call<Vec<u8>> {
    Call::Ask {
        row,
        levels: random.levels(layout.levels(), layout.width()),
        finished: random.bytes(layout.columns()),
    }
}

/// The line of a row is set to a byte that the call takes.
fn right_line(random: &mut Random, row: usize) -> Call<Vec<u8>> {
    Call::Line {
        row,
        byte: settable(random),
    }
}

/// Starts a cycle that skips any number of digits, and makes all its steps, singly
/// or some of them by calls of several; now and then another call comes in between,
/// or one step more follows.
fn push_cycle(random: &mut Random, layout: &Layout, calls: &mut Vec<Call<Vec<u8>>>) {
    let skip = random.below(layout.digits());
    calls.push(Call::Start { skip });
    let disturbed = random.one_in(3);
    let several = random.one_in(2);
    let steps = layout.steps(skip);
    let mut left = steps + random.below(2);
    while left > 0 {
        let made = push_steps(random, layout, left, several, calls);
        left = left.saturating_sub(made);
        if disturbed && random.below(steps) < made {
            push_disturbance(random, layout, calls);
        }
    }
}

/// A single step of a cycle with so many to come, or now and then, where it may be,
/// a call of several. Gives how many it asks for.
fn push_steps(
    random: &mut Random,
    layout: &Layout,
    left: usize,
    several: bool,
    calls: &mut Vec<Call<Vec<u8>>>,
) -> usize {
    let matches = random.bytes(layout.rows());
    if several && random.one_in(3) {
        let most = some_most(random, left, usize::MAX);
        calls.push(Call::Steps { most, matches });
        most
    } else {
        calls.push(Call::Step { matches });
        1
    }
}

/// A call that comes into a cycle: any, a start that is refused, a line that is
/// set, or an ask, perhaps with its commit.
fn push_disturbance(random: &mut Random, layout: &Layout, calls: &mut Vec<Call<Vec<u8>>>) {
    let row = random.below(layout.rows());
    match random.below(6) {
        0 => calls.push(Call::Start {
            skip: random.pick(&too_many(layout.digits())),
        }),
        1 => calls.push(right_line(random, row)),
        2 => calls.push(right_ask(random, layout, row)),
        3 => push_asked_row(random, layout, calls),
        _ => push_some_call(random, layout, calls),
    }
}

/// Arguments of which most are in range.
struct Mostly<'a> {
    random: &'a mut Random,
    layout: &'a Layout,
    /// What an ask before wrote, if there is one.
    asked: Option<Vec<u8>>,
    /// A rule before, if there is one.
    rule: Option<Rule<Vec<u8>>>,
}

impl Mostly<'_> {
    /// Now and then more of the levels, fewer, or one that is too high.
    fn perhaps_wrong(&mut self, mut levels: Vec<u8>) -> Vec<u8> {
        levels.resize(some_length(self.random, levels.len()), 0);
        if self.random.one_in(8) && !levels.is_empty() {
            let place = self.random.below(levels.len());
            levels[place] = self.random.byte();
        }
        levels
    }
}

impl Draw for Mostly<'_> {
    type Buffer = Vec<u8>;

    /// Mostly as many good levels as there are rule columns.
    fn levels(&mut self) -> (usize, Vec<u8>) {
        let levels = self.layout.levels();
        let levels = self.random.levels(levels, self.layout.width());
        (self.row(), self.perhaps_wrong(levels))
    }

    /// Mostly as many bytes as there are columns.
    fn finished(&mut self) -> Vec<u8> {
        let asked = self.asked.take();
        let asked = asked.unwrap_or_else(|| sound_row(self.random, self.layout));
        let mut finished = any_row(self.random, self.layout, &asked);
        finished.resize(some_length(self.random, finished.len()), 0);
        finished
    }

    fn row(&mut self) -> usize {
        some_number(self.random, self.layout.rows())
    }

    fn column(&mut self) -> usize {
        some_number(self.random, self.layout.columns())
    }

    /// Mostly a level below the number of levels, else any byte.
    fn level(&mut self) -> u8 {
        if self.random.one_in(8) {
            self.random.byte()
        } else {
            self.random.level(self.layout.levels())
        }
    }

    /// Mostly a byte that the line call takes, else any.
    fn line(&mut self) -> u8 {
        if self.random.one_in(6) {
            self.random.byte()
        } else {
            settable(self.random)
        }
    }

    /// Mostly as many good inputs as there are rule columns.
    fn inputs(&mut self) -> Vec<u16> {
        let levels = self.layout.levels();
        let mut inputs = any_inputs(self.random, levels, self.layout.width());
        inputs.resize(some_length(self.random, inputs.len()), 0);
        if self.random.one_in(8) {
            spoil_input(self.random, levels, &mut inputs);
        }
        inputs
    }

    /// Mostly a good one.
    fn rule(&mut self) -> Rule<Vec<u8>> {
        let mut rule = any_rule(self.random, self.layout);
        for _ in 0..self.random.below(6).saturating_sub(3) {
            spoil_rule(self.random, &mut rule);
        }
        rule
    }

    fn values(&mut self) -> Vec<u8> {
        let rule = self.rule.take();
        let values = some_bottle(self.random, self.layout, rule.as_ref());
        self.perhaps_wrong(values)
    }

    fn skip(&mut self) -> usize {
        some_number(self.random, self.layout.digits())
    }

    fn most(&mut self) -> usize {
        some_most(self.random, self.layout.steps(0), usize::MAX)
    }

    fn buffer(&mut self, own: Own) -> Vec<u8> {
        some_bytes(self.random, own.length(self.layout))
    }
}
