//! The detection cycle: its record, start, step, several steps, and one whole
//! cycle.
//!
//! A cycle has two openings. The first is the all-zero vector: every cell answers
//! 1 to it, so the rows that do not match are those with a dead line. The second
//! is q in column 0 and 0 elsewhere: no cell answers 1 to q, so the rows that
//! match are those with a shorted line. Both flag these rows and count nothing.
//! The test vectors after them may miss such a row: the counter of a dead one
//! stays 0, and that of a shorted one comes to 0 where the size of each J(ℓ) is a
//! multiple of ρ.
//!
//! Schedule of the test vectors: checks ℓ upwards; within it digits s from the
//! highest down to z; within it the columns j of J(ℓ) upwards; within it the
//! factors a from 1 below q / ρ^s that ρ does not divide, upwards. The vector is
//! a × ρ^s in column j and 0 elsewhere. The z low digits are skipped: a cycle with
//! z = 0 looks at all of them, a coarse one sees only what differs above. The
//! openings are the same for every z.

use crate::comparator::{match_beyond, match_byte};
use crate::matrix::ones_in_check;
use crate::panel::count_flags;
use crate::shape::{Layout, Refusal, Shape};
use crate::state::State;

/// Where a cycle is.
#[derive(Clone, Copy, Debug, PartialEq, Eq, Hash)]
pub enum Phase {
    /// No cycle since the array was cleared or a row written.
    Idle,
    /// An opening or a test vector is still to come.
    Open,
    /// All of them have been looked up.
    Complete,
}

/// What the next step of a cycle looks up, by the steps made.
enum Next {
    /// The first opening.
    Zeros,
    /// The second opening.
    Beyond,
    /// A test vector.
    Test,
}

/// The cycle record. Check, digit, column and factor are those of the next test
/// vector; they are 0 where an opening is next, and where no lookup is to come. The
/// count tells the two openings apart.
#[derive(Clone, Copy, Debug, PartialEq, Eq, Hash)]
pub struct Cycle {
    /// Where the cycle is.
    pub phase: Phase,
    /// ℓ, the check.
    pub check: usize,
    /// s, the digit.
    pub digit: usize,
    /// j, the column.
    pub column: usize,
    /// a, the factor.
    pub factor: usize,
    /// The number of steps made, the openings among them.
    pub count: usize,
    /// z, the number of low digits that the cycle skips; 0 while it is idle.
    pub skip: usize,
}

impl Cycle {
    /// The idle record.
    pub const IDLE: Cycle = Cycle {
        phase: Phase::Idle,
        check: 0,
        digit: 0,
        column: 0,
        factor: 0,
        count: 0,
        skip: 0,
    };

    /// The record that a start leaves, with so many low digits to skip: the first
    /// opening is next.
    pub const fn open(skip: usize) -> Cycle {
        Cycle {
            phase: Phase::Open,
            skip,
            ..Cycle::IDLE
        }
    }

    /// The record that the last step leaves.
    fn complete(count: usize, skip: usize) -> Cycle {
        Cycle {
            phase: Phase::Complete,
            count,
            skip,
            ..Cycle::IDLE
        }
    }

    /// Question 9: whether a start and `count` accepted steps leave this
    /// record, with an opening or a test vector still to come.
    fn awaits_step(&self, layout: &Layout) -> bool {
        match self.count.checked_sub(Layout::OPENINGS) {
            None => {
                let opening = Cycle {
                    count: self.count,
                    ..Cycle::open(self.skip)
                };
                *self == opening && self.skip < layout.digits()
            }
            Some(vectors) => self.phase == Phase::Open && self.rank(layout) == Some(vectors),
        }
    }

    /// What comes next, in a record that awaits a step.
    fn looks_up(&self) -> Next {
        match self.count {
            0 => Next::Zeros,
            1 => Next::Beyond,
            _ => Next::Test,
        }
    }

    /// How many test vectors come before this record's one, or none where the
    /// schedule of its z has no such vector.
    fn rank(&self, layout: &Layout) -> Option<usize> {
        let digits = self.skip..layout.digits();
        if self.check >= layout.checks() || !digits.contains(&self.digit) {
            return None;
        }
        let radix = layout.radix();
        let bound = self.bound(layout);
        if self.factor >= bound || self.factor.is_multiple_of(radix) {
            return None;
        }
        let place = place_in_support(layout, self.check, self.column)?;
        let size = layout.support_size(self.check);
        let of_a_column = layout.levels_above(self.skip) - 1;
        let earlier_checks = layout.weight_before(self.check) * of_a_column;
        let earlier_digits = size * (bound / radix - 1);
        let earlier_columns = place * (bound - bound / radix);
        let earlier_factors = self.factor - self.factor / radix - 1;
        Some(earlier_checks + earlier_digits + earlier_columns + earlier_factors)
    }

    /// The factors of the digit lie below this power of the radix.
    fn bound(&self, layout: &Layout) -> usize {
        layout.levels_above(self.digit)
    }

    /// The input of the record's column, at most q − 1. All others are 0, and in
    /// the first opening, whose factor is 0, this one too.
    fn input(&self, layout: &Layout) -> u8 {
        (self.factor * layout.radix().pow(self.digit as u32)) as u8
    }

    /// Whether the vector is the last one of its digit: the last column of J(ℓ)
    /// is the check column of ℓ, and the last factor is one below the bound.
    fn ends_digit(&self, layout: &Layout) -> bool {
        self.column == layout.width() + self.check && self.factor + 1 == self.bound(layout)
    }

    /// Whether the vector is the last one of its check.
    fn ends_check(&self, layout: &Layout) -> bool {
        self.digit == self.skip && self.ends_digit(layout)
    }

    /// The record after one more step.
    fn next(self, layout: &Layout) -> Cycle {
        let mut next = self;
        next.count += 1;
        let highest = layout.digits() - 1;
        match self.looks_up() {
            Next::Zeros => return next,
            Next::Beyond => return next.at_digit(layout, 0, highest),
            Next::Test => {}
        }
        if self.factor + 1 < self.bound(layout) {
            next.factor = next_factor(self.factor, layout.radix());
            return next;
        }
        next.factor = 1;
        if !self.ends_digit(layout) {
            next.column = next_in_support(layout, self.check, self.column + 1);
            return next;
        }
        if self.digit > self.skip {
            next.at_digit(layout, self.check, self.digit - 1)
        } else if self.check + 1 < layout.checks() {
            next.at_digit(layout, self.check + 1, highest)
        } else {
            Cycle::complete(next.count, next.skip)
        }
    }

    /// The record at the first vector of a digit of a check.
    fn at_digit(self, layout: &Layout, check: usize, digit: usize) -> Cycle {
        Cycle {
            check,
            digit,
            column: next_in_support(layout, check, 0),
            factor: 1,
            ..self
        }
    }
}

/// The next factor that the radix does not divide.
fn next_factor(factor: usize, radix: usize) -> usize {
    if (factor + 1).is_multiple_of(radix) {
        factor + 2
    } else {
        factor + 1
    }
}

/// The first column of J(ℓ) from the given one on; the check column at last.
fn next_in_support(layout: &Layout, check: usize, from: usize) -> usize {
    layout
        .rules()
        .iter()
        .skip(from)
        .position(|rule| rule >> check & 1 == 1)
        .map_or(layout.width() + check, |ahead| from + ahead)
}

/// How many columns of J(ℓ) come before the given one, or none where it is not
/// in the set.
fn place_in_support(layout: &Layout, check: usize, column: usize) -> Option<usize> {
    let rules = layout.rules();
    match rules.get(column) {
        Some(rule) if rule >> check & 1 == 1 => Some(ones_in_check(&rules[..column], check)),
        None if column == layout.width() + check => Some(ones_in_check(rules, check)),
        _ => None,
    }
}

/// Starts a cycle that skips so many low digits: counters, flags and totals 0,
/// record open with count 0. Cells and lines are not its matter, and question 6
/// is not asked of them.
pub fn start(
    shape: Shape,
    skip: usize,
    state: State<&mut [u8]>,
    cycle: Cycle,
) -> (Cycle, Result<(), Refusal>) {
    match ask_start(shape, skip, &state) {
        Err(refusal) => (cycle, Err(refusal)),
        Ok(()) => (open(skip, state), Ok(())),
    }
}

/// What an accepted start does; gives the record that it leaves.
fn open(skip: usize, state: State<&mut [u8]>) -> Cycle {
    state.counters.fill(0);
    state.flags.fill(0);
    state.totals.fill(0);
    Cycle::open(skip)
}

fn ask_start(shape: Shape, skip: usize, state: &State<&mut [u8]>) -> Result<(), Refusal> {
    let layout = shape.layout()?;
    layout.ask_skip(skip)?;
    layout.ask_length(state.counters, layout.rows())?;
    layout.ask_length(state.flags, layout.rows())?;
    layout.ask_length(state.totals, layout.blocks())
}

/// Makes the next lookup of the cycle, writes the match bytes, and moves the
/// record on.
///
/// The first opening flags the rows that do not match, and the second those that
/// do; both leave the counters. A test vector adds each match byte to its row's
/// counter mod the radix; at the end of a digit the rows whose counter is not 0
/// are flagged, and at the end of a check the counters return to 0. Where rows are
/// flagged, the flagged ones of each block are counted.
pub fn step(
    shape: Shape,
    state: State<&mut [u8]>,
    matches: &mut [u8],
    cycle: Cycle,
) -> (Cycle, Result<(), Refusal>) {
    match ask_step(shape, &state, matches, &cycle) {
        Err(refusal) => (cycle, Err(refusal)),
        Ok(layout) => (take_step(&layout, state, matches, cycle), Ok(())),
    }
}

/// Makes at most so many steps, one after the other, and none after the end of
/// the cycle. The match bytes are those of the last step, and stay where none is
/// made. The questions are those of a step, whatever the number.
pub fn steps(
    shape: Shape,
    most: usize,
    state: State<&mut [u8]>,
    matches: &mut [u8],
    cycle: Cycle,
) -> (Cycle, Result<(), Refusal>) {
    match ask_step(shape, &state, matches, &cycle) {
        Err(refusal) => (cycle, Err(refusal)),
        Ok(layout) => (take_steps(&layout, most, state, matches, cycle), Ok(())),
    }
}

/// What accepted steps do, at most so many; gives the record that they leave.
fn take_steps(
    layout: &Layout,
    most: usize,
    mut state: State<&mut [u8]>,
    matches: &mut [u8],
    cycle: Cycle,
) -> Cycle {
    let mut now = cycle;
    let mut left = most;
    while left > 0 && now.phase == Phase::Open {
        now = take_step(layout, state.lend(), matches, now);
        left -= 1;
    }
    now
}

/// What an accepted step does; gives the record that it leaves.
fn take_step(layout: &Layout, state: State<&mut [u8]>, matches: &mut [u8], cycle: Cycle) -> Cycle {
    match cycle.looks_up() {
        Next::Zeros => {
            feed(layout, &cycle, state.cells, state.lines, matches);
            let unmatched = matches.iter().map(|&matched| matched == 0);
            raise_flags(unmatched, state.flags, state.totals);
        }
        Next::Beyond => {
            match_beyond(state.lines, matches);
            let matched = matches.iter().map(|&matched| matched != 0);
            raise_flags(matched, state.flags, state.totals);
        }
        Next::Test => {
            feed(layout, &cycle, state.cells, state.lines, matches);
            count_vector(layout, &cycle, state, matches);
        }
    }
    cycle.next(layout)
}

fn ask_step(
    shape: Shape,
    state: &State<&mut [u8]>,
    matches: &[u8],
    cycle: &Cycle,
) -> Result<Layout, Refusal> {
    let layout = ask_lent(shape, state, matches)?;
    if cycle.awaits_step(&layout) {
        Ok(layout)
    } else {
        Err(Refusal::Record)
    }
}

/// Questions 1 to 5, and question 6 for all buffers of a step.
fn ask_lent(shape: Shape, state: &State<&mut [u8]>, matches: &[u8]) -> Result<Layout, Refusal> {
    let layout = state.ask(shape)?;
    layout.ask_length(matches, layout.rows())?;
    Ok(layout)
}

/// One whole cycle: a start and all its steps. The match bytes are those of
/// the last step. Question 9 is not asked, since a start takes any record.
pub fn run(
    shape: Shape,
    skip: usize,
    mut state: State<&mut [u8]>,
    matches: &mut [u8],
    cycle: Cycle,
) -> (Cycle, Result<(), Refusal>) {
    match ask_run(shape, skip, &state, matches) {
        Err(refusal) => (cycle, Err(refusal)),
        Ok(layout) => {
            let opened = open(skip, state.lend());
            let ended = take_steps(&layout, usize::MAX, state, matches, opened);
            (ended, Ok(()))
        }
    }
}

/// Question 15 comes before question 6.
fn ask_run(
    shape: Shape,
    skip: usize,
    state: &State<&mut [u8]>,
    matches: &[u8],
) -> Result<Layout, Refusal> {
    shape.layout()?.ask_skip(skip)?;
    ask_lent(shape, state, matches)
}

/// Feeds the record's vector, which is no second opening. All columns but one are
/// fed 0 and answer 1, so the match byte of a row is that of its line and its cell
/// in that one column.
fn feed(layout: &Layout, cycle: &Cycle, cells: &[u8], lines: &[u8], matches: &mut [u8]) {
    let input = cycle.input(layout);
    let rows = cells.chunks_exact(layout.columns());
    for ((row, &line), matched) in rows.zip(lines).zip(matches) {
        *matched = match_byte(line, &[row[cycle.column]], &[input]);
    }
}

/// What the match bytes of a test vector bring.
fn count_vector(layout: &Layout, cycle: &Cycle, state: State<&mut [u8]>, matches: &[u8]) {
    let counters = state.counters;
    add_matches(layout, counters, matches);
    if cycle.ends_digit(layout) {
        let unbalanced = counters.iter().map(|&counter| counter != 0);
        raise_flags(unbalanced, state.flags, state.totals);
    }
    if cycle.ends_check(layout) {
        counters.fill(0);
    }
}

/// Adds each match byte to its row's counter mod the radix.
fn add_matches(layout: &Layout, counters: &mut [u8], matches: &[u8]) {
    let radix = layout.radix() as u8;
    bring_below(counters, radix);
    for (counter, &matched) in counters.iter_mut().zip(matches) {
        let sum = *counter + matched;
        *counter = if sum == radix { 0 } else { sum };
    }
}

/// Any byte found in a counter counts by its remainder. The cycle itself
/// leaves none at the radix or above, so the remainders are seldom taken.
fn bring_below(counters: &mut [u8], radix: u8) {
    let largest = counters.iter().fold(0, |most, &counter| counter.max(most));
    if largest >= radix {
        for counter in counters {
            *counter %= radix;
        }
    }
}

/// Flags each row for which there is a reason, and counts the flagged rows of
/// each block.
fn raise_flags(reasons: impl Iterator<Item = bool>, flags: &mut [u8], totals: &mut [u8]) {
    for (flag, reason) in flags.iter_mut().zip(reasons) {
        if reason {
            *flag = 1;
        }
    }
    count_flags(flags, totals);
}
