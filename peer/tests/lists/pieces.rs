//! The pieces of which a list is made.

use peer::testing::draw::some_number;
use peer::testing::inputs::as_inputs;
use peer::testing::lent::{wrong_lengths, Lent};
use peer::testing::lines::{any_lines, WITH_LINES};
use peer::testing::panels::{foreign, WITH_TOTALS};
use peer::testing::records::{forged, words_of};
use peer::testing::rows::any_row;
use peer::testing::skips::too_many;
use peer::testing::steps::left;
use peer::{Answer, Call, Cycle, Name, Phase, Shape};

use crate::drawn::Drawn;
use crate::list::{List, ROW_STEPS};

/// The places of the buffers of the state among all buffers.
pub const CELLS: usize = 0;
pub const LINES: usize = 1;
pub const COUNTERS: usize = 2;
const FLAGS: usize = 3;
const TOTALS: usize = 4;

/// Calls that come between an ask and its commit, between bottles, and into a
/// cycle.
const BETWEEN: [Name; 10] = [
    Name::Drift,
    Name::Line,
    Name::Lookup,
    Name::Program,
    Name::Start,
    Name::Step,
    Name::Step,
    Name::Steps,
    Name::Rule,
    Name::Route,
];

/// Phases without a name.
const NAMELESS: [usize; 9] = [3, 4, 255, 256, 257, 258, 1 << 32, (1 << 32) + 1, usize::MAX];

/// Whether so many steps of a cycle on the shape, or those that it has left by its
/// record, look at too many rows to be made often.
fn is_long(shape: Shape, cycle: Cycle, most: usize) -> bool {
    left(shape, cycle).min(most) > ROW_STEPS / shape.rows.max(1)
}

impl List<'_> {
    /// A call with some things wrong in it, or none.
    pub fn any(&mut self, name: Name) -> Drawn {
        let mut drawn = self.right(name);
        if let Call::Commit { finished, .. } = &mut drawn.call {
            *finished = self.any_row();
        }
        let room = self.ours.lent.each().map(|buffer| buffer.room());
        drawn.spoil(&mut self.random, &self.layout, room);
        let (shape, record) = (drawn.shape, self.record());
        match &mut drawn.call {
            Call::Run { skip, .. } if is_long(shape, Cycle::open(*skip), usize::MAX) => {
                drawn.call = Call::Start { skip: *skip };
            }
            Call::Steps { most, .. } if is_long(shape, record, *most) => *most %= 10,
            _ => {}
        }
        drawn
    }

    /// A row to commit: what the last ask wrote, or something else.
    fn any_row(&mut self) -> Vec<u8> {
        let asked = self.asked();
        any_row(&mut self.random, &self.layout, &asked)
    }

    /// One call of any name.
    fn one_call(&mut self) {
        let name = self.random.pick(Name::ALL);
        let call = self.any(name);
        self.make(call);
    }

    /// A row is asked for and committed, as the ask wrote it or otherwise, for that
    /// row or another one, and now and then asked for again. Often a cycle is open,
    /// and other calls come between.
    fn asked_row(&mut self) {
        if self.random.one_in(2) {
            self.jump();
        }
        let mut ask = self.right(Name::Ask);
        let asked_for = *ask.call.row_mut().expect("a call on a row");
        self.make(ask.clone());
        for _ in 0..self.random.below(4) {
            self.call_between();
        }
        let other = self.random.below(self.shape.rows);
        let row = self.random.pick(&[asked_for, other]);
        let finished = self.any_row();
        let commit = self.lent(Call::Commit { row, finished });
        self.make(commit);
        if self.random.one_in(2) {
            self.make(ask);
        }
    }

    /// A call that comes between two others, with nothing wrong in it.
    pub fn call_between(&mut self) {
        let name = self.random.pick(&BETWEEN);
        let call = self.right(name);
        self.make(call);
    }

    /// A row is programmed or committed, a few of its cells drift, and it is looked
    /// at.
    pub fn changed_row(&mut self) {
        let row = self.random.below(self.shape.rows);
        let written = self.random.pick(&[Name::Program, Name::Commit]);
        let mut names = vec![written, Name::Sound, Name::Read];
        for _ in 0..self.random.below(4) {
            names.insert(1, Name::Drift);
        }
        for name in names {
            let mut drawn = self.right(name);
            *drawn.call.row_mut().expect("a call on a row") = row;
            self.make(drawn);
        }
    }

    /// A row is programmed, its line is set, and it is looked up, also with q in a
    /// column.
    fn set_row(&mut self) {
        let row = self.random.below(self.shape.rows);
        for name in [Name::Program, Name::Line] {
            let mut drawn = self.right(name);
            *drawn.call.row_mut().expect("a call on a row") = row;
            self.make(drawn);
        }
        self.look_up_row(row, None);
        let beyond = self.random.below(self.shape.width);
        self.look_up_row(row, Some(beyond));
    }

    /// Looks a row up by its own rule cells, which are levels, but for a column that
    /// is fed q: it matches where its line is shorted, and without such a column
    /// where its line is sound.
    pub fn look_up_row(&mut self, row: usize, beyond: Option<usize>) {
        let mut inputs = as_inputs(&self.row(row)[..self.shape.width]);
        if let Some(column) = beyond {
            inputs[column] = self.layout.levels() as u16;
        }
        for name in [Name::Lookup, Name::FirstMatch] {
            let mut drawn = self.right(name);
            *drawn.call.inputs_mut().expect("a lookup") = inputs.clone();
            self.make(drawn);
        }
    }

    /// Somebody else writes the lines.
    pub fn write_lines(&mut self, lines: Vec<u8>) {
        self.write(LINES, 0, lines);
    }

    /// Somebody else writes lines of any kind.
    pub fn any_lines(&mut self) {
        let lines = any_lines(&mut self.random, self.shape.rows);
        self.write_lines(lines);
    }

    /// One step or several with a forged record; the true one is put back after a
    /// refusal.
    fn forged_step(&mut self) {
        let (words, before) = (self.ours.words, self.record());
        let mut changed = words_of(forged(&mut self.random, before));
        if self.random.one_in(4) {
            changed[0] = self.random.pick(&NAMELESS);
        }
        self.put(changed);
        if self.random.one_in(4) {
            self.one_call();
        }
        let name = self.random.pick(&[Name::Step, Name::Steps]);
        let step = self.right(name);
        if self.make(step) == Answer::Refused(9) {
            self.seen.forged += 1;
            self.seen.nameless += usize::from(self.ours.words[0] > 2);
            self.put(words);
        }
    }

    /// One step or several with another z in the record. Where they are taken, the
    /// cycle goes on with that z; else the true record is put back.
    pub fn step_with_skip(&mut self, skip: usize) -> Answer {
        let (words, before) = (self.ours.words, self.record());
        let changed = Cycle { skip, ..before };
        self.put(words_of(changed));
        let name = self.random.pick(&[Name::Step, Name::Steps]);
        let step = self.right(name);
        let answer = self.make(step);
        self.seen.skips.add_forged(answer, before, changed);
        if answer != Answer::Done {
            self.put(words);
        }
        answer
    }

    /// A step with any z in the record.
    fn step_with_other_skip(&mut self) {
        let skip = some_number(&mut self.random, self.shape.digits);
        self.step_with_skip(skip);
    }

    /// Any bytes come into a buffer that a step uses or into the belts: into a row
    /// of the cells, or into all of another one.
    pub fn foreign_bytes(&mut self) {
        let buffer = match self.random.below(Lent::MATCHES + 2) {
            place if place > Lent::MATCHES => Lent::BELTS,
            place => place,
        };
        let (place, length) = match buffer {
            CELLS => {
                let columns = self.layout.columns();
                (self.some_row() * columns, columns)
            }
            _ => (0, *Lent::lengths(&self.layout).at(buffer)),
        };
        let bytes = match buffer {
            LINES if !self.random.one_in(4) => any_lines(&mut self.random, length),
            COUNTERS if self.random.one_in(2) => self.random.levels(self.shape.radix, length),
            FLAGS | TOTALS if self.random.one_in(2) => self.random.sparse(length, 8),
            _ => self.random.bytes(length),
        };
        self.write(buffer, place, bytes);
    }

    /// What the panel is told of the flags and totals as they stand.
    pub fn panel(&mut self) -> Answer {
        let panel = self.right(Name::Panel);
        self.make(panel)
    }

    /// What the panel is told of any flags and totals.
    pub fn foreign_panel(&mut self) {
        let (flags, totals) = foreign(&mut self.random, &self.layout);
        self.write(FLAGS, 0, flags);
        self.write(TOTALS, 0, totals);
        self.panel();
    }

    /// The calls that are lent the totals, with a wrong length of these.
    pub fn wrong_totals(&mut self) {
        for name in WITH_TOTALS {
            for length in wrong_lengths(self.layout.blocks()) {
                let mut drawn = self.right(name);
                drawn.lengths.state.totals = length;
                assert_eq!(self.make(drawn), Answer::Refused(6));
            }
        }
    }

    /// The calls that are lent the lines, with a wrong length of these.
    pub fn wrong_lines(&mut self) {
        for name in WITH_LINES {
            for length in wrong_lengths(self.shape.rows) {
                let mut drawn = self.right(name);
                drawn.lengths.state.lines = length;
                assert_eq!(self.make(drawn), Answer::Refused(6));
            }
        }
    }

    /// A start or a whole cycle with so many digits to skip.
    pub fn skipping(&mut self, name: Name, skip: usize) -> Drawn {
        let mut drawn = self.right(name);
        *drawn.call.skip_mut().expect("a call that skips") = skip;
        drawn
    }

    /// A start or a whole cycle that is refused.
    fn refused_start(&mut self) {
        let name = self.random.pick(&[Name::Start, Name::Run]);
        let skip = self.random.pick(&too_many(self.shape.digits));
        let drawn = self.skipping(name, skip);
        self.make(drawn);
    }

    /// A start and a whole cycle with so many digits to skip, which are too many:
    /// with all else right, with a buffer of a wrong length, and with too many
    /// rows.
    pub fn too_many_skipped(&mut self, skip: usize) {
        for name in [Name::Start, Name::Run] {
            let mut drawn = self.skipping(name, skip);
            assert_eq!(self.make(drawn.clone()), Answer::Refused(15));
            for buffer in 0..=Lent::MATCHES {
                let mut longer = drawn.clone();
                *longer.lengths.at(buffer) += 1;
                assert_eq!(self.make(longer), Answer::Refused(15));
            }
            drawn.shape.rows = Shape::MAX_ROWS + 1;
            assert_eq!(self.make(drawn), Answer::Refused(5));
        }
    }

    /// The record of any place of the schedule of any z, its end most often, and
    /// often one of its openings.
    pub fn jump(&mut self) {
        let schedule = &self.schedules[self.random.below(self.shape.digits)];
        let steps = schedule.steps();
        let count = match self.random.below(6) {
            0 => self.random.below(2),
            1 | 2 => self.random.below(steps),
            _ => steps - 1 - self.random.below(steps.min(5)),
        };
        self.put(words_of(schedule.record(count)));
    }

    /// Something else than the next step.
    pub fn disturb(&mut self) {
        match self.random.below(11) {
            0 => self.forged_step(),
            1 | 2 => self.foreign_bytes(),
            3 => self.one_call(),
            4 => self.jump(),
            5 => self.step_with_other_skip(),
            6 => self.refused_start(),
            7 => {
                let ask = self.right(Name::Ask);
                self.make(ask);
            }
            8 => self.several_steps(),
            9 => {
                let call = self.any(Name::Steps);
                self.make(call);
            }
            _ => {
                let call = self.any(Name::Step);
                self.make(call);
            }
        }
    }

    /// So many steps or to the end of the cycle, with other things between now
    /// and then, and one step more.
    pub fn steps(&mut self, steps: usize, disturbed: bool) {
        for _ in 0..steps {
            if self.record().phase != Phase::Open {
                break;
            }
            if disturbed && self.random.one_in(10) {
                self.disturb();
            }
            let step = self.right(Name::Step);
            self.make(step);
        }
        let step = self.right(Name::Step);
        self.make(step);
    }

    /// A start and so many steps at most, and what the panel is told then.
    pub fn cycle(&mut self, skip: usize, steps: usize, disturbed: bool) {
        let start = self.skipping(Name::Start, skip);
        self.make(start);
        self.steps(steps, disturbed);
        if !disturbed && self.record() == self.complete(skip) {
            self.seen.whole[usize::from(skip > 0)] += 1;
        }
        self.panel();
    }

    /// The record after a cycle.
    pub fn complete(&self, skip: usize) -> Cycle {
        Cycle {
            phase: Phase::Complete,
            count: self.layout.steps(skip),
            skip,
            ..Cycle::IDLE
        }
    }

    /// A whole cycle by steps and one by a single call.
    pub fn whole_cycles(&mut self, skip: usize) {
        let complete = words_of(self.complete(skip));
        self.cycle(skip, usize::MAX, false);
        assert_eq!(self.ours.words, complete);
        let run = self.skipping(Name::Run, skip);
        assert_eq!(self.make(run), Answer::Done);
        assert_eq!(self.ours.words, complete);
    }

    /// A cycle of any z.
    fn any_cycle(&mut self, steps: usize, disturbed: bool) {
        let skip = self.random.below(self.shape.digits);
        self.cycle(skip, steps, disturbed);
    }

    /// So many pieces, with cycles of so many steps at most.
    pub fn pieces(&mut self, pieces: usize, steps: usize) {
        for _ in 0..pieces {
            match self.random.below(22) {
                0..=4 => (0..9).for_each(|_| self.one_call()),
                20 | 21 => self.ruled_rows(),
                5 | 6 => self.changed_row(),
                14 => self.set_row(),
                15 | 16 => (0..3).for_each(|_| self.asked_row()),
                17 => self.mixed_cycle(false),
                18 => self.mixed_cycle(true),
                19 => (0..5).for_each(|_| self.steps_from_anywhere()),
                7 => self.forged_step(),
                8 => self.foreign_bytes(),
                9 => {
                    self.jump();
                    self.steps(10, false);
                }
                10 => {
                    self.jump();
                    self.step_with_other_skip();
                    self.steps(10, false);
                }
                11 => self.foreign_panel(),
                12 => self.any_cycle(steps, true),
                _ => self.any_cycle(steps, false),
            }
        }
    }
}
