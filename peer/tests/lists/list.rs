//! A list on one shape, on its way through both builds.

use peer::testing::asks::Asks;
use peer::testing::draw::{self, Right};
use peer::testing::guard::Guarded;
use peer::testing::inputs::Inputs;
use peer::testing::lent::{Lent, Own};
use peer::testing::lines::{any_lines, Lines};
use peer::testing::naive::schedule::Schedule;
use peer::testing::naive::spec::questions;
use peer::testing::panels::Cases;
use peer::testing::random::Random;
use peer::testing::records::{cycle_of, forged, words_of, Words};
use peer::testing::rules::{bottle_for, rule_of, Rules};
use peer::testing::skips::Skips;
use peer::testing::steps::{left, some_most, Steps};
use peer::testing::tally::Tally;
use peer::{Answer, Call, Cycle, Layout, Name, Phase, Shape, State};

use crate::drawn::Drawn;
use crate::event::{Event, Events};
use crate::side::Side;

/// What all lists together did.
#[derive(Debug, Default)]
pub struct Seen {
    pub tally: Tally,
    /// The calls on shapes that catch so many changed cells.
    pub by_errors: [usize; 4],
    /// Cycles that ended by a single step.
    pub ended: usize,
    /// Those from their start on without a disturbance: of all digits, and coarse
    /// ones.
    pub whole: [usize; 2],
    /// Forged records that a step or several refused, and such with a phase of no
    /// name.
    pub forged: usize,
    pub nameless: usize,
    /// What was asked for and committed.
    pub asks: Asks,
    /// What was seen of belt rules.
    pub rules: Rules,
    /// What was done with skipped digits.
    pub skips: Skips,
    /// What calls of several steps there were.
    pub steps: Steps,
    /// What lines the calls were lent.
    pub lines: Lines,
    /// What inputs lookups were given.
    pub inputs: Inputs,
    /// What the panel was told.
    pub panels: Cases,
}

/// The record, the lines and the counters before a call.
struct Before {
    cycle: Cycle,
    lines: Guarded,
    counters: Guarded,
}

/// How many rows the steps of one call look at, at most.
pub const ROW_STEPS: usize = 100_000;

pub struct List<'a> {
    pub random: Random,
    pub shape: Shape,
    pub layout: Layout,
    /// The schedules of every z.
    pub schedules: Vec<Schedule>,
    pub ours: Side,
    pub seen: &'a mut Seen,
    seed: u64,
    proved: Side,
    events: Events,
}

impl<'a> List<'a> {
    /// The beginning: buffers with any bytes and a record with any fields. Of the
    /// lines many are sound, so that the cells of their rows count.
    pub fn new(seed: u64, shape: impl Fn(&mut Random) -> Shape, seen: &'a mut Seen) -> List<'a> {
        let mut random = Random::new(seed);
        let shape = shape(&mut random);
        let layout = shape.layout().expect("a good shape");
        let lengths = Lent::lengths(&layout);
        let mut side = Side {
            lent: lengths.map(|length| Guarded::drawn(&mut random, length)),
            words: words_of(forged(&mut random, Cycle::IDLE)),
        };
        let lines = any_lines(&mut random, shape.rows);
        side.lent.state.lines.copy_from_slice(&lines);
        seen.asks.begin_list();
        let mut list = List {
            random,
            shape,
            layout,
            schedules: questions(shape)
                .expect("a good shape")
                .schedules()
                .collect(),
            ours: side.clone(),
            seen,
            seed,
            proved: side,
            events: Events::default(),
        };
        list.note_beginning();
        list
    }

    /// Notes the record, and the bytes of a small array.
    fn note_beginning(&mut self) {
        self.events.note(Event::Record(self.ours.words));
        if self.layout.cells() <= 1_000 {
            for (buffer, bytes) in self.ours.lent.each().into_iter().enumerate() {
                self.events.note(Event::Bytes {
                    buffer,
                    place: 0,
                    bytes: bytes.to_vec(),
                });
            }
        }
    }

    /// A call with nothing wrong in it but perhaps its record.
    pub fn right(&mut self, name: Name) -> Drawn {
        let mut right = Right {
            random: &mut self.random,
            layout: &self.layout,
        };
        let mut call = draw::call(name, &mut right);
        match &mut call {
            Call::Steps { most, .. } => {
                let left = left(self.shape, self.record());
                *most = some_most(&mut self.random, left, ROW_STEPS / self.shape.rows);
            }
            Call::Route { values } if !self.random.one_in(4) => *values = self.bottle(),
            _ => {}
        }
        self.lent(call)
    }

    /// A bottle for the ranges that stand in any row, mostly one of the first.
    fn bottle(&mut self) -> Vec<u8> {
        let row = self.some_row();
        let rule = rule_of(&self.layout, self.row(row));
        bottle_for(&mut self.random, &self.layout, &rule)
    }

    /// A row, mostly one of the first.
    pub fn some_row(&mut self) -> usize {
        let most = self.random.pick(&[2, 5, self.shape.rows]);
        self.random.below(most.min(self.shape.rows))
    }

    /// The cells of a row as they stand.
    pub fn row(&self, row: usize) -> &[u8] {
        let columns = self.layout.columns();
        self.ours.lent.state.cells.at(row * columns, columns)
    }

    /// The call with buffers of their lengths.
    pub fn lent(&self, call: Call<Own>) -> Drawn {
        Drawn {
            shape: self.shape,
            lengths: Lent::lengths(&self.layout),
            call,
        }
    }

    /// Makes a call in both builds and compares.
    pub fn make(&mut self, drawn: Drawn) -> Answer {
        let before = self.before(&drawn);
        let (proved, arguments) = self.proved.proved(&drawn);
        let ours = self.ours.ours(&drawn);
        let unwritten = arguments == drawn.call.clone().map(|_| ());
        self.events.note(Event::Call(drawn.clone()));
        if proved != Some(ours) {
            self.fail(&format!("the answers {proved:?} and {ours:?}"));
        }
        if !unwritten {
            self.fail("the arguments");
        }
        self.compare();
        self.count(&drawn, ours, before);
        ours
    }

    /// What a call finds, with the lengths that it is lent.
    fn before(&self, drawn: &Drawn) -> Before {
        let State {
            lines, counters, ..
        } = &self.ours.lent.state;
        let lent = |buffer: &Guarded, length| {
            let mut part = buffer.clone();
            part.set_length(length);
            part
        };
        Before {
            cycle: self.record(),
            lines: lent(lines, drawn.lengths.state.lines),
            counters: lent(counters, drawn.lengths.state.counters),
        }
    }

    /// Counts a call that was made.
    fn count(&mut self, drawn: &Drawn, answer: Answer, before: Before) {
        let (name, shape) = (drawn.call.name(), drawn.shape);
        let made = self.ours.left(drawn);
        let after = self.record();
        let Before {
            cycle,
            lines,
            counters,
        } = before;
        self.seen.tally.add(name, answer);
        self.seen.asks.add(shape, &made, answer, cycle);
        self.seen.skips.add(name, answer, cycle, after);
        self.seen.lines.add(name, answer, cycle, after, &lines);
        self.seen.steps.add(shape, &made, answer, cycle, &counters);
        let cells = &self.ours.lent.state.cells;
        self.seen.inputs.add(shape, &made, answer, cells, &lines);
        self.seen
            .rules
            .add(shape, &made, answer, cycle, cells, &lines);
        self.seen.by_errors[self.shape.errors] += 1;
        if name == Name::Step && answer == Answer::Done && after.phase == Phase::Complete {
            self.seen.ended += 1;
        }
        if let Answer::Panel(panel) = answer {
            let totals = &self.ours.lent.state.totals;
            self.seen.panels.add(self.shape.rows, totals, panel);
        }
    }

    fn compare(&self) {
        if self.proved.words != self.ours.words {
            let (proved, ours) = (self.proved.words, self.ours.words);
            self.fail(&format!("the records {proved:?} and {ours:?}"));
        }
        let pairs = self
            .proved
            .lent
            .each()
            .into_iter()
            .zip(self.ours.lent.each());
        for (name, (proved, ours)) in Lent::names().into_iter().zip(pairs) {
            if proved != ours {
                self.fail(&format!("the {name} {}", proved.difference(ours)));
            }
        }
    }

    /// Ends the test: prints the seed and the list as far as it went.
    fn fail(&self, what: &str) -> ! {
        panic!(
            "{what} differ after the last call of the list with seed {} on {}\n{}",
            self.seed, self.shape, self.events
        );
    }

    pub fn record(&self) -> Cycle {
        cycle_of(&self.ours.words)
    }

    /// What the last ask wrote, or what else stands in its buffer.
    pub fn asked(&self) -> Vec<u8> {
        let mut finished = self.ours.lent.own[Own::Finished as usize].clone();
        finished.set_length(self.layout.columns());
        finished.to_vec()
    }

    /// Somebody else writes bytes into a buffer.
    pub fn write(&mut self, buffer: usize, place: usize, bytes: Vec<u8>) {
        for side in [&mut self.proved, &mut self.ours] {
            let part = side.lent.at(buffer);
            part.set_length(place + bytes.len());
            part[place..].copy_from_slice(&bytes);
        }
        self.events.note(Event::Bytes {
            buffer,
            place,
            bytes,
        });
    }

    /// Somebody else writes the record.
    pub fn put(&mut self, words: Words) {
        self.proved.words = words;
        self.ours.words = words;
        self.events.note(Event::Record(words));
    }
}
