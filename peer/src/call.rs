//! The calls, listed once, and their making by this build.
//!
//! For a call that is added to the listing the compiler asks for an arm in each
//! runner (here, in [`crate::testing::naive`] and in `tests/proved_calls`) and
//! in the random generator ([`crate::testing::draw`]). It does not ask for one
//! in [`crate::testing::arguments`]; where it is missing there, the tests miss
//! refusals of the call.

use crate::array;
use crate::cycle::{self, Cycle};
use crate::panel::{panel, Panel};
use crate::router::{self, Route, Rule};
use crate::shape::{Refusal, Shape};
use crate::sizes::{sizes, Sizes};
use crate::state::{Bytes, State};

/// Makes two enums of one listing: the calls with their arguments, and the
/// names of the calls alone.
macro_rules! calls {
    ($(
        $(#[$about:meta])*
        $name:ident $({ $($(#[$says:meta])* $argument:ident: $kind:ty,)* })?,
    )*) => {
        /// One call with its arguments. A `B` is there for each buffer of its
        /// own that a call may write: its bytes, a lent slice or a name.
        #[derive(Clone, Debug, PartialEq, Eq)]
        pub enum Call<B> {
            $($(#[$about])* $name $({ $($(#[$says])* $argument: $kind,)* })?,)*
        }

        /// A call without its arguments.
        #[derive(Clone, Copy, Debug, PartialEq, Eq, PartialOrd, Ord)]
        pub enum Name {
            $($(#[$about])* $name,)*
        }

        impl Name {
            /// All calls.
            pub const ALL: &'static [Name] = &[$(Name::$name,)*];
        }

        impl<B> Call<B> {
            /// Which call it is.
            pub fn name(&self) -> Name {
                match self {
                    $(Call::$name { .. } => Name::$name,)*
                }
            }
        }
    };
}

calls! {
    /// Tell the sizes of the shape.
    Sizes {
        /// The number of low digits that a cycle skips.
        skip: usize,
    },
    /// Clear the array.
    Clear,
    /// Program a row.
    Program {
        /// The row.
        row: usize,
        /// Its levels.
        levels: Vec<u8>,
    },
    /// Ask what programming a row would write, and how many cells it would change.
    Ask {
        /// The row.
        row: usize,
        /// Its levels.
        levels: Vec<u8>,
        /// What the finished row is written into.
        finished: B,
    },
    /// Commit a finished row.
    Commit {
        /// The row.
        row: usize,
        /// Its levels and check cells.
        finished: Vec<u8>,
    },
    /// Let a cell drift.
    Drift {
        /// The cell's row.
        row: usize,
        /// The cell's column.
        column: usize,
        /// The level it takes.
        level: u8,
    },
    /// Set the line byte of a row.
    Line {
        /// The row.
        row: usize,
        /// The byte.
        byte: u8,
    },
    /// A task lookup.
    Lookup {
        /// The inputs.
        inputs: Vec<u16>,
        /// The match bytes.
        matches: B,
    },
    /// Start a cycle.
    Start {
        /// The number of low digits that it skips.
        skip: usize,
    },
    /// Make the next step of the cycle.
    Step {
        /// The match bytes.
        matches: B,
    },
    /// Make the next steps of the cycle, up to its end.
    Steps {
        /// How many at most.
        most: usize,
        /// The match bytes.
        matches: B,
    },
    /// Run one whole cycle.
    Run {
        /// The number of low digits that it skips.
        skip: usize,
        /// The match bytes.
        matches: B,
    },
    /// Tell the panel the total of flagged rows and the first of them.
    Panel,
    /// Find the first row that matches.
    FirstMatch {
        /// The inputs.
        inputs: Vec<u16>,
    },
    /// Ask whether a row is sound.
    Sound {
        /// The row.
        row: usize,
    },
    /// Copy the rule cells of a row out.
    Read {
        /// The row.
        row: usize,
        /// What they are copied into.
        out: B,
    },
    /// Write a belt rule to a row.
    Rule {
        /// The row.
        row: usize,
        /// The rule.
        rule: Rule<Vec<u8>>,
    },
    /// Find the row and the belt for a bottle.
    Route {
        /// The bottle's values.
        values: Vec<u8>,
    },
    /// Copy the belt rule that stands in a row out.
    RuleAt {
        /// The row.
        row: usize,
        /// What its lows are copied into.
        lows: B,
        /// What its highs are copied into.
        highs: B,
    },
}

impl Name {
    /// Whether the call is given the record and hands it back.
    pub fn has_record(self) -> bool {
        match self {
            Name::Clear
            | Name::Program
            | Name::Commit
            | Name::Start
            | Name::Step
            | Name::Steps
            | Name::Run
            | Name::Rule => true,
            Name::Sizes
            | Name::Ask
            | Name::Drift
            | Name::Line
            | Name::Lookup
            | Name::Panel
            | Name::FirstMatch
            | Name::Sound
            | Name::Read
            | Name::Route
            | Name::RuleAt => false,
        }
    }
}

impl<B> Call<B> {
    /// The same call with something else for each buffer of its own.
    pub fn map<C>(self, mut change: impl FnMut(B) -> C) -> Call<C> {
        match self {
            Call::Sizes { skip } => Call::Sizes { skip },
            Call::Clear => Call::Clear,
            Call::Program { row, levels } => Call::Program { row, levels },
            Call::Ask {
                row,
                levels,
                finished,
            } => Call::Ask {
                row,
                levels,
                finished: change(finished),
            },
            Call::Commit { row, finished } => Call::Commit { row, finished },
            Call::Drift { row, column, level } => Call::Drift { row, column, level },
            Call::Line { row, byte } => Call::Line { row, byte },
            Call::Lookup { inputs, matches } => Call::Lookup {
                inputs,
                matches: change(matches),
            },
            Call::Start { skip } => Call::Start { skip },
            Call::Step { matches } => Call::Step {
                matches: change(matches),
            },
            Call::Steps { most, matches } => Call::Steps {
                most,
                matches: change(matches),
            },
            Call::Run { skip, matches } => Call::Run {
                skip,
                matches: change(matches),
            },
            Call::Panel => Call::Panel,
            Call::FirstMatch { inputs } => Call::FirstMatch { inputs },
            Call::Sound { row } => Call::Sound { row },
            Call::Read { row, out } => Call::Read {
                row,
                out: change(out),
            },
            Call::Rule { row, rule } => Call::Rule { row, rule },
            Call::Route { values } => Call::Route { values },
            Call::RuleAt { row, lows, highs } => Call::RuleAt {
                row,
                lows: change(lows),
                highs: change(highs),
            },
        }
    }
}

/// What a call gave: nothing, sizes, a count of matches or of changes, what the
/// panel is told, a row or none, yes or no, a row with its belt or none, a belt; or
/// the number of the first question that failed.
#[derive(Clone, Copy, Debug, PartialEq, Eq)]
pub enum Answer {
    /// The call was taken and gives nothing.
    Done,
    /// The sizes of the shape.
    Sizes(Sizes),
    /// The number of matches.
    Count(usize),
    /// The number of cells that programming would change.
    Changed(usize),
    /// What the panel is told.
    Panel(Panel),
    /// The first row that matches.
    Row(Option<usize>),
    /// Whether the row is sound.
    Sound(bool),
    /// Where the bottle goes.
    Route(Option<Route>),
    /// The belt of the row.
    Belt(u8),
    /// The call was refused.
    Refused(u8),
}

impl Answer {
    /// The answer of a call that gives something.
    pub fn of<T>(result: Result<T, impl Into<u8>>, taken: impl FnOnce(T) -> Answer) -> Answer {
        result.map_or_else(|refusal| Answer::Refused(refusal.into()), taken)
    }

    /// The answer of a call that gives nothing.
    pub fn done(result: Result<(), impl Into<u8>>) -> Answer {
        Answer::of(result, |()| Answer::Done)
    }

    /// 0 for a call that was taken, else the number of the refusal.
    pub fn number(self) -> u8 {
        match self {
            Answer::Refused(number) => number,
            _ => 0,
        }
    }
}

/// Makes a call of this build.
pub fn make<S: Bytes, B: Bytes>(
    shape: Shape,
    state: &mut State<S>,
    belts: &mut [u8],
    cycle: &mut Cycle,
    call: &mut Call<B>,
) -> Answer {
    let now = *cycle;
    let mut keep = |(next, answer): (Cycle, Result<(), Refusal>)| {
        *cycle = next;
        Answer::done(answer)
    };
    let (cells, lines) = (&mut state.cells, &mut state.lines);
    match call {
        Call::Sizes { skip } => Answer::of(sizes(shape, *skip), Answer::Sizes),
        Call::Clear => keep(array::clear(shape, state.lend(), now)),
        Call::Program { row, levels } => keep(array::program(shape, cells, *row, levels, now)),
        Call::Commit { row, finished } => keep(array::commit(shape, cells, *row, finished, now)),
        Call::Start { skip } => keep(cycle::start(shape, *skip, state.lend(), now)),
        Call::Step { matches } => keep(cycle::step(shape, state.lend(), matches, now)),
        Call::Steps { most, matches } => {
            keep(cycle::steps(shape, *most, state.lend(), matches, now))
        }
        Call::Run { skip, matches } => keep(cycle::run(shape, *skip, state.lend(), matches, now)),
        Call::Ask {
            row,
            levels,
            finished,
        } => {
            let changed = array::ask(shape, cells, *row, levels, finished);
            Answer::of(changed, Answer::Changed)
        }
        Call::Drift { row, column, level } => {
            Answer::done(array::drift(shape, cells, *row, *column, *level))
        }
        Call::Line { row, byte } => Answer::done(array::line(shape, lines, *row, *byte)),
        Call::Lookup { inputs, matches } => {
            let count = array::lookup(shape, cells, lines, inputs, matches);
            Answer::of(count, Answer::Count)
        }
        Call::Panel => Answer::of(panel(shape, &state.flags, &state.totals), Answer::Panel),
        Call::FirstMatch { inputs } => {
            Answer::of(array::first_match(shape, cells, lines, inputs), Answer::Row)
        }
        Call::Sound { row } => Answer::of(array::sound(shape, cells, *row), Answer::Sound),
        Call::Read { row, out } => Answer::done(array::read(shape, cells, *row, out)),
        Call::Rule { row, rule } => keep(router::rule(shape, cells, belts, *row, rule.lend(), now)),
        Call::Route { values } => {
            let found = router::route(shape, cells, lines, belts, values);
            Answer::of(found, Answer::Route)
        }
        Call::RuleAt { row, lows, highs } => {
            let belt = router::rule_at(shape, cells, belts, *row, lows, highs);
            Answer::of(belt, Answer::Belt)
        }
    }
}
