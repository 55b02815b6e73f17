//! A threshold array with check columns, its lookups and its detection cycle, and
//! above it a router of belt rules.
//!
//! The array keeps its state in memory lent by the caller: cells (row after
//! row), one line byte, one counter and one flag byte per row, and one byte per
//! block of 64 rows, the total of its flagged ones; a cycle record stands beside
//! it. A row whose line byte is 2 is shorted and matches everything, one with any
//! other but 0 is dead and matches nothing. The router has one belt byte per row of
//! its own. Every call asks its questions first; a refused call changes nothing.
//!
//! From the bottom up:
//! - [`shape`]: the shape of an array, questions 1 to 5, the refusals;
//! - [`matrix`]: the parity-check matrix;
//! - [`code`]: the encoder of the check cells and the codeword test;
//! - [`comparator`]: the rule of a match line;
//! - [`mod@sizes`]: the sizes of a shape's buffers, and the steps of its cycles;
//! - [`state`]: the lent state;
//! - [`mod@panel`]: the totals of flagged rows, and the panel call;
//! - [`cycle`]: the cycle record, start, step, several steps, and one whole cycle;
//! - [`mod@array`]: the other calls on an array;
//! - [`router`]: belt rules as ranges, and the route of a bottle;
//! - [`call`]: all calls as one enum, and the making of one;
//! - [`list`]: lists of calls on one array;
//! - [`mod@job`]: the job program as a function;
//! - [`testing`]: what the tests share.

#![forbid(unsafe_code)]
#![warn(missing_docs)]

pub mod array;
pub mod call;
pub mod code;
pub mod comparator;
pub mod cycle;
pub mod job;
pub mod list;
pub mod matrix;
pub mod panel;
pub mod router;
pub mod shape;
pub mod sizes;
pub mod state;
pub mod testing;

pub use array::{ask, clear, commit, drift, first_match, line, lookup, program, read, sound};
pub use call::{make, Answer, Call, Name};
pub use code::{encode, is_codeword};
pub use comparator::match_byte;
pub use cycle::{run, start, step, steps, Cycle, Phase};
pub use job::job;
pub use list::Array;
pub use panel::{panel, Panel};
pub use router::{route, rule, rule_at, Route, Rule};
pub use shape::{Layout, Refusal, Shape};
pub use sizes::{sizes, Sizes};
pub use state::State;
