//! What the tests share: random shapes, records, calls, lists and jobs, the
//! definitions in the plainest form, and what prints and compares.
//!
//! A longer run, or another one, is asked for in the environment of `cargo
//! test`; without these variables the run is the usual one ([`settings`] reads
//! them all):
//! - `PEER_SEED`: the seed of every random test, in place of its own;
//! - `PEER_LISTS`: how many lists of calls on small arrays go through the proved
//!   library, 1,000 or more; all other numbers of lists grow in proportion;
//! - `PEER_JOBS`: how many good jobs on small arrays go through the proved
//!   program, 1,200 or more; all other numbers of jobs grow in proportion;
//! - `RUN_JOB`: the path of the proved program, where it is another one.
//!
//! `cargo test --release -- --nocapture` shows the seeds and numbers in force.
//!
//! - [`random`]: the generator of numbers;
//! - [`shapes`], [`records`], [`jobs`], [`damage`]: what is drawn from it;
//! - [`rows`], [`arrays`]: rows of cells, and arrays with any bytes in them;
//! - [`draw`], [`arguments`], [`lists`]: the generator of calls, the arguments of
//!   a call, and lists of calls;
//! - [`lent`], [`guard`]: what is lent to a call, and the bytes around it;
//! - [`panels`]: an example, flags and totals for the panel, and what it did;
//! - [`asks`]: an example of ask and commit, and what was seen of them;
//! - [`rules`]: an example of belt rules, rules and bottles of every kind, and what
//!   was seen of them;
//! - [`lines`]: examples of a dead line and of a shorted one, line bytes of every
//!   kind, records beside those of the openings, and what was seen of lines;
//! - [`inputs`]: inputs of a lookup up to q, such above it, and what was seen of
//!   them;
//! - [`skips`]: an example of coarse cycles, numbers of digits that no start
//!   takes, and what was seen of skipped digits;
//! - [`steps`]: an example of calls of several steps, numbers of steps, and what
//!   was seen of them;
//! - [`log`], [`verdict`]: what a list did, and what a flag says after a cycle;
//! - [`naive`]: the definitions to compare with;
//! - [`tally`], [`counts`], [`mod@print`], [`program`]: what was seen, how it is
//!   printed, and a program that is fed.

pub mod arguments;
pub mod arrays;
pub mod asks;
pub mod counts;
pub mod damage;
pub mod draw;
pub mod guard;
pub mod inputs;
pub mod jobs;
pub mod lent;
pub mod lines;
pub mod lists;
pub mod log;
pub mod naive;
pub mod panels;
pub mod print;
pub mod program;
pub mod random;
pub mod records;
pub mod rows;
pub mod rules;
pub mod settings;
pub mod shapes;
pub mod skips;
pub mod steps;
pub mod tally;
pub mod verdict;
