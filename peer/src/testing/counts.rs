//! How often each of some cases was seen.

use std::collections::BTreeMap;
use std::fmt::Debug;

/// How often each case was seen.
#[derive(Debug)]
pub struct Counts<C>(BTreeMap<C, usize>);

impl<C> Default for Counts<C> {
    fn default() -> Self {
        Counts(BTreeMap::new())
    }
}

impl<C: Ord + Debug> Counts<C> {
    /// Counts a case.
    pub fn add(&mut self, case: C) {
        *self.0.entry(case).or_default() += 1;
    }

    /// How often any case was seen.
    pub fn all(&self) -> usize {
        self.0.values().sum()
    }

    /// So many cases were seen, and each of them at least so often.
    ///
    /// # Panics
    ///
    /// If that is not so.
    pub fn assert_each(&self, cases: usize, least: usize) {
        assert_eq!(self.0.len(), cases, "{self:?}");
        assert!(self.0.values().all(|&times| times >= least), "{self:?}");
    }
}
