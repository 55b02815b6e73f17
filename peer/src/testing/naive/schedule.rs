//! The lookups of a cycle, and the records at their places.

use super::spec::Spec;
use crate::cycle::{Cycle, Phase};

/// One test vector.
#[derive(Clone, Copy, Debug, PartialEq, Eq)]
pub struct Vector {
    /// ℓ.
    pub check: usize,
    /// s.
    pub digit: usize,
    /// j.
    pub column: usize,
    /// a.
    pub factor: usize,
}

/// One lookup of a cycle.
#[derive(Clone, Copy, Debug, PartialEq, Eq)]
pub enum Lookup {
    /// The all-zero vector, which looks for dead lines.
    Zeros,
    /// q in column 0 and 0 elsewhere, which looks for shorted lines.
    Beyond,
    /// A test vector, which counts.
    Vector(Vector),
}

/// The lookups of a cycle, in order.
#[derive(Clone, Debug, PartialEq, Eq)]
pub struct Schedule {
    /// z.
    pub skip: usize,
    /// The lookups.
    pub lookups: Vec<Lookup>,
}

/// The place in a record where no vector is next.
const NOWHERE: Vector = Vector {
    check: 0,
    digit: 0,
    column: 0,
    factor: 0,
};

impl Spec {
    /// The openings, and then the schedule as nested loops. Each ℓ ends at s = z.
    pub fn schedule(&self, skip: usize) -> Schedule {
        let radix = self.shape.radix;
        let mut lookups = vec![Lookup::Zeros, Lookup::Beyond];
        for check in 0..self.checks {
            for digit in (skip..self.shape.digits).rev() {
                for column in self.support(check) {
                    for factor in 1..self.levels / radix.pow(digit as u32) {
                        if factor % radix != 0 {
                            lookups.push(Lookup::Vector(Vector {
                                check,
                                digit,
                                column,
                                factor,
                            }));
                        }
                    }
                }
            }
        }
        Schedule { skip, lookups }
    }

    /// The schedules of every z that a start takes.
    pub fn schedules(&self) -> impl Iterator<Item = Schedule> + '_ {
        (0..self.shape.digits).map(|skip| self.schedule(skip))
    }
}

impl Schedule {
    /// The number of steps, one for each lookup.
    pub fn steps(&self) -> usize {
        self.lookups.len()
    }

    /// The record that a start and so many accepted steps leave: its place is
    /// that of the next vector, 0 where an opening or nothing is to come.
    pub fn record(&self, count: usize) -> Cycle {
        let (phase, place) = match self.lookups.get(count) {
            Some(Lookup::Zeros | Lookup::Beyond) => (Phase::Open, NOWHERE),
            Some(Lookup::Vector(vector)) => (Phase::Open, *vector),
            None => (Phase::Complete, NOWHERE),
        };
        Cycle {
            phase,
            check: place.check,
            digit: place.digit,
            column: place.column,
            factor: place.factor,
            count,
            skip: self.skip,
        }
    }

    /// Whether the record is one that a start and accepted steps leave, with a
    /// lookup still to come.
    pub fn awaits(&self, cycle: &Cycle) -> bool {
        cycle.count < self.steps() && *cycle == self.record(cycle.count)
    }

    /// Whether the step of the lookup with the given number looks for rows to
    /// flag: it is an opening, or the last one of its check and digit.
    pub fn looks_for_flags(&self, count: usize) -> bool {
        match self.lookups[count] {
            Lookup::Zeros | Lookup::Beyond => true,
            Lookup::Vector(_) => self.ends_digit(count),
        }
    }

    /// Whether the lookup with the given number is the last one of its check and
    /// digit.
    pub(super) fn ends_digit(&self, count: usize) -> bool {
        self.next_differs(count, |vector| (vector.check, vector.digit))
    }

    /// Whether the lookup with the given number is the last one of its check, so
    /// that its step returns the counters to 0.
    pub(super) fn ends_check(&self, count: usize) -> bool {
        self.next_differs(count, |vector| vector.check)
    }

    /// Whether the lookup is a vector, and none follows or one that differs in
    /// what is asked for.
    fn next_differs<T: PartialEq>(&self, count: usize, of: impl Fn(&Vector) -> T) -> bool {
        match (self.lookups[count], self.lookups.get(count + 1)) {
            (Lookup::Vector(now), Some(Lookup::Vector(next))) => of(&now) != of(next),
            (Lookup::Vector(_), _) => true,
            (Lookup::Zeros | Lookup::Beyond, _) => false,
        }
    }
}
