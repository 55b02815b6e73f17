//! How often each call was taken, and refused with each number.

use std::collections::BTreeMap;
use std::fmt::{self, Debug};

use crate::call::{Answer, Name};

/// The last question that every call asks: the rows of the shape.
const ROWS: u8 = 5;

/// The question that every call asks to which a buffer is lent.
const LENGTH: u8 = 6;

/// How often each call was answered with each number, 0 where it was taken.
#[derive(Default)]
pub struct Tally(BTreeMap<(Name, u8), usize>);

/// The questions that a call asks besides 1 to 6.
fn own_questions(name: Name) -> &'static [u8] {
    match name {
        Name::Clear | Name::Panel => &[],
        Name::Program | Name::Ask | Name::Drift => &[7, 8],
        Name::Commit => &[7, 8, 17],
        Name::Line => &[7, 16],
        Name::Lookup | Name::FirstMatch => &[8],
        Name::Sizes | Name::Start | Name::Run => &[15],
        Name::Step | Name::Steps => &[9],
        Name::Sound | Name::Read => &[7],
        Name::Rule => &[7, 8, 18, 19],
        Name::Route => &[8, 18],
        Name::RuleAt => &[7, 18],
    }
}

/// Whether a call may be answered with a number.
fn is_possible(name: Name, number: u8) -> bool {
    let lengths = number == LENGTH && name != Name::Sizes;
    number <= ROWS || lengths || own_questions(name).contains(&number)
}

impl Tally {
    /// Counts one call.
    pub fn add(&mut self, name: Name, answer: Answer) {
        *self.0.entry((name, answer.number())).or_default() += 1;
    }

    /// The number of all calls.
    pub fn calls(&self) -> usize {
        self.0.values().sum()
    }

    /// Each call was taken, and refused with each number it has the matter for
    /// and with no other.
    ///
    /// # Panics
    ///
    /// If that is not so.
    pub fn assert_complete(&self) {
        self.assert_complete_for(Name::ALL);
    }

    /// The same for some of the calls.
    ///
    /// # Panics
    ///
    /// If that is not so.
    pub fn assert_complete_for(&self, names: &[Name]) {
        for &name in names {
            for number in 0..=u8::MAX {
                let seen = self.0.contains_key(&(name, number));
                let possible = is_possible(name, number);
                assert_eq!(seen, possible, "{name:?} {number}: {self:?}");
            }
        }
    }
}

/// For each call its numbers, and how often each was seen.
impl Debug for Tally {
    fn fmt(&self, f: &mut fmt::Formatter) -> fmt::Result {
        for name in Name::ALL {
            write!(f, "{name:?}")?;
            for ((_, number), times) in self.0.iter().filter(|((of, _), _)| of == name) {
                write!(f, " {number}×{times}")?;
            }
            write!(f, "; ")?;
        }
        Ok(())
    }
}
