//! All that may be lent to a call: the state, the buffers of which a call may have
//! some as its own, and the belts.

use std::array;
use std::iter::{once, Chain, Once};

use crate::shape::Layout;
use crate::state::State;

/// The buffers of its own that a call may write into.
#[derive(Clone, Copy, Debug, PartialEq, Eq)]
pub enum Own {
    /// One match byte per row.
    Matches,
    /// The rule cells of a row.
    Out,
    /// The finished row of an ask.
    Finished,
    /// The lows of a rule that is read.
    Lows,
    /// The highs of a rule that is read.
    Highs,
}

const OWN: [Own; 5] = [Own::Matches, Own::Out, Own::Finished, Own::Lows, Own::Highs];

impl Own {
    /// What it is called.
    fn name(self) -> &'static str {
        match self {
            Own::Matches => "matches",
            Own::Out => "out",
            Own::Finished => "finished",
            Own::Lows => "lows",
            Own::Highs => "highs",
        }
    }

    /// The length that question 6 asks of it.
    pub fn length(self, layout: &Layout) -> usize {
        match self {
            Own::Matches => layout.rows(),
            Own::Out => layout.width(),
            Own::Finished => layout.columns(),
            Own::Lows | Own::Highs => layout.features(),
        }
    }
}

/// Lengths that a buffer must not have of which question 6 asks the given one.
pub fn wrong_lengths(right: usize) -> [usize; 3] {
    [0, right - 1, right + 1]
}

/// A `B` for each buffer of the state, for each one of a call's own in the order of
/// [`Own`], and for the belts.
#[derive(Clone, Copy, Debug, PartialEq, Eq)]
pub struct Lent<B> {
    /// The state.
    pub state: State<B>,
    /// The buffers of a call's own.
    pub own: [B; OWN.len()],
    /// The belts.
    pub belts: B,
}

impl Lent<&'static str> {
    /// What the buffers are called.
    pub fn names() -> Self {
        Lent {
            state: State::NAMES,
            own: OWN.map(Own::name),
            belts: "belts",
        }
    }
}

impl Lent<usize> {
    /// The length that question 6 asks of each buffer.
    pub fn lengths(layout: &Layout) -> Self {
        Lent {
            state: State::lengths(layout),
            own: OWN.map(|own| own.length(layout)),
            belts: layout.rows(),
        }
    }
}

impl Lent<()> {
    /// How many buffers there are.
    pub const BUFFERS: usize = State::<()>::BUFFERS + OWN.len() + 1;

    /// The place of the match bytes among all buffers.
    pub const MATCHES: usize = State::<()>::BUFFERS + Own::Matches as usize;

    /// The place of the belts among all buffers.
    pub const BELTS: usize = Lent::BUFFERS - 1;
}

impl<B> Lent<B> {
    /// Something else for each buffer.
    pub fn map<C>(self, mut change: impl FnMut(B) -> C) -> Lent<C> {
        Lent {
            state: self.state.map(&mut change),
            own: self.own.map(&mut change),
            belts: change(self.belts),
        }
    }

    /// The buffers to be looked at.
    pub fn each(&self) -> Lent<&B> {
        Lent {
            state: self.state.each(),
            own: self.own.each_ref(),
            belts: &self.belts,
        }
    }

    /// The buffers to be changed.
    pub fn each_mut(&mut self) -> Lent<&mut B> {
        Lent {
            state: self.state.each_mut(),
            own: self.own.each_mut(),
            belts: &mut self.belts,
        }
    }

    /// The buffer at a place, to be changed.
    ///
    /// # Panics
    ///
    /// If there is no such place.
    pub fn at(&mut self, place: usize) -> &mut B {
        self.each_mut()
            .into_iter()
            .nth(place)
            .expect("a place of a buffer")
    }
}

/// The buffers of the state, and then those of a call's own.
type StateAndOwn<B> =
    Chain<array::IntoIter<B, { State::<()>::BUFFERS }>, array::IntoIter<B, { OWN.len() }>>;

/// The buffers in order, those of the state first and the belts last.
impl<B> IntoIterator for Lent<B> {
    type Item = B;
    type IntoIter = Chain<StateAndOwn<B>, Once<B>>;

    fn into_iter(self) -> Self::IntoIter {
        let state_and_own = self.state.into_array().into_iter().chain(self.own);
        state_and_own.chain(once(self.belts))
    }
}
