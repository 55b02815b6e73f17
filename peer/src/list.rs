//! Lists of calls on one array.

use crate::call::{make, Answer, Call};
use crate::cycle::Cycle;
use crate::shape::{Refusal, Shape};
use crate::state::{Bytes, State};

/// One array: its shape, a state of its own, the belts of its router, and the
/// record. Each call of a list gets what the one before left.
#[derive(Clone, Debug, PartialEq, Eq)]
pub struct Array {
    /// The shape.
    pub shape: Shape,
    /// The state.
    pub state: State<Vec<u8>>,
    /// One belt per row.
    pub belts: Vec<u8>,
    /// The cycle record.
    pub cycle: Cycle,
}

impl Array {
    /// The fresh array, all belts 0.
    pub fn fresh(shape: Shape) -> Result<Array, Refusal> {
        Ok(Array {
            shape,
            state: State::fresh(&shape.layout()?),
            belts: vec![0; shape.rows],
            cycle: Cycle::IDLE,
        })
    }

    /// Makes one call.
    pub fn make<B: Bytes>(&mut self, call: &mut Call<B>) -> Answer {
        let Array {
            shape,
            state,
            belts,
            cycle,
        } = self;
        make(*shape, state, belts, cycle, call)
    }

    /// Starts a cycle that skips so many low digits.
    pub fn start(&mut self, skip: usize) -> Answer {
        self.make(&mut Call::<Vec<u8>>::Start { skip })
    }

    /// Makes the next step of the cycle.
    pub fn step(&mut self, matches: &mut [u8]) -> Answer {
        self.make(&mut Call::Step { matches })
    }

    /// Makes at most so many steps of the cycle.
    pub fn steps(&mut self, most: usize, matches: &mut [u8]) -> Answer {
        self.make(&mut Call::Steps { most, matches })
    }
}
