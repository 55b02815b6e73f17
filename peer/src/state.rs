//! The lent state of an array.

use std::ops::DerefMut;

use crate::shape::{Layout, Refusal, Shape};

/// How many buffers a state has.
const BUFFERS: usize = 5;

/// A buffer of any kind whose bytes can be read and written.
pub trait Bytes: DerefMut<Target = [u8]> {}

impl<B: DerefMut<Target = [u8]>> Bytes for B {}

/// The buffers that a caller lends for as long as the array is in use. The
/// cycle record stands beside them. A `B` is there for each buffer: its bytes,
/// a lent slice, a length or a name.
#[derive(Clone, Copy, Debug, PartialEq, Eq)]
pub struct State<B> {
    /// The cells, row after row.
    pub cells: B,
    /// One line byte per row: 0 for a sound match line, 2 for a shorted one, any
    /// other for a dead one.
    pub lines: B,
    /// One counter per row.
    pub counters: B,
    /// One flag per row.
    pub flags: B,
    /// One total per block: the number of its flagged rows.
    pub totals: B,
}

impl State<&'static str> {
    /// What the buffers are called.
    pub const NAMES: Self = State {
        cells: "cells",
        lines: "lines",
        counters: "counters",
        flags: "flags",
        totals: "totals",
    };
}

impl State<usize> {
    /// The length that question 6 asks of each buffer.
    pub fn lengths(layout: &Layout) -> Self {
        State {
            cells: layout.cells(),
            lines: layout.rows(),
            counters: layout.rows(),
            flags: layout.rows(),
            totals: layout.blocks(),
        }
    }
}

impl State<Vec<u8>> {
    /// The fresh array: all bytes 0.
    pub fn fresh(layout: &Layout) -> Self {
        State::lengths(layout).map(|length| vec![0; length])
    }
}

impl<B> State<B> {
    /// How many buffers there are.
    pub const BUFFERS: usize = BUFFERS;

    /// The buffers in order.
    pub fn into_array(self) -> [B; BUFFERS] {
        [
            self.cells,
            self.lines,
            self.counters,
            self.flags,
            self.totals,
        ]
    }

    /// The buffers to be looked at.
    pub fn each(&self) -> State<&B> {
        State {
            cells: &self.cells,
            lines: &self.lines,
            counters: &self.counters,
            flags: &self.flags,
            totals: &self.totals,
        }
    }

    /// The buffers to be changed.
    pub fn each_mut(&mut self) -> State<&mut B> {
        State {
            cells: &mut self.cells,
            lines: &mut self.lines,
            counters: &mut self.counters,
            flags: &mut self.flags,
            totals: &mut self.totals,
        }
    }

    /// Something else for each buffer.
    pub fn map<C>(self, mut change: impl FnMut(B) -> C) -> State<C> {
        State {
            cells: change(self.cells),
            lines: change(self.lines),
            counters: change(self.counters),
            flags: change(self.flags),
            totals: change(self.totals),
        }
    }
}

impl<B: Bytes> State<B> {
    /// The bytes of all buffers, lent on.
    pub fn lend(&mut self) -> State<&mut [u8]> {
        self.each_mut().map(|buffer| &mut **buffer)
    }

    /// Questions 1 to 5, and question 6 for all buffers.
    pub(crate) fn ask(&self, shape: Shape) -> Result<Layout, Refusal> {
        let layout = shape.layout()?;
        if self.each().map(|buffer| buffer.len()) == State::lengths(&layout) {
            Ok(layout)
        } else {
            Err(Refusal::Length)
        }
    }
}
