//! What happened in a list, and how it is printed.

use std::fmt::{self, Display};

use peer::testing::lent::Lent;
use peer::testing::print::hexadecimal;
use peer::testing::records::Words;

use crate::drawn::Drawn;

/// A call, or bytes or a record that somebody else put there.
#[derive(Clone, PartialEq, Eq)]
pub enum Event {
    Call(Drawn),
    Bytes {
        buffer: usize,
        place: usize,
        bytes: Vec<u8>,
    },
    Record(Words),
}

impl Display for Event {
    fn fmt(&self, f: &mut fmt::Formatter) -> fmt::Result {
        match self {
            Event::Bytes {
                buffer,
                place,
                bytes,
            } => {
                let name = Lent::names().into_iter().nth(*buffer).unwrap_or_default();
                write!(f, "into {name} at {place}: {}", hexadecimal(bytes))
            }
            Event::Record(words) => write!(f, "record {words:?}"),
            Event::Call(drawn) => {
                write!(f, "{:?} on {}", drawn.call, drawn.shape)?;
                for (name, length) in Lent::names().into_iter().zip(drawn.lengths) {
                    write!(f, ", {length} {name}")?;
                }
                Ok(())
            }
        }
    }
}

/// The events of a list; the same one again is only counted.
#[derive(Default)]
pub struct Events(Vec<(Event, usize)>);

impl Events {
    pub fn note(&mut self, event: Event) {
        match self.0.last_mut() {
            Some((last, times)) if *last == event => *times += 1,
            _ => self.0.push((event, 1)),
        }
    }
}

impl Display for Events {
    fn fmt(&self, f: &mut fmt::Formatter) -> fmt::Result {
        for (event, times) in &self.0 {
            writeln!(f, "{times} × {event}")?;
        }
        Ok(())
    }
}
