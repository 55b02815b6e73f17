//! For match lines: examples, line bytes of every kind, records beside those of
//! the openings, and what was seen of lines.

use crate::call::{Answer, Call, Name};
use crate::cycle::{Cycle, Phase};
use crate::shape::Shape;
use crate::testing::counts::Counts;
use crate::testing::lent::Own;
use crate::testing::naive::spec::Spec;
use crate::testing::random::Random;
use crate::testing::skips::too_many;

/// An example on an array of two rows.
pub struct Example {
    /// The shape.
    pub shape: Shape,
    /// The calls from any state on, the first of them a clear.
    pub calls: Vec<Made>,
    /// The lines that they leave.
    pub lines: [u8; 2],
}

/// A call of an example, and what it leaves.
pub struct Made {
    /// The call.
    pub call: Call<Own>,
    /// Its answer.
    pub answer: Answer,
    /// The match bytes, where the call writes them.
    pub matches: Option<[u8; 2]>,
    /// The flags.
    pub flags: [u8; 2],
    /// The count of the record. The counters are 0 wherever an example looks.
    pub count: usize,
}

/// A call that writes no match bytes, in an array without flags and cycle.
fn plain(call: Call<Own>, answer: Answer) -> Made {
    Made {
        call,
        answer,
        matches: None,
        flags: [0; 2],
        count: 0,
    }
}

fn line(byte: u8, answer: Answer) -> Made {
    plain(Call::Line { row: 1, byte }, answer)
}

fn looked_up(inputs: [u16; 3], answer: Answer, matches: Option<[u8; 2]>) -> Made {
    let inputs = inputs.to_vec();
    let call = Call::Lookup {
        inputs,
        matches: Own::Matches,
    };
    Made {
        matches,
        ..plain(call, answer)
    }
}

fn first(inputs: [u16; 3], row: usize) -> Made {
    let inputs = inputs.to_vec();
    plain(Call::FirstMatch { inputs }, Answer::Row(Some(row)))
}

fn stepped(most: usize, matches: [u8; 2], flags: [u8; 2], count: usize) -> Made {
    let call = Call::Steps {
        most,
        matches: Own::Matches,
    };
    Made {
        matches: Some(matches),
        flags,
        count,
        ..plain(call, Answer::Done)
    }
}

/// The example of a dead line: the opening that finds it, and the cycle.
pub fn dead_line() -> Example {
    Example {
        shape: Shape::new(2, 3, 1, 3, 2),
        calls: vec![
            plain(Call::Clear, Answer::Done),
            line(3, Answer::Refused(16)),
            line(1, Answer::Done),
            looked_up([0, 0, 0], Answer::Count(1), Some([1, 0])),
            first([0, 0, 0], 0),
            plain(Call::Start { skip: 0 }, Answer::Done),
            stepped(1, [1, 0], [0, 1], 1),
            stepped(1, [0, 0], [0, 1], 2),
            stepped(usize::MAX, [0, 0], [0, 1], 30),
        ],
        lines: [0, 1],
    }
}

/// The example of a shorted line: lookups with inputs up to q and one above it, the
/// two openings, and the cycle.
pub fn shorted_line() -> Example {
    let levels = vec![5, 2, 1];
    Example {
        shape: Shape::new(2, 3, 1, 3, 2),
        calls: vec![
            plain(Call::Clear, Answer::Done),
            plain(Call::Program { row: 0, levels }, Answer::Done),
            line(2, Answer::Done),
            line(3, Answer::Refused(16)),
            looked_up([8, 0, 0], Answer::Count(1), Some([0, 1])),
            looked_up([9, 0, 0], Answer::Refused(8), None),
            first([6, 0, 0], 1),
            plain(Call::Start { skip: 0 }, Answer::Done),
            stepped(1, [1, 1], [0, 0], 1),
            stepped(1, [0, 1], [0, 1], 2),
            stepped(usize::MAX, [0, 1], [0, 1], 30),
        ],
        lines: [0, 2],
    }
}

/// The calls that are lent the lines.
pub const WITH_LINES: [Name; 8] = [
    Name::Clear,
    Name::Line,
    Name::Lookup,
    Name::Step,
    Name::Steps,
    Name::Run,
    Name::FirstMatch,
    Name::Route,
];

/// Bytes of dead lines that no call sets. Each of them shares bits with the byte of
/// a shorted line, or has the bits of a sound one where a part of it is looked at.
pub const FOREIGN: [u8; 8] = [3, 4, 6, 127, 128, 130, 254, 255];

/// The bytes that the line call takes, in order.
pub const SETTABLE: [u8; 3] = [0, 1, 2];

/// A byte that the line call takes; more often that of a sound line.
pub fn settable(random: &mut Random) -> u8 {
    match random.below(6) {
        0 => 1,
        1 => 2,
        _ => 0,
    }
}

/// The bytes of so many lines: all sound, or a few or most of them not. These are
/// all dead by 1, all dead by another byte, all shorted, or of every kind.
pub fn any_lines(random: &mut Random, rows: usize) -> Vec<u8> {
    let mut lines = match random.below(4) {
        0 => vec![0; rows],
        1 => random.sparse(rows, 2),
        _ => random.sparse(rows, 6),
    };
    let kinds = random.below(6);
    for line in lines.iter_mut().filter(|line| **line != 0) {
        *line = match kinds {
            0 => 1,
            1 => 2,
            2 => random.pick(&FOREIGN),
            3 => *line,
            _ => random.pick(&[1, 2, 2, *line]),
        };
    }
    lines
}

/// Records that have much of an opening's with so many low digits to skip, and
/// that no step takes: another phase, a place or a count that is none of an
/// opening's, and as many digits to skip as there are or more.
pub fn beside_openings(spec: &Spec, skip: usize) -> Vec<Cycle> {
    let schedule = spec.schedule(skip);
    let [first, second, vector] = [0, 1, 2].map(|count| schedule.record(count));
    let mut records: Vec<Cycle> = [2, 3, schedule.steps(), 257, 1 << 32, usize::MAX]
        .map(|count| Cycle { count, ..first })
        .to_vec();
    for opening in [first, second] {
        let place = |check, digit, column, factor| Cycle {
            check,
            digit,
            column,
            factor,
            ..opening
        };
        records.push(Cycle {
            count: opening.count,
            ..vector
        });
        records.extend([
            place(1, 0, 0, 0),
            place(0, 1, 0, 0),
            place(0, 0, 1, 0),
            place(0, 0, 0, 1),
        ]);
        records.extend([Phase::Idle, Phase::Complete].map(|phase| Cycle { phase, ..opening }));
        records.extend(too_many(spec.shape.digits).map(|skip| Cycle { skip, ..opening }));
    }
    records
}

/// What lines a call was lent.
#[derive(Clone, Copy, Debug, PartialEq, Eq, PartialOrd, Ord)]
enum Kind {
    /// All of them sound.
    Sound,
    /// Some dead by the byte 1.
    Dead,
    /// Some dead by another byte.
    Foreign,
    /// Some shorted.
    Shorted,
    /// Some dead and some shorted.
    Both,
}

impl Kind {
    /// How many there are.
    const KINDS: usize = Kind::Both as usize + 1;

    fn of(lines: &[u8]) -> Kind {
        let shorted = lines.contains(&2);
        let dead = lines.iter().filter(|&&line| line != 2).max();
        match dead {
            None | Some(0) if shorted => Kind::Shorted,
            None | Some(0) => Kind::Sound,
            _ if shorted => Kind::Both,
            Some(1) => Kind::Dead,
            _ => Kind::Foreign,
        }
    }
}

/// The call, which of a cycle's two openings it makes as a step or as one of
/// several, and its lines.
type Case = (Name, [bool; 2], Kind);

/// For each kind of lines: the calls that are lent them without an opening, a step
/// with either, and several with the first, the second and both.
const CASES: usize = Kind::KINDS * (WITH_LINES.len() + 2 + 3);

/// How often each case was seen.
#[derive(Debug, Default)]
pub struct Lines(Counts<Case>);

impl Lines {
    /// Counts a call that was taken, by the records before and after it and the
    /// lines before it.
    pub fn add(&mut self, name: Name, answer: Answer, before: Cycle, after: Cycle, lines: &[u8]) {
        if answer.number() == 0 && WITH_LINES.contains(&name) {
            let steps = matches!(name, Name::Step | Name::Steps);
            let made = before.count..after.count;
            let openings = [0, 1].map(|opening| steps && made.contains(&opening));
            self.0.add((name, openings, Kind::of(lines)));
        }
    }

    /// Each case was seen at least so often.
    ///
    /// # Panics
    ///
    /// If that is not so.
    pub fn assert_each(&self, least: usize) {
        self.0.assert_each(CASES, least);
    }
}
