//! The record and the buffers that one of the builds works on.

use peer::testing::guard::Guarded;
use peer::testing::lent::Lent;
use peer::testing::records::{cycle_of, words_of, Words};
use peer::{Answer, Call, State};

use crate::drawn::Drawn;
use crate::proved_calls;

/// The record is kept in words, since a phase without a name is one to be
/// tried too.
#[derive(Clone, PartialEq, Eq)]
pub struct Side {
    pub words: Words,
    pub lent: Lent<Guarded>,
}

/// What is lent to one call.
type LentTo<'a> = (
    &'a mut Words,
    &'a mut State<Guarded>,
    &'a mut Guarded,
    Call<&'a mut [u8]>,
);

impl Side {
    /// The record, the state, the belts and the call, with the lengths that are
    /// drawn.
    fn lend(&mut self, drawn: &Drawn) -> LentTo<'_> {
        for (buffer, length) in self.lent.each_mut().into_iter().zip(drawn.lengths) {
            buffer.set_length(length);
        }
        let Lent { state, own, belts } = &mut self.lent;
        let mut own = own.each_mut().map(Some);
        let call = drawn.call.clone().map(|which| {
            let buffer = own[which as usize].take();
            &mut **buffer.expect("a buffer is lent to a call once")
        });
        (&mut self.words, state, belts, call)
    }

    /// A call that was made, with the bytes that it left in its own buffers.
    pub fn left(&self, drawn: &Drawn) -> Call<Vec<u8>> {
        let call = drawn.call.clone();
        call.map(|which| self.lent.own[which as usize].to_vec())
    }

    /// Makes a call of the proved library. Gives its arguments too, as it
    /// leaves them.
    pub fn proved(&mut self, drawn: &Drawn) -> (Option<Answer>, Call<()>) {
        let (words, state, belts, mut call) = self.lend(drawn);
        let answer = proved_calls::make(drawn.shape, state, belts, words, &mut call);
        (answer, call.map(|_| ()))
    }

    /// Makes a call of this build. A refusal hands the record back and leaves
    /// the words.
    pub fn ours(&mut self, drawn: &Drawn) -> Answer {
        let (words, state, belts, mut call) = self.lend(drawn);
        let before = cycle_of(words);
        let mut cycle = before;
        let answer = peer::make(drawn.shape, state, belts, &mut cycle, &mut call);
        if let Answer::Refused(_) = answer {
            assert_eq!(cycle, before);
        } else if call.name().has_record() {
            *words = words_of(cycle);
        }
        answer
    }
}
