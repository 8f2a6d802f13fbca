//! Meter histories of messages and sets: request C-14, "An accepted set counts
//! in a meter history as its messages in order, a refused one as no message."

use crate::chunk::Lent;
use crate::lookback::{History, Offered};
use crate::set;

/// One call of a list that demand 3 speaks of.
#[derive(Clone, Copy, Debug)]
pub enum Call<'a> {
    Message(Offered<'a>),
    /// The octets of a set.
    Set(&'a [u8]),
}

/// What the look-back rule says of one call.
#[derive(Clone, Copy, Debug, PartialEq, Eq)]
pub struct Answer {
    /// The place in the reply to a set; none for a message.
    pub place: Option<usize>,
    pub number: u32,
    /// The running sums after the call.
    pub sums: [u64; 3],
}

/// No slices are lent with a set. The lengths 0 stand for this; no check that
/// a message of type 0x00 comes to reads them: 22 and 26 are of other types.
pub const NONE: Lent = Lent {
    rows: 0,
    levels: 0,
    assembly: 0,
};

/// The answers to all calls of a list that begins at starting readings up to
/// the limit.
pub fn answers(start: [u64; 3], list: &[Call]) -> Vec<Answer> {
    let mut history = History::new(start);
    let mut answers = Vec::new();
    for call in list {
        let (place, number) = match *call {
            Call::Message(offered) => (None, history.message(offered)),
            Call::Set(octets) => set(&mut history, octets),
        };
        answers.push(Answer {
            place,
            number,
            sums: history.sums(),
        });
    }
    answers
}

/// The messages of a set are worked out like any others, each behind the one
/// before; if one is refused, none of them counts.
fn set<'a>(history: &mut History<'a>, octets: &'a [u8]) -> (Option<usize>, u32) {
    let before = history.count();
    let reply = set::reply(octets, |octets| {
        history.message(Offered { octets, lent: NONE })
    });
    if reply.number != 0 {
        history.keep(before);
    }
    (Some(reply.place), reply.number)
}
