//! Sets of messages: request C-14, "Patch a whole rig in one call". "A call
//! takes a list of configuring messages of type 0x00, end to end in one slice."

use crate::end_to_end::end_to_end;
use crate::message::{self, VOID};
use crate::receiver::Receiver;

/// "On refusal [...] the reply holds the place of the first refused message,
/// counted from 0, and its number; otherwise it holds how many there were and
/// 0."
#[derive(Clone, Copy, Debug, Default, PartialEq, Eq)]
pub struct SetReply {
    pub place: usize,
    pub number: u32,
}

/// The reply to a set. Each message that can be told and has type 0x00 is
/// handed to `judge`, in order, up to the first that is refused.
pub(crate) fn reply<'a>(octets: &'a [u8], mut judge: impl FnMut(&'a [u8]) -> u32) -> SetReply {
    let mut place = 0;
    for message in end_to_end(octets) {
        // "a size below 8 or past the slice, or a lone octet, by 2".
        let number = message.map_or(2, |octets| match first_checks(octets) {
            Ok(()) => judge(octets),
            Err(number) => number,
        });
        if number != 0 {
            return SetReply { place, number };
        }
        place += 1;
    }
    SetReply { place, number: 0 }
}

/// "A message of another type is refused by 4": check 4 with one type let in,
/// behind checks 2 and 3 and before 5 as document 01 has it.
fn first_checks(octets: &[u8]) -> Result<(), u32> {
    message::read_among(octets, &[VOID]).map(|_| ())
}

impl Receiver {
    /// "All are accepted or none is, with the channels that offering them one
    /// by one would leave." No slices are lent: a Void chunk has no use for
    /// them. "On refusal the record is as before".
    pub fn patch(&mut self, octets: &[u8]) -> SetReply {
        let mut next = self.clone();
        let reply = reply(octets, |message| {
            next.message(message, &mut [], &mut [], &mut []).number
        });
        if reply.number == 0 {
            *self = next;
        }
        reply
    }
}
