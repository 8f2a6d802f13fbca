//! Whether a set matters to the messages behind it: a second receiver is kept
//! to which the set did something else, and the replies are compared.

use crate::assembly::LONGEST;
use crate::mixed::{Call, Mixed};
use crate::set_situations::Case;
use crate::stream::Offer;
use decoder::end_to_end::end_to_end;
use decoder::receiver::{Receiver, Reply};
use decoder::set::SetReply;

/// How many messages behind a set are looked at.
const BEHIND: usize = 25;

/// A receiver with its assembly slice.
#[derive(Clone)]
struct Kept {
    receiver: Receiver,
    assembly: Vec<u8>,
}

impl Kept {
    fn offer(&mut self, offer: &Offer) -> Reply {
        let mut rows = vec![0; offer.lent.rows];
        let mut levels = vec![0; offer.lent.levels];
        let lent = &mut self.assembly[..offer.lent.assembly];
        self.receiver
            .message(&offer.octets, &mut rows, &mut levels, lent)
    }
}

/// What would have come of an accepted set that was left out, or of a refused
/// one whose messages before the wrong one had been offered one by one.
struct Otherwise {
    kept: Kept,
    accepted: bool,
    left: usize,
}

impl Otherwise {
    fn new(now: &Kept, octets: &[u8], reply: SetReply) -> Otherwise {
        let mut kept = now.clone();
        let accepted = reply.number == 0;
        if !accepted {
            for octets in end_to_end(octets).flatten().take(reply.place) {
                kept.receiver.message(octets, &mut [], &mut [], &mut []);
            }
        }
        Otherwise {
            kept,
            accepted,
            left: BEHIND,
        }
    }
}

/// Offers a list to the decoder's receiver and hands on its situations.
pub fn follow(list: &Mixed, mut note: impl FnMut(String)) {
    let [lit_time, points, lit_points] = list.start;
    let mut now = Kept {
        receiver: Receiver::start(lit_time, points, lit_points).0,
        assembly: vec![0; LONGEST],
    };
    let mut otherwise: Option<Otherwise> = None;
    for call in &list.calls {
        match call {
            Call::Set(octets) => {
                let before = now.clone();
                let reply = now.receiver.patch(octets);
                let case = Case {
                    before: &before.receiver,
                    octets,
                    reply,
                };
                case.situations().into_iter().for_each(&mut note);
                otherwise = Some(Otherwise::new(&before, octets, reply));
            }
            Call::Message(offer) => {
                let reply = now.offer(offer);
                if let Some(what) = behind(&mut otherwise, offer, reply) {
                    note(what.into());
                }
            }
        }
    }
}

/// The situation of the first message behind a set that gets another reply
/// because of it.
fn behind(otherwise: &mut Option<Otherwise>, offer: &Offer, reply: Reply) -> Option<&'static str> {
    let mut other = otherwise.take().filter(|other| other.left > 0)?;
    if other.kept.offer(offer) == reply {
        other.left -= 1;
        *otherwise = Some(other);
        return None;
    }
    Some(match (other.accepted, reply.number) {
        (true, 0) => "set accepted, lets a later message in",
        (true, _) => "set accepted, refuses a later message",
        (false, 0) => "set refused, would have mattered to an accepted message",
        (false, _) => "set refused, would have mattered to a refused message",
    })
}
