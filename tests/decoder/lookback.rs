//! The look-back rule: document 01, "Meters and the look-back rule", request
//! C-12: "Where the host lends the assembly slice unaltered and at one length
//! for as long as a frame is gathered, demand 3 holds with split frames too",
//! and request C-13: "histories are metered under the new order". Nothing is
//! kept from message to message but the list itself and the numbers and
//! additions already worked out for its earlier messages. Lists in which sets
//! stand among the messages are in calls.rs.

use crate::chunk::{self, Content, Lent};
use crate::message::{self, Channel, Message, FIRST, SEQUEL};
use crate::receiver::LIMIT;
use crate::route::{self, Governing};

/// "for each message in order, its octets and the lengths of the slices lent
/// with it".
#[derive(Clone, Copy, Debug)]
pub struct Offered<'a> {
    pub octets: &'a [u8],
    pub lent: Lent,
}

/// What the rule says of one message.
#[derive(Clone, Copy, Debug, PartialEq, Eq)]
pub struct Verdict {
    pub number: u32,
    /// What the message adds to the three meters; 0 if it is refused.
    pub adds: [u64; 3],
}

/// The verdicts of all messages of a list that begins at starting readings
/// up to the limit.
pub fn verdicts(start: [u64; 3], list: &[Offered]) -> Vec<Verdict> {
    let mut history = History::new(start);
    for offered in list {
        history.message(*offered);
    }
    history.verdicts
}

/// The messages that count so far, with their verdicts.
pub(crate) struct History<'a> {
    start: [u64; 3],
    list: Vec<Offered<'a>>,
    verdicts: Vec<Verdict>,
}

impl<'a> History<'a> {
    pub fn new(start: [u64; 3]) -> History<'a> {
        History {
            start,
            list: Vec::new(),
            verdicts: Vec::new(),
        }
    }

    /// Works out the number of one more message, which counts from here on.
    pub fn message(&mut self, offered: Offered<'a>) -> u32 {
        let past = Past {
            start: self.start,
            list: &self.list,
            verdicts: &self.verdicts,
        };
        let verdict = match past.adds(&offered) {
            Ok(adds) => Verdict { number: 0, adds },
            Err(number) => Verdict {
                number,
                adds: [0; 3],
            },
        };
        self.list.push(offered);
        self.verdicts.push(verdict);
        verdict.number
    }

    /// How many messages count.
    pub fn count(&self) -> usize {
        self.list.len()
    }

    /// Takes back all messages but the first so many.
    pub fn keep(&mut self, count: usize) {
        self.list.truncate(count);
        self.verdicts.truncate(count);
    }

    pub fn sums(&self) -> [u64; 3] {
        sums(self.start, &self.verdicts)
    }
}

/// "the running sums of the list, which are the starting readings plus what
/// its accepted messages so far add".
pub fn sums(start: [u64; 3], verdicts: &[Verdict]) -> [u64; 3] {
    let sum = |meter: usize| {
        verdicts
            .iter()
            .filter(|verdict| verdict.number == 0)
            .fold(start[meter], |sum, verdict| sum + verdict.adds[meter])
    };
    [sum(0), sum(1), sum(2)]
}

/// The messages before the one in question.
#[derive(Clone, Copy)]
pub(crate) struct Past<'a> {
    start: [u64; 3],
    pub list: &'a [Offered<'a>],
    pub verdicts: &'a [Verdict],
}

impl<'a> Past<'a> {
    /// "Acceptance follows the checks below with the running sums of the
    /// list": what the message adds, or the number that refuses it.
    fn adds(&self, offered: &Offered) -> Result<[u64; 3], u32> {
        let message = message::read(offered.octets)?;
        let governing = self.governing(&message)?;
        let adds = self.content(&message, &governing, offered.lent)?.adds();
        let before = sums(self.start, self.verdicts);
        if (0..3).any(|meter| before[meter] + adds[meter] > LIMIT) {
            return Err(23);
        }
        Ok(adds)
    }

    /// Checks 15, 17 to 22 and 24 to 26.
    fn content(
        &self,
        message: &Message,
        governing: &Governing,
        lent: Lent,
    ) -> Result<Content, u32> {
        match message.kind {
            // "in mode 0 they are accepted, past 24 to 26, and ignored".
            FIRST | SEQUEL if governing.mode == 0 => Ok(Content::Nothing),
            FIRST => self.first(message, governing, lent),
            SEQUEL => self.sequel(message, governing, lent),
            kind => {
                self.begin(message, governing)?;
                chunk::whole(governing, kind, message.data, lent)
            }
        }
    }

    /// Request C-13: "For messages with Routing, 17, 18 and 19 are now tried
    /// before 15."
    pub fn begin(&self, message: &Message, governing: &Governing) -> Result<(), u32> {
        chunk::begin(governing, message.kind, message.data)?;
        match message.routing {
            Some(own) if own.mode == 1 && self.mode_1_elsewhere(message.channel) => Err(15),
            _ => Ok(()),
        }
    }

    /// "a message with Routing is governed by itself", with checks 6 to 14;
    /// another by what is in force, with check 16.
    fn governing(&self, message: &Message) -> Result<Governing, u32> {
        match &message.routing {
            None => self.in_force(message.channel).ok_or(16),
            Some(routing) => route::check(routing),
        }
    }

    /// "A channel's mode for check 15 is found likewise."
    fn mode_1_elsewhere(&self, own: Channel) -> bool {
        (0..64)
            .map(Channel)
            .filter(|channel| *channel != own)
            .filter_map(|channel| self.in_force(channel))
            .any(|governing| governing.mode == 1)
    }

    /// "If that one was accepted with Routing and without Close, its mode,
    /// service, SDM and tags govern; in all other cases the channel is
    /// closed."
    pub fn in_force(&self, channel: Channel) -> Option<Governing> {
        let (message, number) = self.latest(channel)?;
        match message.routing {
            Some(routing) if number == 0 && !message.close => route::check(&routing).ok(),
            _ => None,
        }
    }

    /// "the latest earlier message on its channel that was accepted with
    /// Routing, accepted with Close, or refused by 19", with its number.
    fn latest(&self, channel: Channel) -> Option<(Message<'a>, u32)> {
        let decides = |message: &Message, number: u32| match number {
            0 => message.routing.is_some() || message.close,
            _ => number == 19,
        };
        self.list
            .iter()
            .zip(self.verdicts)
            .rev()
            .filter_map(|(offered, verdict)| {
                Some((message::read(offered.octets).ok()?, verdict.number))
            })
            .find(|(message, number)| message.channel == channel && decides(message, *number))
    }

    /// The messages before a place of the list.
    pub fn before(&self, place: usize) -> Past<'a> {
        Past {
            list: &self.list[..place],
            verdicts: &self.verdicts[..place],
            ..*self
        }
    }
}
