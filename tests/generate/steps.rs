//! The messages of a stream with what is gathered before and after each
//! (request C-12) and which channel has mode 1 before it (request C-13).

use crate::asking::holder;
use crate::assembly::LONGEST;
use crate::stream::{Offer, Stream};
use decoder::message::{self, Channel, Message, SEQUEL};
use decoder::receiver::{Gathering, Receiver, Reply};
use decoder::route::{self, Governing};

/// One message of a stream.
pub struct Step<'a> {
    pub offer: &'a Offer,
    /// None if it cannot be read.
    pub message: Option<Message<'a>>,
    /// The mode of its channel before it; none if that was closed.
    pub open: Option<u8>,
    /// The channel that has mode 1 before it.
    pub holder: Option<Channel>,
    /// The readings before it.
    pub readings: [u64; 3],
    /// What governs it; none if its channel is closed or its words are
    /// refused.
    pub governing: Option<Governing>,
    pub reply: Reply,
    /// What was gathered before it, and what is after it.
    pub before: Option<Gathering>,
    pub after: Option<Gathering>,
    pub past: Past,
}

/// What came before a message, as far as a situation asks for it.
#[derive(Clone, Copy, Default)]
pub struct Past {
    /// The length of the assembly slice lent with the message before.
    pub length: usize,
    /// Messages other than its fragments since the first fragment of the
    /// frame that is gathered.
    pub between: usize,
    /// The channel of the message before and the timestamp behind its own, if
    /// it was an accepted last fragment.
    pub finished: Option<(Channel, u32)>,
}

impl Past {
    fn then(self, step: &Step) -> Past {
        let same = step.after.is_some() && step.after == step.before;
        let began = step.after.is_some_and(|held| held.sequel == 1) && !same;
        Past {
            length: step.offer.lent.assembly,
            between: if began {
                0
            } else {
                self.between + usize::from(same)
            },
            finished: (step.message)
                .filter(|message| step.reply.number == 0 && message.last)
                .filter(|_| step.mode() == Some(2))
                .map(|message| (message.channel, message.timestamp.wrapping_add(1))),
        }
    }
}

impl Step<'_> {
    pub fn mode(&self) -> Option<u8> {
        self.governing.as_ref().map(|governing| governing.mode)
    }

    /// What was gathered before it on its own channel.
    pub fn held(&self) -> Option<Gathering> {
        let message = self.message.as_ref()?;
        self.before.filter(|held| held.is_on(message.channel))
    }

    /// Where a frame was gathered before the message.
    pub fn place(&self) -> &'static str {
        match (self.before, self.held()) {
            (None, _) => "nothing gathered",
            (Some(_), Some(_)) => "gathered on its channel",
            (Some(_), None) => "gathered elsewhere",
        }
    }

    /// The octets so far of a fragment in mode 2, with its own.
    pub fn so_far(&self) -> usize {
        let held = self.held().map_or(0, |held| held.octets);
        self.message.map_or(0, |message| match message.kind {
            SEQUEL => held + message.data.len(),
            _ => message.data.len(),
        })
    }
}

/// Offers a stream to the decoder's receiver and hands on each message.
pub fn follow(stream: &Stream, mut note: impl FnMut(&Step)) {
    let [lit_time, points, lit_points] = stream.start;
    let (mut receiver, _) = Receiver::start(lit_time, points, lit_points);
    let mut assembly = vec![0; LONGEST];
    let mut past = Past::default();
    for offer in &stream.offers {
        let read = message::read(&offer.octets).ok();
        let open = read.and_then(|message| receiver.governing(message.channel).cloned());
        let routing = read.and_then(|message| message.routing);
        let (before, readings) = (receiver.gathering(), receiver.readings());
        let holder = holder(&receiver);
        let mut rows = vec![0; offer.lent.rows];
        let mut levels = vec![0; offer.lent.levels];
        let lent = &mut assembly[..offer.lent.assembly];
        let reply = receiver.message(&offer.octets, &mut rows, &mut levels, lent);
        let step = Step {
            offer,
            message: read,
            open: open.as_ref().map(|governing| governing.mode),
            holder,
            readings,
            governing: match routing {
                Some(routing) => route::check(&routing).ok(),
                None => open,
            },
            reply,
            before,
            after: receiver.gathering(),
            past,
        };
        note(&step);
        past = past.then(&step);
    }
}
