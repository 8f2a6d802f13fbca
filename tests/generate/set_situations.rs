//! The situations of a set in a list of calls: request C-14. What is asked of
//! the messages behind it is in set_later.rs.

use crate::walked::Dictionary;
use decoder::end_to_end::{end_to_end, Cut};
use decoder::message::{self, Message};
use decoder::receiver::Receiver;
use decoder::set::SetReply;

/// How long a set is, and where and by what it was refused.
pub fn of_reply(octets: &[u8], reply: SetReply) -> Vec<String> {
    let count = end_to_end(octets).count();
    let SetReply { place, number } = reply;
    let mut list = Vec::new();
    if matches!(count, 0 | 1 | 2 | 64 | 200) {
        let outcome = if number == 0 { "accepted" } else { "refused" };
        list.push(format!("set of {count}, {outcome}"));
    }
    if number == 0 {
        assert_eq!(place, count);
        return list;
    }
    let position = match place {
        0 if count == 1 => "only",
        0 => "first",
        _ if place + 1 == count => "last",
        _ => "middle",
    };
    list.push(format!("set, {number}, {position} place"));
    if number == 2 {
        list.push(format!("set, 2, {}", ending(octets, place)));
    }
    list
}

/// What check 2 found at a place.
fn ending(octets: &[u8], place: usize) -> &'static str {
    match end_to_end(octets).nth(place) {
        Some(Err(Cut([_]))) => "a lone octet",
        Some(Err(Cut([0, 0..=7, ..]))) => "a size below 8",
        Some(Err(_)) => "a size past the slice",
        _ => "a size above 65,280",
    }
}

/// A set and the receiver before it.
pub struct Case<'a> {
    pub before: &'a Receiver,
    pub octets: &'a [u8],
    pub reply: SetReply,
}

impl Case<'_> {
    pub fn situations(&self) -> Vec<String> {
        let mut list = of_reply(self.octets, self.reply);
        let messages: Vec<&[u8]> = end_to_end(self.octets).filter_map(Result::ok).collect();
        let (earlier, own) = messages.split_at(self.reply.place.min(messages.len()));
        if self.reply.number == 0 {
            list.extend(self.accepted(earlier));
        } else if let Some(own) = own.first() {
            list.extend(self.refused(own));
        }
        list.extend(self.gathered(earlier));
        list
    }

    /// The number that a message gets by itself, without those before it in
    /// the set. The slices are long enough.
    fn alone(&self, octets: &[u8]) -> u32 {
        let mut receiver = self.before.clone();
        let mut rows = vec![0; 24 * octets.len()];
        let reply = receiver.message(octets, &mut rows, &mut [0; 1_024], &mut [0; 65_536]);
        reply.number
    }

    /// What messages of an accepted set are, and which of them would have been
    /// refused but for those before.
    fn accepted(&self, messages: &[&[u8]]) -> Vec<String> {
        let read: Vec<Message> = messages
            .iter()
            .map(|octets| message::read(octets).unwrap())
            .collect();
        let twice = |(place, message): (usize, &Message)| {
            let same =
                |other: &Message| other.routing.is_some() && other.channel == message.channel;
            message.routing.is_some() && read[..place].iter().any(same)
        };
        let mut list = Vec::new();
        let mut note = |holds: bool, what: &str| {
            if holds {
                list.push(format!("set accepted, {what}"));
            }
        };
        note(read.iter().enumerate().any(twice), "a channel routed twice");
        let close = |message: &Message| message.close;
        note(read.iter().any(close), "with Close");
        let data = |message: &Message| !message.data.is_empty();
        note(read.iter().any(data), "data in mode 0");
        let ignoring = |message: &Message| {
            let own = message.routing.as_ref().and_then(Dictionary::of);
            own.is_some_and(|own| !own.ignored().is_empty())
        };
        note(
            read.iter().any(ignoring),
            "a dictionary with ignored octets",
        );
        let alive = |octets: &&[u8]| octets[2] & 0x40 == 0;
        note(messages.iter().any(alive), "without configuration");
        for number in [15, 16] {
            let alone = |octets: &&[u8]| self.alone(octets) == number;
            let what = format!("a message that is refused by {number} alone");
            note(messages.iter().any(alone), &what);
        }
        list
    }

    /// What the refused message would have got by itself.
    fn refused(&self, octets: &[u8]) -> Option<String> {
        let (number, alone) = (self.reply.number, self.alone(octets));
        let other = match (number, alone) {
            (15 | 16, 0) => "accepted alone",
            (4, 0) => "of another type, accepted alone",
            (4, 4) => "of an unknown type",
            (4, _) => "of another type, refused alone",
            _ => return None,
        };
        Some(format!("set, {number}, {other}"))
    }

    /// What comes of a frame that is gathered, and what would have come of it.
    fn gathered(&self, earlier: &[&[u8]]) -> Option<String> {
        let held = self.before.gathering()?;
        let mut offered = self.before.clone();
        for octets in earlier {
            offered.message(octets, &mut [], &mut [], &mut []);
        }
        let dropped = offered.gathering().is_none();
        let routed = earlier
            .iter()
            .filter_map(|octets| message::read(octets).ok())
            .any(|message| held.is_on(message.channel) && message.routing.is_some());
        let by = if routed { "Routing" } else { "Close alone" };
        Some(match (self.reply.number, dropped) {
            (0, true) => format!("set accepted, drops what is gathered by {by}"),
            (0, false) => "set accepted, leaves what is gathered".into(),
            (_, true) => format!("set refused, would have dropped what is gathered by {by}"),
            (_, false) => "set refused, leaves what is gathered".into(),
        })
    }
}
