//! Where checks 15 and 17 to 19 meet: request C-13, "For messages with Routing,
//! 17, 18 and 19 are now tried before 15. Where one of them applies, such a 15
//! becomes 17, 18 or, closing the channel, 19". A meeting is a message with
//! Routing to mode 1 that passed 5 to 14 while another channel has mode 1.

use crate::kept::of;
use crate::steps::{self, Step};
use crate::stream::Stream;
use decoder::chunk;
use decoder::message::{Channel, Message, SEQUEL, WAVE};
use decoder::receiver::added;

/// The situations that must occur: in how many messages of the streams of
/// coverage.rs, and in how many histories of histories.rs. Each number is at
/// most half of the least that 24 seeds gave when the table was made; the
/// streams have changed since.
#[rustfmt::skip]
pub const SITUATIONS: [(&str, u64, usize); 77] = [
    // What the message's own channel was before.
    ("mode 1 held, 15, a channel of mode 0", 31, 11),
    ("mode 1 held, 15, a channel of mode 2", 72, 22),
    ("mode 1 held, 15, a channel of mode 4", 29, 10),
    ("mode 1 held, 15, a channel of mode 6", 24, 7),
    ("mode 1 held, 17, a channel of mode 0", 8, 2),
    ("mode 1 held, 17, a channel of mode 2", 27, 10),
    ("mode 1 held, 17, a channel of mode 4", 6, 1),
    ("mode 1 held, 17, a channel of mode 6", 7, 2),
    ("mode 1 held, 18, a channel of mode 0", 9, 3),
    ("mode 1 held, 18, a channel of mode 2", 25, 11),
    ("mode 1 held, 18, a channel of mode 4", 8, 2),
    ("mode 1 held, 18, a channel of mode 6", 7, 3),
    ("mode 1 held, 19, a channel of mode 0", 13, 3),
    ("mode 1 held, 19, a channel of mode 2", 38, 16),
    ("mode 1 held, 19, a channel of mode 4", 11, 4),
    ("mode 1 held, 19, a channel of mode 6", 11, 5),
    ("mode 1 held, 15, a closed channel", 477, 77),
    ("mode 1 held, 17, a closed channel", 81, 25),
    ("mode 1 held, 18, a closed channel", 95, 28),
    ("mode 1 held, 19, a closed channel", 105, 31),
    // The types, and Close in the same message.
    ("mode 1 held, 15, type 0", 161, 47),
    ("mode 1 held, 15, type 1", 480, 81),
    ("mode 1 held, 17, type 2", 41, 15),
    ("mode 1 held, 17, type 3", 56, 21),
    ("mode 1 held, 17, type 24", 44, 15),
    ("mode 1 held, 18, type 0", 80, 24),
    ("mode 1 held, 18, type 1", 86, 30),
    ("mode 1 held, 19, type 1", 198, 52),
    ("mode 1 held, 15, with Close", 92, 32),
    ("mode 1 held, 17, with Close", 25, 11),
    ("mode 1 held, 18, with Close", 29, 12),
    ("mode 1 held, 19, with Close", 33, 12),
    // What 20 to 23 would have refused.
    ("mode 1 held, 15, before 20", 201, 51),
    ("mode 1 held, 15, before 22", 57, 18),
    ("mode 1 held, 15, before 23", 53, 13),
    ("mode 1 held, 19, before 20", 81, 25),
    ("mode 1 held, 19, before 22", 19, 8),
    ("mode 1 held, 19, before 23", 23, 8),
    // Request C-12: "on that channel [...] a refusal 19, drops what was gathered".
    ("mode 1 held, 15, gathered elsewhere", 19, 6),
    ("mode 1 held, 15, gathered on its channel", 6, 2),
    ("mode 1 held, 17, gathered elsewhere", 5, 2),
    ("mode 1 held, 17, gathered on its channel", 5, 1),
    ("mode 1 held, 18, gathered elsewhere", 3, 1),
    ("mode 1 held, 18, gathered on its channel", 3, 2),
    ("mode 1 held, 19, gathered elsewhere", 3, 1),
    ("mode 1 held, 19, gathered on its channel", 5, 1),
    ("mode 1 held, 15, then the next fragment", 2, 0),
    ("mode 1 held, 17, then the next fragment", 2, 1),
    ("mode 1 held, 18, then the next fragment", 2, 1),
    // "closing the channel, 19": the next message on it, without Routing.
    ("mode 1 held, 19, then 16, Void chunk", 5, 2),
    ("mode 1 held, 19, then 16, whole frame", 9, 3),
    ("mode 1 held, 19, then 16, first fragment", 1, 0),
    ("mode 1 held, 19, then 16, sequel", 6, 1),
    ("mode 1 held, 19, then 16, other chunk", 12, 6),
    ("mode 1 held, 19, then 16, closed before", 55, 17),
    // The others leave the channel as it was.
    ("mode 1 held, 15, then accepted", 62, 25),
    ("mode 1 held, 15, then 16, closed before", 127, 37),
    ("mode 1 held, 17, then accepted", 23, 6),
    ("mode 1 held, 17, then 16, closed before", 41, 14),
    ("mode 1 held, 18, then accepted", 25, 11),
    ("mode 1 held, 18, then 16, closed before", 38, 16),
    // The next message on it, with Routing.
    ("mode 1 held, 15, then Routing accepted", 85, 31),
    ("mode 1 held, 17, then Routing accepted", 12, 5),
    ("mode 1 held, 18, then Routing accepted", 11, 5),
    ("mode 1 held, 19, then Routing accepted", 20, 8),
    ("mode 1 held, 15, then 15", 35, 15),
    ("mode 1 held, 17, then 15", 4, 1),
    ("mode 1 held, 18, then 15", 4, 1),
    ("mode 1 held, 19, then 15", 6, 2),
    ("mode 1 held, 15, then 17", 5, 0),
    ("mode 1 held, 15, then 18", 6, 1),
    ("mode 1 held, 15, then 19", 9, 3),
    ("mode 1 held, 19, then 19", 1, 0),
    // The channel that has mode 1 keeps it.
    ("mode 1 held, 15, then a wave of the holder", 27, 9),
    ("mode 1 held, 17, then a wave of the holder", 4, 1),
    ("mode 1 held, 18, then a wave of the holder", 6, 2),
    ("mode 1 held, 19, then a wave of the holder", 10, 2),
];

/// A meeting, as far as a message behind it asks for it.
#[derive(Clone, Copy)]
struct Meeting {
    number: u32,
    /// Whether the message's own channel was open before it.
    open: bool,
    /// Whether a frame was gathered on that channel.
    gathered: bool,
}

/// The meetings of a stream so far.
struct Meetings {
    /// The latest one of each channel, until a message on it can be read.
    own: [Option<Meeting>; 64],
    /// The channel that had mode 1 at the latest, and the number given.
    holder: Option<(Channel, u32)>,
}

/// Hands on the situations of each message of a stream.
pub fn follow(stream: &Stream, mut note: impl FnMut(String)) {
    let mut meetings = Meetings {
        own: [None; 64],
        holder: None,
    };
    steps::follow(stream, |step| {
        if let Some(message) = &step.message {
            let situations = meetings.next(step, message);
            situations.into_iter().for_each(&mut note);
        }
    });
}

impl Meetings {
    /// The situations of a message that can be read.
    fn next(&mut self, step: &Step, message: &Message) -> Vec<String> {
        let channel = usize::from(message.channel.0);
        let mut list = Vec::new();
        if let Some(earlier) = self.own[channel].take() {
            list.extend(behind(earlier, step, message));
        }
        let holder = (self.holder).take_if(|(holder, _)| *holder == message.channel);
        if let Some((_, number)) = holder {
            list.extend(of_the_holder(number, step, message));
        }
        if let Some(holder) = meets(step, message) {
            let number = step.reply.number;
            list.extend(met(step, message));
            self.holder = Some((holder, number));
            self.own[channel] = Some(Meeting {
                number,
                open: step.open.is_some(),
                gathered: step.held().is_some(),
            });
        }
        list
    }
}

/// The other channel that has mode 1, if the message is a meeting.
fn meets(step: &Step, message: &Message) -> Option<Channel> {
    let to_mode_1 = message.routing.is_some() && step.mode() == Some(1);
    (step.holder).filter(|holder| to_mode_1 && *holder != message.channel)
}

/// The situations of a meeting.
fn met(step: &Step, message: &Message) -> Vec<String> {
    let number = step.reply.number;
    assert!(matches!(number, 15 | 17..=19), "{number}");
    let was = match step.open {
        None => "a closed channel".into(),
        Some(mode) => format!("a channel of mode {mode}"),
    };
    let mut list = vec![
        format!("mode 1 held, {number}, {was}"),
        format!("mode 1 held, {number}, type {}", message.kind),
    ];
    if message.close {
        list.push(format!("mode 1 held, {number}, with Close"));
    }
    if step.before.is_some() {
        list.push(format!("mode 1 held, {number}, {}", step.place()));
    }
    if let Some(later) = later(step, message) {
        list.push(format!("mode 1 held, {number}, before {later}"));
    }
    list
}

/// The number from 20 to 23 that a message would have without 15 and 19.
fn later(step: &Step, message: &Message) -> Option<u32> {
    let governing = step.governing.as_ref()?;
    if !matches!(step.reply.number, 15 | 19) {
        return None;
    }
    match chunk::whole(governing, message.kind, message.data, step.offer.lent) {
        Err(number) => Some(number),
        Ok(content) if added(step.readings, content.adds()).is_none() => Some(23),
        Ok(_) => None,
    }
}

/// The next message on the channel of a meeting. A channel that was closed, by
/// 19 or before, refuses by 16 what has no Routing.
fn behind(earlier: Meeting, step: &Step, message: &Message) -> Option<String> {
    let Meeting { number, open, .. } = earlier;
    let given = step.reply.number;
    let was = if open { "open" } else { "closed" };
    if message.routing.is_some() {
        let again = meets(step, message).map(|_| format!("mode 1 held, {number}, then {given}"));
        let accepted =
            (given == 0).then(|| format!("mode 1 held, {number}, then Routing accepted"));
        return again.or(accepted);
    }
    let closed = number == 19 || !open;
    assert_eq!(given == 16, closed, "mode 1 held, {number}, then {given}");
    let kind = of(message);
    match given {
        16 if number == 19 && open => Some(format!("mode 1 held, 19, then 16, {kind}")),
        16 => Some(format!("mode 1 held, {number}, then 16, {was} before")),
        0 if message.kind == SEQUEL && earlier.gathered => {
            Some(format!("mode 1 held, {number}, then the next fragment"))
        }
        0 => Some(format!("mode 1 held, {number}, then accepted")),
        _ => None,
    }
}

/// The next message on the channel that has mode 1: a wave that is drawn.
fn of_the_holder(number: u32, step: &Step, message: &Message) -> Option<String> {
    assert_eq!(step.holder, Some(message.channel), "mode 1 held, {number}");
    let drawn = message.kind == WAVE && step.reply.points > 0 && message.routing.is_none();
    drawn.then(|| format!("mode 1 held, {number}, then a wave of the holder"))
}
