//! The split frames of a stream (request C-12): when one begins, on which
//! channel, and what comes between its fragments.

use crate::asking::asking_or_first;
use crate::assembly::Lengths;
use crate::between::Gathered;
use crate::data::data;
use crate::draft::{mode_and_service, routed, unrouted, Draft};
use crate::limits::room;
use crate::random::Random;
use crate::split::Split;
use crate::words::accepted_words;
use decoder::dictionary::Layout;
use decoder::message::{Channel, FIRST};
use decoder::receiver::Receiver;
use decoder::route::{Governing, Tags};

/// In so many of 100 streams frames are sent in fragments; in the others a
/// fragment comes by chance.
const SPLIT: usize = 60;

/// So many of 100 messages that come between fragments ask for mode 1 on their
/// channel where another one has it, or on another where none has it.
const ASKING: usize = 30;

/// What a stream has of split frames.
pub struct Sender {
    /// How many of 100 messages begin one, where none is on its way.
    begin: usize,
    /// How many of 100 come between its fragments.
    between: usize,
    /// Those on their way.
    splits: Vec<Split>,
}

impl Sender {
    pub fn new(random: &mut Random) -> Sender {
        let split = random.chance(SPLIT);
        Sender {
            begin: if split { random.pick(&[8, 15, 30]) } else { 0 },
            between: random.pick(&[0, 4, 12, 30]),
            splits: Vec::new(),
        }
    }

    /// Whether the stream has split frames.
    pub fn splits(&self) -> bool {
        self.begin > 0
    }

    /// The next fragment, or what comes between two on their channel. None if
    /// it is the turn of a message of any kind.
    pub fn next(
        &mut self,
        random: &mut Random,
        receiver: &Receiver,
        channels: &[u8],
        lengths: &mut Lengths,
    ) -> Option<Vec<u8>> {
        self.give_up(random, receiver);
        // A second one drops what is gathered of the first.
        let begin = if self.splits.is_empty() {
            self.begin
        } else {
            self.begin / 8
        };
        if random.chance(begin) {
            let whole = whole(random, receiver, channels);
            let split = Split::new(random, whole, lengths.now());
            lengths.begin(random, receiver.gathering(), &split.sums());
            self.splits.push(split);
        } else if random.chance(self.between) {
            return self.between(random, receiver, channels);
        }
        if self.splits.is_empty() {
            return None;
        }
        let place = random.below(self.splits.len());
        Some(self.splits[place].fragment(random, channels))
    }

    /// Leaves out what is sent, and often what is gathered no longer, so that
    /// the others come to their end. Fragments in mode 0 go on.
    fn give_up(&mut self, random: &mut Random, receiver: &Receiver) {
        self.splits.retain(|split| {
            let gathering = receiver.gathering();
            let open = receiver.governing(split.channel());
            let goes_on = !split.begun()
                || gathering.is_some_and(|held| held.is_on(split.channel()))
                || open.is_some_and(|governing| governing.mode == 0);
            !split.done() && (goes_on || random.chance(35))
        });
    }

    /// A message on the channel of a frame on its way, or none, for any other.
    fn between(
        &self,
        random: &mut Random,
        receiver: &Receiver,
        channels: &[u8],
    ) -> Option<Vec<u8>> {
        let split = self.splits.first()?;
        if random.chance(45) {
            return None;
        }
        let gathered = Gathered {
            channel: split.channel(),
            open: receiver.governing(split.channel()),
            room: room(receiver),
        };
        let asked = (random.chance(ASKING))
            .then(|| asking_or_first(random, receiver, split.channel(), channels));
        let draft = asked.flatten();
        Some(draft.unwrap_or_else(|| gathered.between(random)).octets())
    }
}

/// The message that is cut into fragments, with all of its frame: without
/// Routing or with it, on a channel of mode 2, most of them.
fn whole(random: &mut Random, receiver: &Receiver, channels: &[u8]) -> Draft {
    let channel = Channel(random.pick(channels));
    let open = receiver.governing(channel);
    let room = room(receiver);
    let frames = open.is_some_and(|governing| governing.mode == 2);
    if random.chance(if frames { 65 } else { 8 }) {
        let data = frame(random, open, room);
        let mut draft = Draft::plain(random, channel, FIRST, data);
        if random.chance(15) {
            unrouted(random, &mut draft);
        }
        return draft;
    }
    let to = if random.chance(85) {
        (2, random.pick(&[0, 1]))
    } else {
        mode_and_service(random)
    };
    // A frame that is refused at its first fragment has no others.
    let words = accepted_words(random, to.0);
    let close = random.chance(5);
    routed(random, channel, to, words, |random, governing| {
        (FIRST, close, frame(random, governing, room))
    })
}

/// The octets of a frame, now and then more than one message holds.
fn frame(random: &mut Random, governing: Option<&Governing>, room: [u64; 3]) -> Vec<u8> {
    if let Some(Governing {
        tags: Tags::Graphic(layout),
        sdm,
        ..
    }) = governing
    {
        if layout.width() >= 8 && random.chance(8) {
            return long(random, layout, *sdm);
        }
    }
    data(random, governing, FIRST, room)
}

/// A frame that no single message holds, with few octets that are not 0.
fn long(random: &mut Random, layout: &Layout, sdm: u8) -> Vec<u8> {
    let points = random.between(66_000, 140_000) / layout.width();
    let mut octets = vec![0; 4 + points * layout.width()];
    (octets[0], octets[3]) = (sdm << 4, 100);
    for _ in 0..random.between(0, 40) {
        let place = random.between(4, octets.len() - 1);
        octets[place] = random.octet();
    }
    octets
}
