//! What the other decoder says of a stream: its reply to each message, the
//! rows it drew and the readings after it.

use decoder::end_to_end::{end_to_end, Cut};
use decoder::message::{self, FRAME, SEQUEL, WAVE};
use decoder::receiver::{Receiver, Reply};
use decoder::rows::Row;

/// The points that rows are lent for where the arguments do not say.
pub const POINTS: usize = 65_536;

/// One message: the low 6 bits of its octet 2, and what came of it.
pub struct Message {
    pub channel: u8,
    pub reply: Reply,
    pub rows: Vec<Row>,
    pub readings: [u64; 3],
    /// Octets 1 to 3 of the data section, where it has them.
    duration: u32,
}

#[derive(Clone, Copy, Debug, PartialEq, Eq)]
pub enum Kind {
    Frame,
    Wave,
}

/// A frame or wave that has points.
pub struct Drawing<'a> {
    pub kind: Kind,
    /// The place of its message, from 1.
    pub message: usize,
    pub timestamp: u32,
    pub rows: &'a [Row],
    /// Whether the colours are visually linear: CLIN is 10 (003, 3.4.4).
    pub visual: bool,
    duration: u32,
}

impl Drawing<'_> {
    /// Whether this wave goes on where another ended (003, 5.1).
    pub fn follows(&self, before: &Drawing) -> bool {
        self.timestamp == before.timestamp.wrapping_add(before.duration)
    }
}

fn duration(octets: &[u8]) -> u32 {
    let data = message::read(octets).map_or(&[][..], |message| message.data);
    data.get(1..4).map_or(0, |duration| {
        u32::from_be_bytes([0, duration[0], duration[1], duration[2]])
    })
}

pub struct Told {
    pub messages: Vec<Message>,
    /// The octets at the end that are no whole message.
    pub cut: usize,
}

impl Told {
    /// `points` is the argument of --points.
    pub fn of(stream: &[u8], points: usize) -> Told {
        let (mut receiver, _) = Receiver::start(0, 0, 0);
        let mut rows = vec![0; points * 24];
        let mut levels = [0; 1_024];
        let mut assembly = vec![0; (4 + 32 * points).max(65_536)];
        let mut told = Told {
            messages: Vec::new(),
            cut: 0,
        };
        for message in end_to_end(stream) {
            match message {
                Ok(octets) => {
                    let reply = receiver.message(octets, &mut rows, &mut levels, &mut assembly);
                    let drawn = rows.chunks_exact(24).take(reply.points as usize);
                    told.messages.push(Message {
                        channel: octets[2] & 0x3F,
                        reply,
                        rows: drawn.map(|row| row.try_into().unwrap()).collect(),
                        readings: receiver.readings(),
                        duration: duration(octets),
                    });
                }
                Err(Cut(rest)) => told.cut = rest.len(),
            }
        }
        told
    }

    /// The drawings of a channel in order.
    pub fn drawings(&self, channel: u8) -> Vec<Drawing<'_>> {
        let accepted = self.messages.iter().enumerate().filter(|(_, message)| {
            message.reply.number == 0 && message.channel == channel && !message.rows.is_empty()
        });
        accepted
            .map(|(place, message)| Drawing::of(place + 1, message))
            .collect()
    }

    pub fn last_readings(&self) -> [u64; 3] {
        self.messages.last().map_or([0; 3], |last| last.readings)
    }
}

impl Drawing<'_> {
    fn of(place: usize, message: &Message) -> Drawing<'_> {
        let kind = match message.reply.kind {
            FRAME | SEQUEL => Kind::Frame,
            WAVE => Kind::Wave,
            other => panic!("points in a chunk of type {other}"),
        };
        Drawing {
            kind,
            message: place,
            timestamp: message.reply.timestamp,
            rows: &message.rows,
            visual: message.reply.space & 0x0030 == 0x0020,
            duration: message.duration,
        }
    }
}
