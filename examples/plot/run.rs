//! A stream offered to the receiver, message by message, and what is kept of
//! the replies. Which messages are accepted, their points and the meters are
//! the receiver's; nothing is decoded here.

use crate::colour::{self, Beam};
use crate::messages;
use crate::mewkoast::{begin_on, data_section, offer_on, readings_on, Receiver, Reply};

/// The numbers of a row, and the slots that a picture needs.
const ROW: usize = 24;
const X: usize = 0;
const Y: usize = 1;
const SHUTTER: usize = 5;
const COLOURS: usize = 8;
const WAVELENGTHS: usize = 16;

/// What the listing lends for frames in fragments; more where more points are
/// asked for.
const ASSEMBLY: usize = 65_536;
const LONGEST_SAMPLE: usize = 32;
const PLACES: usize = 1_024;

#[derive(Clone, Copy, PartialEq, Debug)]
pub enum Kind {
    Wave,
    Frame,
}

pub struct Point {
    pub x: i32,
    pub y: i32,
    pub beam: Beam,
}

/// An accepted wave or frame that has points.
pub struct Drawing {
    pub kind: Kind,
    /// The message that completed it, counted from 1: its line in the listing.
    pub message: usize,
    pub timestamp: u32,
    /// Of a wave, in microseconds; of a frame it is not asked for.
    duration: u32,
    pub lit_points: u32,
    pub points: Vec<Point>,
}

impl Drawing {
    /// Whether a wave goes on where another ends (003, 5.1: "the timestamp of
    /// the current message plus the duration must be equal to the timestamp of
    /// the next").
    pub fn follows(&self, before: &Drawing) -> bool {
        before.timestamp.wrapping_add(before.duration) == self.timestamp
    }
}

pub struct Refusal {
    pub message: usize,
    /// What octet 2 of the message says; the reply has 0 there.
    pub channel: u8,
    pub number: u8,
}

pub struct Run {
    pub channel: u8,
    /// Of this channel alone.
    pub drawings: Vec<Drawing>,
    /// Of every channel.
    pub refusals: Vec<Refusal>,
    /// Before the first message, and after each one.
    pub readings: Vec<[u64; 3]>,
    /// The octets at the end that are no whole message.
    pub cut: usize,
}

impl Run {
    pub fn messages(&self) -> usize {
        self.readings.len() - 1
    }

    pub fn of_kind(&self, kind: Kind) -> Vec<&Drawing> {
        self.drawings
            .iter()
            .filter(|drawing| drawing.kind == kind)
            .collect()
    }
}

/// Offers every message of a stream and keeps what the channel draws.
pub fn over(stream: &[u8], channel: u8, points: usize) -> Run {
    let (messages, cut) = messages::split(stream);
    let mut receiver = Receiver {
        meters: [0; 3],
        gathered: [0; 4],
        channels: [0; 6528],
    };
    let mut rows = vec![0; points * ROW];
    let mut levels = [0; PLACES];
    let mut assembly = vec![0; ASSEMBLY.max(4 + points * LONGEST_SAMPLE)];
    begin_on(receiver.arrays(), [0; 3]);
    let mut run = Run {
        channel,
        drawings: Vec::new(),
        refusals: Vec::new(),
        readings: vec![readings_on(&receiver.meters)],
        cut,
    };
    for (at, octets) in messages.iter().enumerate() {
        let reply = offer_on(
            receiver.arrays(),
            octets,
            &mut rows,
            &mut levels,
            &mut assembly,
        );
        run.keep(at + 1, octets, &reply, &rows);
        run.readings.push(readings_on(&receiver.meters));
    }
    run
}

impl Run {
    fn keep(&mut self, message: usize, octets: &[u8], reply: &Reply, rows: &[i32]) {
        if reply.number != 0 {
            self.refusals.push(Refusal {
                message,
                channel: octets[2] & 63,
                number: reply.number,
            });
        } else if reply.channel == self.channel && reply.points > 0 {
            // Only a wave or a frame, whole or by its last fragment, has points.
            let kind = if reply.chunk_type == 1 {
                Kind::Wave
            } else {
                Kind::Frame
            };
            let rows = rows.chunks_exact(ROW).take(reply.points as usize);
            let visual = colour::is_visual(reply.space);
            let mut points: Vec<Point> = rows.map(|row| point(row, visual)).collect();
            let mut duration = 0;
            match kind {
                // 003, 5.2: the first sample only moves there, whatever its colours.
                Kind::Frame => points[0].beam = Beam::Dark,
                Kind::Wave => duration = duration_of(octets),
            }
            self.drawings.push(Drawing {
                kind,
                message,
                timestamp: reply.timestamp,
                duration,
                lit_points: reply.lit_points,
                points,
            });
        }
    }
}

/// The Duration of an accepted wave: its data section is whole, and begins with
/// flags and 24 bits of it (003, 5.1).
fn duration_of(octets: &[u8]) -> u32 {
    let start = data_section(octets).start;
    let [_, high, middle, low] = octets[start..start + 4] else {
        return 0;
    };
    u32::from_be_bytes([0, high, middle, low])
}

fn point(row: &[i32], visual: bool) -> Point {
    let lines = row[COLOURS..WAVELENGTHS].iter().zip(&row[WAVELENGTHS..]);
    Point {
        x: row[X],
        y: row[Y],
        beam: colour::beam(lines, row[SHUTTER] != 0, visual),
    }
}
