//! Request C-12, a law: a frame cut anywhere gives the number, points, lit
//! points, rows and meters that it gives as one message of type 0x02, and its
//! octets stand at the start of the assembly slice.

use crate::fragment_edges::{OPEN, WHOLE};
use crate::receiver::{Receiver, Reply, LIMIT};
use crate::table::octets;

/// What comes of a frame: number, points and lit points, the rows and the
/// readings.
type Given = ([u32; 3], Vec<i32>, [u64; 3]);

/// The octets after which a frame is cut, in order.
type Cuts<'a> = &'a [usize];

/// Total Size, the octets behind it, and the data.
fn message(flags: u8, kind: u8, timestamp: u32, data: &[u8]) -> Vec<u8> {
    let size = 8 + data.len() as u16;
    let mut octets = size.to_be_bytes().to_vec();
    octets.extend([0x85 | flags, kind]);
    octets.extend(timestamp.to_be_bytes());
    octets.extend(data);
    octets
}

/// Offers messages after OPEN with room for `points` and gives what came of
/// the last one. The others must be accepted and write no row.
fn given(start: [u64; 3], points: usize, messages: &[Vec<u8>], assembly: &mut [u8]) -> Given {
    let (mut receiver, _) = Receiver::start(start[0], start[1], start[2]);
    let mut rows = vec![-7; 24 * points + 5];
    let mut offer = |octets: &[u8], rows: &mut [i32]| {
        let reply = receiver.message(octets, rows, &mut [], assembly);
        (reply, receiver.readings())
    };
    assert_eq!(offer(&octets(OPEN), &mut rows).0.number, 0);
    let (last, before) = messages.split_last().unwrap();
    for message in before {
        let (reply, readings) = offer(message, &mut rows);
        let counts = [reply.number, reply.points, reply.lit_points];
        assert_eq!((counts, readings), ([0; 3], start));
        assert!(rows.iter().all(|number| *number == -7));
    }
    let (reply, readings) = offer(last, &mut rows);
    let Reply { number, points, .. } = reply;
    ([number, points, reply.lit_points], rows, readings)
}

/// The fragments of a frame.
fn fragments(frame: &[u8], cuts: Cuts, timestamp: u32) -> Vec<Vec<u8>> {
    let mut list = vec![message(0, 0x03, timestamp, &frame[..cuts[0]])];
    for (place, from) in cuts.iter().enumerate() {
        let next = cuts.get(place + 1);
        let last = if next.is_none() { 0x40 } else { 0 };
        let to = next.copied().unwrap_or(frame.len());
        let timestamp = timestamp.wrapping_add(place as u32 + 1);
        list.push(message(last, 0xC0, timestamp, &frame[*from..to]));
    }
    list
}

/// Compares a frame that is cut with the same as one message.
fn same(start: [u64; 3], points: usize, frame: &[u8], cuts: Cuts) {
    let mut assembly = vec![0xEE; frame.len() + 3];
    let one = given(start, points, &[message(0, 0x02, 5, frame)], &mut assembly);
    assert!(assembly.iter().all(|octet| *octet == 0xEE));
    let timestamp = [5, u32::MAX - 1, u32::MAX][cuts.len() % 3];
    let cut = fragments(frame, cuts, timestamp);
    assert_eq!(given(start, points, &cut, &mut assembly), one, "{cuts:?}");
    assert_eq!(assembly[..frame.len()], *frame);
    assert_eq!(assembly[frame.len()..], [0xEE; 3]);
}

/// Frames of 0 to 5 points, whole samples or not, cut in two and in three at
/// every place behind the header.
#[test]
fn every_cut_in_two_and_three() {
    let long = [octets(WHOLE), octets("070809 0A0B00")].concat();
    for length in 4..=long.len() {
        for first in 4..=length {
            same([1, 2, 3], 5, &long[..length], &[first]);
            for second in first..=length {
                same([1, 2, 3], 5, &long[..length], &[first, second]);
            }
        }
    }
}

/// The same where 22 or 23 refuses it.
#[test]
fn every_cut_of_a_refused_frame() {
    let frame = octets(WHOLE);
    for first in 4..=frame.len() {
        same([0; 3], 2, &frame, &[first]);
        same([LIMIT - 99, 0, 0], 3, &frame, &[first]);
        same([0, LIMIT - 2, 0], 3, &frame, &[first]);
        same([0, 0, LIMIT], 3, &frame, &[first]);
        same([LIMIT - 100, LIMIT - 3, LIMIT - 1], 3, &frame, &[first]);
    }
}

/// A frame of 300 points cut in up to 40, at places a linear generator gives.
#[test]
fn many_cuts() {
    let mut state = 1u32;
    let mut next = move |bound: usize| {
        state = state.wrapping_mul(1_664_525).wrapping_add(1_013_904_223);
        (state >> 8) as usize % bound
    };
    let mut frame = octets("0000C350");
    frame.extend((0..900).map(|_| next(4) as u8));
    for count in 1..40 {
        let mut cuts: Vec<usize> = (0..count).map(|_| 4 + next(901)).collect();
        cuts.sort_unstable();
        same([0; 3], 300, &frame, &cuts);
    }
}
