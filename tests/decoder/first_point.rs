//! Request C-11, "The frame's first point", and source document 003, 5.2:
//! cases worked out by hand.

use crate::history::offered;
use crate::listing::listing;
use crate::lookback::{sums, verdicts};
use crate::message::{FRAME, WAVE};
use crate::receiver::{Receiver, LIMIT};
use crate::receiver_table::{routed, Host, PLAIN};
use crate::table::octets;

/// Number, points and lit points of a reply.
type Given = (u32, u32, u32);

/// Samples of the dictionary PLAIN with X and Y 0.
fn samples(colours: &[u8]) -> Vec<u8> {
    colours.iter().flat_map(|colour| [0, 0, *colour]).collect()
}

/// A frame on channel 5 with Routing and a Duration of 100.
fn frame(colours: &[u8]) -> Vec<u8> {
    routed(FRAME, 1, 2, PLAIN, &samples(colours))
}

/// A wave of 20 points, the first ones with these colours, the others dark,
/// with Routing and a Duration of 100.
fn wave(colours: &[u8]) -> Vec<u8> {
    let mut all = [0; 20];
    all[..colours.len()].copy_from_slice(colours);
    routed(WAVE, 1, 1, PLAIN, &samples(&all))
}

/// A frame on channel 5 without Routing.
fn later(duration: u8, colours: &[u8]) -> Vec<u8> {
    let size = 12 + 3 * colours.len() as u8;
    let header = [0, size, 0x85, FRAME, 0, 0, 0, 0, 0, 0, 0, duration];
    [header.to_vec(), samples(colours)].concat()
}

/// What the receiver gives for each message, and the last readings. The
/// look-back rule must have the same numbers and sums.
fn all(start: [u64; 3], messages: &[Vec<u8>]) -> (Vec<Given>, [u64; 3]) {
    let (mut receiver, _) = Receiver::start(start[0], start[1], start[2]);
    let verdicts = verdicts(start, &offered(messages));
    let mut given = Vec::new();
    for (octets, verdict) in messages.iter().zip(&verdicts) {
        let reply = receiver.message(octets, &mut [0; 480], &mut [], &mut []);
        assert_eq!(reply.number, verdict.number);
        given.push((reply.number, reply.points, reply.lit_points));
    }
    assert_eq!(receiver.readings(), sums(start, &verdicts));
    (given, receiver.readings())
}

/// The same of one message.
fn one(start: [u64; 3], message: Vec<u8>) -> (Given, [u64; 3]) {
    let (given, readings) = all(start, &[message]);
    (given[0], readings)
}

/// Refused by 23 with the readings as they were.
fn passes(start: [u64; 3]) -> (Given, [u64; 3]) {
    ((23, 0, 0), start)
}

/// "That point now counts among the points but never as lit, and a frame lit
/// only there adds no Duration. Rows don't change."
#[test]
fn frame_lit_only_at_first() {
    let frame = routed(FRAME, 1, 2, PLAIN, &octets("0102FF 030400 FF0600"));
    let mut host = Host::new();
    let reply = host.offer(&frame);
    assert_eq!((reply.number, reply.points, reply.lit_points), (0, 3, 0));
    let mut rows = vec![-7; 600];
    rows[..72].fill(0);
    rows[..9].copy_from_slice(&[256, 512, 0, 0, 0, 1, 0, 0, 65_280]);
    rows[24..30].copy_from_slice(&[768, 1024, 0, 0, 0, 1]);
    rows[48..54].copy_from_slice(&[-256, 1536, 0, 0, 0, 1]);
    (rows[16], rows[40], rows[64]) = (40_832, 40_832, 40_832);
    assert_eq!(host.rows, rows);
    assert_eq!(host.receiver.readings(), [0, 3, 0]);
    assert_eq!(listing(&frame), "5 2 0 3 0\nmeters 0 3 0\n");
}

/// The other points of a frame count as before, and a dark first point takes
/// none of them away.
#[test]
fn frames_lit_elsewhere() {
    let given = |colours: &[u8]| one([5, 6, 7], frame(colours));
    assert_eq!(given(&[255, 1]), ((0, 2, 1), [105, 8, 8]));
    assert_eq!(given(&[1, 0, 1, 0]), ((0, 4, 1), [105, 10, 8]));
    assert_eq!(given(&[1, 1, 1, 1, 1]), ((0, 5, 4), [105, 11, 11]));
    assert_eq!(given(&[0, 1]), ((0, 2, 1), [105, 8, 8]));
    assert_eq!(given(&[0, 1, 1]), ((0, 3, 2), [105, 9, 9]));
    assert_eq!(given(&[0, 0, 1]), ((0, 3, 1), [105, 9, 8]));
    assert_eq!(given(&[0, 0]), ((0, 2, 0), [5, 8, 7]));
}

/// The request speaks of frames only: the first point of a wave counts.
#[test]
fn waves() {
    let given = |colours: &[u8]| one([0; 3], wave(colours));
    assert_eq!(given(&[1]), ((0, 20, 1), [100, 20, 1]));
    assert_eq!(given(&[0, 1]), ((0, 20, 1), [100, 20, 1]));
    assert_eq!(given(&[1, 1]), ((0, 20, 2), [100, 20, 2]));
    assert_eq!(given(&[1; 20]), ((0, 20, 20), [100, 20, 20]));
    assert_eq!(given(&[]), ((0, 20, 0), [0, 20, 0]));
}

/// A frame without samples has no first point.
#[test]
fn empty_frame() {
    assert_eq!(one([1, 2, 3], frame(&[])), ((0, 0, 0), [1, 2, 3]));
    assert_eq!(one([LIMIT; 3], frame(&[])), ((0, 0, 0), [LIMIT; 3]));
}

/// Check 23 by the lit points.
#[test]
fn limit_of_lit_points() {
    let room_for_1 = [0, 0, LIMIT - 1];
    let two_lit = one(room_for_1, frame(&[1, 1]));
    assert_eq!(two_lit, ((0, 2, 1), [100, 2, LIMIT]));
    assert_eq!(one(room_for_1, frame(&[1, 1, 1])), passes(room_for_1));
    assert_eq!(one(room_for_1, frame(&[0, 1, 1])), passes(room_for_1));
    let wave_lit = one(room_for_1, wave(&[1]));
    assert_eq!(wave_lit, ((0, 20, 1), [100, 20, LIMIT]));
    assert_eq!(one(room_for_1, wave(&[1, 1])), passes(room_for_1));
    let full = [0, 0, LIMIT];
    assert_eq!(one(full, frame(&[1, 0])), ((0, 2, 0), [0, 2, LIMIT]));
    assert_eq!(one(full, frame(&[1, 1])), passes(full));
    assert_eq!(one(full, frame(&[0, 1])), passes(full));
    assert_eq!(one(full, wave(&[1])), passes(full));
}

/// Check 23 by the lit microseconds; each Duration is 100.
#[test]
fn limit_of_lit_time() {
    let short = [LIMIT - 99, 0, 0];
    assert_eq!(one(short, frame(&[1, 0])), ((0, 2, 0), [LIMIT - 99, 2, 0]));
    assert_eq!(one(short, frame(&[1, 1])), passes(short));
    assert_eq!(one(short, frame(&[0, 1])), passes(short));
    assert_eq!(one(short, wave(&[1])), passes(short));
    let enough = [LIMIT - 100, 0, 0];
    assert_eq!(one(enough, frame(&[1, 1])), ((0, 2, 1), [LIMIT, 2, 1]));
    assert_eq!(one(enough, wave(&[1])), ((0, 20, 1), [LIMIT, 20, 1]));
}

/// Check 23 by the points, among which the first one counts.
#[test]
fn limit_of_points() {
    let room_for_2 = [0, LIMIT - 2, 0];
    assert_eq!(one(room_for_2, frame(&[1, 0])), ((0, 2, 0), [0, LIMIT, 0]));
    let room_for_1 = [0, LIMIT - 1, 0];
    assert_eq!(one(room_for_1, frame(&[1, 0])), passes(room_for_1));
    assert_eq!(one(room_for_1, frame(&[1, 1])), passes(room_for_1));
}

/// "The look-back sums follow": each frame has a first point, with Routing or
/// without, and the sums before a message decide check 23.
#[test]
fn list_near_the_limits() {
    let start = [LIMIT - 250, 0, LIMIT - 2];
    let mut other_channel = wave(&[1]);
    other_channel[2] = 0xC6;
    let messages = [
        // Leaves 150 microseconds and 1 lit point.
        frame(&[1, 1]),
        // 200 microseconds that do not count.
        later(200, &[1, 0]),
        // 2 lit points.
        later(100, &[1, 1, 1]),
        // Leaves 50 microseconds and no lit point.
        later(100, &[1, 1, 0]),
        later(1, &[0, 1]),
        later(255, &[1, 0]),
        // The first point of a wave counts; channel 6 stays closed.
        other_channel,
        octets("0008860000000000"),
        later(255, &[]),
    ];
    let expected = vec![
        (0, 2, 1),
        (0, 2, 0),
        (23, 0, 0),
        (0, 3, 1),
        (23, 0, 0),
        (0, 2, 0),
        (23, 0, 0),
        (16, 0, 0),
        (0, 0, 0),
    ];
    let readings = [LIMIT - 50, 9, LIMIT];
    assert_eq!(all(start, &messages), (expected, readings));
}
