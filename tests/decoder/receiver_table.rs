//! Document 01, "Bench table", cases a to h, as whole messages; document 02,
//! C-16, changes case h.

use crate::listing::listing;
use crate::receiver::{Receiver, Reply};
use crate::table::octets;

/// Case a.
pub const FRAME_OF_TWO: &str = "002EC502 00000000 04110102 42004010 42104010 527E5214 51CC0000
    10000064 80000001000000 7FFFFFFF008000";

/// Samples of three octets: X, Y and one colour.
pub const PLAIN: &str = "4200 4210 527E 0000";

/// A message with Routing of channel 5 and SDM 0: the words, filled up with
/// zeros to whole 32-bit words, then the flags, a duration of 100 and what
/// stands after it. The octets of Total Size are set.
pub fn routed(kind: u8, service: u8, mode: u8, words: &str, rest: &[u8]) -> Vec<u8> {
    let mut words = octets(words);
    while words.len() % 4 != 0 {
        words.push(0);
    }
    let mut message = vec![0, 0, 0xC5, kind, 0, 0, 0, 9];
    message.extend([(words.len() / 4) as u8, 0x01, service, mode]);
    message.extend(words);
    message.extend([0, 0, 0, 100]);
    message.extend(rest);
    let size = message.len() as u16;
    message[..2].copy_from_slice(&size.to_be_bytes());
    message
}

/// A receiver, and slices with a pattern.
pub struct Host {
    pub receiver: Receiver,
    pub rows: Vec<i32>,
    pub levels: Vec<u8>,
    pub assembly: Vec<u8>,
}

impl Host {
    pub fn new() -> Host {
        Host {
            receiver: Receiver::start(0, 0, 0).0,
            rows: vec![-7; 600],
            levels: vec![7; 1024],
            assembly: vec![0xEE; 64],
        }
    }

    pub fn offer(&mut self, message: &[u8]) -> Reply {
        self.receiver.message(
            message,
            &mut self.rows,
            &mut self.levels,
            &mut self.assembly,
        )
    }

    pub fn number(&mut self, message: &[u8]) -> u32 {
        self.offer(message).number
    }
}

#[test]
fn a_frame() {
    let mut host = Host::new();
    let reply = host.offer(&octets(FRAME_OF_TWO));
    let expected = Reply {
        channel: 5,
        kind: 2,
        points: 2,
        lit_points: 1,
        ..Reply::default()
    };
    assert_eq!(reply, expected);
    let mut rows = vec![-7; 600];
    rows[..48].fill(0);
    (rows[0], rows[1], rows[5]) = (-32768, 1, 1);
    (rows[24], rows[25], rows[29], rows[33]) = (32767, -1, 1, 32768);
    rows[16..19].copy_from_slice(&[40832, 34048, 29440]);
    rows[40..43].copy_from_slice(&[40832, 34048, 29440]);
    assert_eq!(host.rows, rows);
    assert_eq!(host.levels, [7; 1024]);
    assert_eq!(host.receiver.readings(), [100, 2, 1]);
    assert_eq!(
        listing(&octets(FRAME_OF_TWO)),
        "5 2 0 2 1\nmeters 100 2 1\n"
    );
}

/// Frames of two points alike, of which the first never counts as lit
/// (request C-11).
#[test]
fn b_to_d_rows() {
    let colour = |words: &str, sample: &str| {
        let mut host = Host::new();
        let samples = [octets(sample), octets(sample)].concat();
        let reply = host.offer(&routed(2, 0, 2, words, &samples));
        assert_eq!((reply.number, reply.points), (0, 2));
        assert_eq!(
            host.receiver.readings()[0],
            if reply.lit_points == 1 { 100 } else { 0 }
        );
        (host.rows[32], host.rows[40], reply.lit_points)
    };
    let hinted = "4200 4210 527E 4100";
    assert_eq!(colour(hinted, "0000FF40"), (16320, 40832, 1));
    assert_eq!(colour(hinted, "0000FFC0"), (1020, 40832, 1));
    assert_eq!(colour("4200 4210 5C00 5000", "00008500"), (0, 34048, 0));
    let precise = "4200 4210 527E 4010 4100";
    assert_eq!(colour(precise, "0000003FC0"), (0, 40832, 0));
    assert_eq!(colour(precise, "00000040C0"), (1, 40832, 1));
}

#[test]
fn e_and_f_levels() {
    let base = "42 01 FE 00";
    let mut host = Host::new();
    assert_eq!(host.number(&routed(0x18, 1, 4, base, &[1, 2, 3, 4])), 21);
    assert_eq!(host.levels, [7; 1024]);
    let reply = host.offer(&routed(0x18, 1, 4, base, &[1, 2, 3]));
    assert_eq!((reply.number, reply.levels), (0, 3));
    let mut levels = [7; 1024];
    levels[509..512].copy_from_slice(&[1, 2, 3]);
    assert_eq!(host.levels, levels);
    let two = "43 00 01 02 43 00 03 01";
    assert_eq!(host.number(&routed(0x18, 2, 6, two, &[4, 5, 6])), 0);
    levels[512..515].copy_from_slice(&[4, 5, 6]);
    assert_eq!(host.levels, levels);
    let three = format!("{two} 43 00 02 01");
    assert_eq!(host.number(&routed(0x18, 2, 6, &three, &[1, 2, 3, 4])), 14);
    assert_eq!(host.receiver.readings(), [0, 0, 0]);
}

#[test]
fn g_counts_of_samples() {
    let number = |kind: u8, mode: u8, samples: usize| {
        Host::new().number(&routed(kind, 1, mode, PLAIN, &vec![1; 3 * samples]))
    };
    assert_eq!(number(1, 1, 19), 20);
    assert_eq!(number(1, 1, 20), 0);
    assert_eq!(number(2, 2, 0), 0);
    assert_eq!(number(2, 2, 1), 20);
}

#[test]
fn h_refused_tags() {
    let number = |words: &str| Host::new().number(&routed(2, 1, 2, words, &[]));
    for (tag, refusal) in [("4010", 10), ("3000", 8), ("1000", 9)] {
        assert_eq!(number(&format!("{tag} 4200 4210 527E")), refusal);
    }
    // Document 02, C-16: "4230 alone now gives 12". The zeros behind it are Void.
    assert_eq!(number("4230 0000"), 12);
    assert_eq!(number("4230 4200 4210 527E"), 0);
}
