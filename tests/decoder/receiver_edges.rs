//! Further messages, worked out by hand from the sentences of document 01
//! that the tests name.

use crate::listing::listing;
use crate::message::MOST;
use crate::receiver::{Receiver, Reply, LIMIT};
use crate::receiver_table::{routed, Host, FRAME_OF_TWO, PLAIN};
use crate::table::octets;

/// "The length is below 8, above 65,280, or not Total Size", then 3, 4, 5.
#[test]
fn first_checks() {
    let mut host = Host::new();
    for text in [
        "",
        "00",
        "0007C500000000",
        "000900 00000000",
        "0008450400000000 00",
    ] {
        assert_eq!(host.number(&octets(text)), 2, "{text}");
    }
    assert_eq!(host.number(&octets("0008450400000000")), 3);
    assert_eq!(host.number(&octets("0008850400000000")), 4);
    assert_eq!(host.number(&octets("0008C50000000000")), 5);
    assert_eq!(host.number(&octets("000BC50000000000 000101")), 5);
    assert_eq!(host.number(&octets("000CC50000000000 01010107")), 5);
    assert_eq!(host.number(&octets("000CC50000000000 00010107")), 6);
    assert_eq!(host.number(&octets("000CC50000000000 01000107")), 16);
    let mut most = routed(2, 3, 0, "", &[0; MOST - 16]);
    assert_eq!(most.len(), MOST);
    assert_eq!(host.number(&most), 7);
    most.push(0);
    most[..2].copy_from_slice(&[0xFF, 0x01]);
    assert_eq!(host.number(&most), 2);
}

/// "Services: 1 is the laser (modes 1, 2, 4), 2 is DMX (mode 6), 0 is the
/// default for the mode. Mode 0 (Void) goes with 0, 1 or 2".
#[test]
fn services() {
    for mode in 0..=7 {
        for service in 0..=3 {
            let goes = match (mode, service) {
                (3 | 5 | 7, _) => 6,
                (_, 3) => 7,
                (_, 0) | (0, _) => 0,
                (6, 1) | (1 | 2 | 4, 2) => 7,
                _ => 0,
            };
            let words = if mode == 1 || mode == 2 { PLAIN } else { "" };
            let mut message = routed(0, service, mode, words, &[]);
            message.truncate(message.len() - 4);
            let size = message.len() as u8;
            message[1] = size;
            assert_eq!(Host::new().number(&message), goes, "{mode} {service}");
        }
    }
}

/// "Mode 0 skips 8 to 14 and 17 to 22", and its words are ignored.
#[test]
fn mode_0() {
    for kind in [0x00, 0x01, 0x02, 0x18] {
        let mut host = Host::new();
        let reply = host.offer(&routed(kind, 2, 0, "FFFFFFFF 11550000", &[1, 2]));
        let expected = Reply {
            channel: 5,
            kind,
            timestamp: 9,
            ..Reply::default()
        };
        assert_eq!(reply, expected);
        let later = [0, 9, 0x85, kind, 0, 0, 0, 9, 0x30];
        assert_eq!(host.offer(&later), expected);
        assert_eq!(host.rows, [-7; 600]);
    }
}

/// "Without Routing, SCWC, SDM, service and mode are ignored and the data
/// section starts at octet 12"; "Close acts after the message."
#[test]
fn without_routing() {
    let mut host = Host::new();
    assert_eq!(host.number(&octets(FRAME_OF_TWO)), 0);
    let close = octets("001EC502 00000001 FFFE0907 DF00000A 00000000000000 00000000010000");
    let reply = host.offer(&close);
    let expected = Reply {
        channel: 5,
        kind: 2,
        timestamp: 1,
        points: 2,
        lit_points: 1,
        ..Reply::default()
    };
    assert_eq!(reply, expected);
    assert_eq!(host.receiver.readings(), [110, 4, 2]);
    assert_eq!(host.number(&close), 16);
}

/// "Routing an open channel replaces its configuration"; a message with
/// Routing and Close is decoded and leaves the channel closed.
#[test]
fn routing_and_close() {
    let mut both = octets(FRAME_OF_TWO);
    both[9] |= 0x02;
    let mut host = Host::new();
    assert_eq!(host.number(&routed(2, 1, 2, PLAIN, &[0; 6])), 0);
    assert_eq!(host.offer(&both).lit_points, 1);
    assert_eq!(host.number(&octets("0008850000000000")), 16);
    assert_eq!(host.receiver.readings(), [100, 4, 1]);
}

/// "only 19 closes the channel", also when the message brings the routing.
#[test]
fn nineteen_closes() {
    let mut wrong = octets(FRAME_OF_TWO);
    wrong[28] = 0x20;
    let void = octets("0008850000000000");
    let mut host = Host::new();
    assert_eq!(host.number(&octets(FRAME_OF_TWO)), 0);
    assert_eq!(host.number(&void), 0);
    assert_eq!(host.offer(&wrong).number, 19);
    assert_eq!(host.number(&void), 16);
    assert_eq!(host.number(&octets(FRAME_OF_TWO)), 0);
    assert_eq!(host.number(&octets("000C850200000000 30000000")), 19);
    assert_eq!(host.number(&void), 16);
}

/// "A refusal changes no record": a refused routing leaves the earlier one.
#[test]
fn refused_routing() {
    let mut host = Host::new();
    assert_eq!(host.number(&octets(FRAME_OF_TWO)), 0);
    assert_eq!(host.number(&routed(2, 1, 2, PLAIN, &[1; 3])), 20);
    let later = octets("001A8502 00000000 1F000005 00000000000000 00000000000001");
    let reply = host.offer(&later);
    assert_eq!((reply.number, reply.points, reply.lit_points), (0, 2, 1));
    assert_eq!(host.receiver.readings(), [105, 4, 2]);
}

/// "With Routing to mode 1, another open channel has mode 1."
#[test]
fn one_wave_channel() {
    let mut host = Host::new();
    let wave = routed(1, 1, 1, PLAIN, &[0; 60]);
    let mut other = wave.clone();
    other[2] = 0xC6;
    assert_eq!(host.number(&wave), 0);
    assert_eq!(host.number(&wave), 0);
    assert_eq!(host.number(&other), 15);
    assert_eq!(host.number(&octets("000CC50000000000 00020000")), 0);
    assert_eq!(host.number(&other), 0);
    assert_eq!(host.number(&wave), 15);
    assert_eq!(host.receiver.readings(), [0, 60, 0]);
}

/// Check 18 before 19, and "a Void chunk that passes 18 skips 19 to 22".
#[test]
fn void_chunks() {
    let mut host = Host::new();
    assert_eq!(host.number(&octets(FRAME_OF_TWO)), 0);
    assert_eq!(host.number(&octets("000B850200000000 30FFFF")), 18);
    assert_eq!(host.number(&octets("0009850000000000 30")), 18);
    let void = octets("0008850000000007");
    let reply = host.receiver.message(&void, &mut [], &mut [], &mut []);
    assert_eq!((reply.number, reply.channel, reply.timestamp), (0, 5, 7));
}

/// Check 22: "rows hold under points × 24 numbers"; "the levels slice is
/// under 1,024 octets", also if every level is dropped.
#[test]
fn slices_lent() {
    let (mut receiver, _) = Receiver::start(0, 0, 0);
    let frame = octets(FRAME_OF_TWO);
    let mut rows = [3; 48];
    let reply = receiver.message(&frame, &mut rows[..47], &mut [], &mut []);
    assert_eq!((reply.number, rows), (22, [3; 48]));
    let reply = receiver.message(&frame, &mut rows, &mut [], &mut []);
    assert_eq!(reply.number, 0);
    let dropped = routed(0x18, 1, 4, "42 FF FF", &[1; 600]);
    let mut levels = [3; 1025];
    let reply = receiver.message(&dropped, &mut [], &mut levels[..1023], &mut []);
    assert_eq!(reply.number, 22);
    let reply = receiver.message(&dropped, &mut [], &mut levels, &mut []);
    assert_eq!((reply.number, reply.levels, levels), (0, 0, [3; 1025]));
    let empty = routed(2, 1, 2, PLAIN, &[]);
    let reply = receiver.message(&empty, &mut [], &mut [], &mut []);
    assert_eq!(reply.number, 0);
}

/// Check 23, and the space modifier in force.
#[test]
fn limits() {
    let frame = routed(2, 1, 2, "1155 4200 4210 527E", &[0, 0, 0, 0, 0, 1]);
    let offer = |start: [u64; 3]| {
        let (mut receiver, reply) = Receiver::start(start[0], start[1], start[2]);
        assert_eq!(reply, Reply::default());
        let reply = receiver.message(&frame, &mut [0; 48], &mut [], &mut []);
        assert_eq!(reply.space, if reply.number == 0 { 0x1155 } else { 0 });
        (reply.number, receiver.readings())
    };
    let full = [LIMIT, LIMIT, LIMIT];
    assert_eq!(offer([LIMIT - 100, LIMIT - 2, LIMIT - 1]), (0, full));
    for (meter, short) in [99, 1, 0].into_iter().enumerate() {
        let mut start = [0; 3];
        start[meter] = LIMIT - short;
        assert_eq!(offer(start), (23, start));
    }
    let (receiver, reply) = Receiver::start(5, LIMIT + 1, 6);
    assert_eq!((reply.number, receiver.readings()), (23, [0; 3]));
    assert_eq!(Receiver::start(LIMIT, LIMIT, LIMIT).0.readings(), full);
}

/// "A size below 8 or past the end, or a lone octet, prints "cut"".
#[test]
fn listings() {
    assert_eq!(listing(&[]), "meters 0 0 0\n");
    assert_eq!(listing(&[0]), "cut 1\nmeters 0 0 0\n");
    assert_eq!(listing(&[0, 7, 1, 1, 1, 1, 1, 1]), "cut 8\nmeters 0 0 0\n");
    let void = octets("0008850000000000");
    let past = octets("0009850000000000");
    assert_eq!(
        listing(&[void.clone(), octets(FRAME_OF_TWO), void, past].concat()),
        "0 0 16 0 0\n5 2 0 2 1\n5 0 0 0 0\ncut 8\nmeters 100 2 1\n"
    );
}
