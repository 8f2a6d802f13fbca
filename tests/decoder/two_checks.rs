//! Request C-13, "Two checks that meet": "For messages with Routing, 17, 18
//! and 19 are now tried before 15. Where one of them applies, such a 15 becomes
//! 17, 18 or, closing the channel, 19". Cases worked out by hand: channel 8 has
//! mode 1, and channel 5 asks for it.

use crate::fragment_drops::{drops, keeps};
use crate::fragment_edges::{OPEN, VOID as VOID_5};
use crate::message::{FIRST, FRAME, LEVELS, VOID, WAVE};
use crate::receiver::{Receiver, Reply, LIMIT};
use crate::receiver_table::Host;
use crate::table::octets;

/// Opens channel 8 in mode 1 with SDM 0, and closes it.
pub const HOLD: &str = "0014C800 00000000 02010001 42004210 527E0000";
const CLOSE_8: &str = "000CC800 00000000 00020000";

/// CFL with SDM 1 and Routing, and with Close as well.
pub const ROUTING: u8 = 0x11;
const AND_CLOSE: u8 = 0x13;

/// What makes channel 5 what it is before it asks (closed, mode 0, 2, 4 or 6,
/// SDM 0), and a message that is accepted only if it still is, or refused by
/// 16 if it still is closed.
const STATES: [(&str, &str); 5] = [
    ("", VOID_5),
    ("000CC500 00000000 00010000", "0009850000000000 FF"),
    (OPEN, "00128502 00000000 0000000A 000000 000001"),
    (
        "000CC500 00000000 00010004",
        "000D8518 00000000 00000000 FF",
    ),
    (
        "000CC500 00000000 00010006",
        "000D8518 00000000 00000000 FF",
    ),
];

/// A message with Routing of a channel to mode 1.
pub fn asks(channel: u8, kind: u8, cfl: u8, data: &str) -> String {
    let size = 20 + octets(data).len();
    let channel = 0xC0 + channel;
    format!("{size:04X}{channel:02X}{kind:02X} 00000009 02{cfl:02X}0101 42004210 527E0000 {data}")
}

/// The flags octet, a Duration of 100 and so many samples, all lit.
fn samples(flags: u8, count: usize) -> String {
    format!("{flags:02X}000064 {}", "010203".repeat(count))
}

/// 20 of them. The flags 10 have SCM 1, like SDM in ROUTING.
pub fn wave(flags: u8) -> String {
    samples(flags, 20)
}

/// A host whose channel 8 has mode 1, and channel 5 what the message makes it.
fn holding(open: &str) -> Host {
    let mut host = Host::new();
    assert_eq!(host.number(&octets(HOLD)), 0);
    if !open.is_empty() {
        assert_eq!(host.number(&octets(open)), 0, "{open}");
    }
    host
}

/// Channel 8 still has mode 1: a third channel gets 15, and a wave is drawn.
fn channel_8_has_it(host: &mut Host) {
    let third = asks(6, WAVE, ROUTING, &wave(0x10));
    assert_eq!(host.number(&octets(&third)), 15);
    let drawn = format!("00488801 00000000 {}", wave(0x00));
    let reply = host.offer(&octets(&drawn));
    assert_eq!((reply.number, reply.points), (0, 20));
}

/// Channel 5 asks for mode 1 while channel 8 has it, whatever channel 5 was,
/// with Close or without, and has this number. 19 closes channel 5; the others
/// leave it as it was.
fn refused(number: u32, kind: u8, data: &str) {
    for ((open, shows), cfl) in STATES
        .iter()
        .flat_map(|state| [(*state, ROUTING), (*state, AND_CLOSE)])
    {
        let message = asks(5, kind, cfl, data);
        let mut host = holding(open);
        let before = host.receiver.clone();
        let reply = host.offer(&octets(&message));
        let expected = Reply {
            number,
            ..Reply::default()
        };
        assert_eq!(reply, expected, "{open}: {message}");
        assert_eq!(host.rows, [-7; 600]);
        assert_eq!(host.receiver.readings(), [0; 3]);
        if number == 19 {
            assert_eq!(host.number(&octets(VOID_5)), 16, "{open}: {message}");
        } else {
            assert_eq!(host.receiver, before, "{open}: {message}");
            let still = if open.is_empty() { 16 } else { 0 };
            assert_eq!(host.number(&octets(shows)), still, "{open}: {message}");
        }
        channel_8_has_it(&mut host);
    }
}

/// "The type does not go with the mode", before 18 and 19 as ever.
#[test]
fn seventeen_before_15() {
    for kind in [FRAME, FIRST, LEVELS] {
        for data in ["", "100000", "20000064", &wave(0x10), &wave(0x20)] {
            refused(17, kind, data);
        }
    }
}

/// "A Void chunk has data, or another has under 4 octets", before 19.
#[test]
fn eighteen_before_15() {
    for data in ["", "10", "20", "100000", "200000"] {
        refused(18, WAVE, data);
    }
    for data in ["10", "10000064", &wave(0x10), &wave(0x20)] {
        refused(18, VOID, data);
    }
}

/// "SCM differs from SDM", that of the message's own routing. It closes the
/// message's own channel and no other.
#[test]
fn nineteen_before_15() {
    for flags in [0x00, 0x20, 0x30, 0xEF] {
        refused(19, WAVE, &wave(flags));
    }
    // 20 would refuse these too.
    for data in ["00000064", "20000064 01", &samples(0x30, 19)] {
        refused(19, WAVE, data);
    }
}

/// Where none of the three applies, it is 15 as before. A Void chunk that
/// passes 18 skips 19 to 22, and 15 is none of these.
#[test]
fn still_15() {
    refused(15, WAVE, &wave(0x10));
    refused(15, WAVE, &wave(0xDF));
    refused(15, VOID, "");
}

/// 15 stands before 20 to 23: only 17, 18 and 19 passed it. Each message has
/// the later number once channel 8 is closed.
#[test]
fn fifteen_before_the_others() {
    let mut host = holding(OPEN);
    for data in ["10000064", "10000064 01", &samples(0x10, 19)] {
        refused(15, WAVE, data);
        let message = octets(&asks(5, WAVE, ROUTING, data));
        assert_eq!(host.number(&message), 15);
        assert_eq!(host.number(&octets(CLOSE_8)), 0);
        assert_eq!(host.number(&message), 20);
        assert_eq!(host.number(&octets(HOLD)), 0);
    }
    let right = octets(&asks(5, WAVE, ROUTING, &wave(0x10)));
    let differs = octets(&asks(5, WAVE, ROUTING, &wave(0x20)));
    let limits = Receiver::start(LIMIT, LIMIT, LIMIT).0;
    for (later, rows, receiver) in [(22, 479, host.receiver), (23, 480, limits)] {
        let mut host = Host::new();
        host.rows.truncate(rows);
        host.receiver = receiver;
        for message in [HOLD, OPEN] {
            assert_eq!(host.number(&octets(message)), 0);
        }
        assert_eq!(host.number(&right), 15);
        assert_eq!(host.number(&octets(VOID_5)), 0);
        assert_eq!(host.number(&differs), 19);
        assert_eq!(host.number(&octets(VOID_5)), 16);
        assert_eq!(host.number(&right), 15);
        assert_eq!(host.number(&octets(CLOSE_8)), 0);
        assert_eq!(host.number(&right), later);
    }
}

/// 5 to 12 stand before all four, as ever.
#[test]
fn tags_before_all() {
    for (number, from, to) in [
        (5, "02110101", "FF110101"),
        (6, "02110101", "02110107"),
        (7, "02110101", "02110201"),
        (8, "527E0000", "30000000"),
        (9, "527E0000", "10000000"),
        (10, "42004210", "40104200"),
        (11, "527E0000", "42000000"),
        (12, "527E0000", "40000000"),
    ] {
        for (kind, data) in [
            (FRAME, &wave(0x10)),
            (WAVE, &"10".to_string()),
            (WAVE, &wave(0x20)),
            (WAVE, &wave(0x10)),
            (VOID, &String::new()),
        ] {
            let message = asks(5, kind, ROUTING, data).replace(from, to);
            let mut host = holding(OPEN);
            let before = host.receiver.clone();
            assert_eq!(host.number(&octets(&message)), number, "{message}");
            assert_eq!(host.receiver, before, "{message}");
            channel_8_has_it(&mut host);
        }
    }
}

/// Request C-12: "on that channel an accepted routing or close or a refusal
/// 19, drops what was gathered". A frame is gathered on channel 5, channel 6
/// has mode 2, 7 mode 0, 8 mode 1, and 9 is closed.
#[test]
fn frames_being_gathered() {
    for cfl in [ROUTING, AND_CLOSE] {
        drops(&asks(5, WAVE, cfl, &wave(0x20)), 19);
        drops(&asks(5, WAVE, cfl, "00000064"), 19);
        for channel in [6, 7, 9] {
            keeps(&asks(channel, WAVE, cfl, &wave(0x20)), 19);
        }
        for channel in [5, 6, 7, 9] {
            keeps(&asks(channel, WAVE, cfl, &wave(0x10)), 15);
            keeps(&asks(channel, VOID, cfl, ""), 15);
            for kind in [FRAME, FIRST, LEVELS] {
                keeps(&asks(channel, kind, cfl, &wave(0x10)), 17);
            }
            keeps(&asks(channel, WAVE, cfl, "100000"), 18);
            keeps(&asks(channel, VOID, cfl, "10"), 18);
        }
    }
}

/// Messages without Routing are as before: on a closed channel 16 stands
/// before the three, whatever mode the configuration header names.
#[test]
fn without_routing() {
    for (open, number, message) in [
        ("", 16, "00088502 00000000"),
        ("", 16, "0009850000000000 FF"),
        ("", 16, "000C8501 00000000 20000064"),
        ("", 16, "0010C501 00000000 00100101 20000064"),
        (OPEN, 17, "0010C501 00000000 00100101 20000064"),
        (OPEN, 18, "000FC502 00000000 00100101 200000"),
        (OPEN, 0, "0016C502 00000000 00100101 00000064 000000 000001"),
        (OPEN, 17, "000C8802 00000000 10000064"),
        (OPEN, 18, "000B8801 00000000 100000"),
        (OPEN, 20, "000C8801 00000000 00000064"),
    ] {
        let mut host = holding(open);
        assert_eq!(host.number(&octets(message)), number, "{message}");
        channel_8_has_it(&mut host);
    }
    // 19 on channel 8 closes it, and mode 1 is free.
    let mut host = holding(OPEN);
    assert_eq!(host.number(&octets("000C8801 00000000 10000064")), 19);
    let right = asks(5, WAVE, ROUTING, &wave(0x10));
    assert_eq!(host.number(&octets(&right)), 0);
}

/// Routings that 15 does not concern are as before: those to other modes, and
/// those of the channel that has mode 1 itself.
#[test]
fn other_routings() {
    let cases = [
        (17, LEVELS, "10000064".to_string()),
        (18, VOID, "10".to_string()),
        (19, FRAME, wave(0x20)),
        (0, FRAME, wave(0x10)),
    ];
    for (number, kind, data) in cases {
        let mut host = holding(OPEN);
        let to_mode_2 = asks(5, kind, ROUTING, &data).replace("02110101", "02110102");
        assert_eq!(host.number(&octets(&to_mode_2)), number);
        channel_8_has_it(&mut host);
    }
    let right = octets(&asks(5, WAVE, ROUTING, &wave(0x10)));
    for (number, kind, data, after) in [
        (17, FRAME, wave(0x20), 15),
        (18, WAVE, "20".to_string(), 15),
        (20, WAVE, "10000064".to_string(), 15),
        (0, WAVE, wave(0x10), 15),
        (19, WAVE, wave(0x20), 0),
    ] {
        let mut host = holding(OPEN);
        let own = octets(&asks(8, kind, ROUTING, &data));
        assert_eq!(host.number(&own), number);
        assert_eq!(host.number(&right), after);
    }
}
