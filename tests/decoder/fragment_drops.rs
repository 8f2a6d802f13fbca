//! Request C-12: what drops the frame that is gathered, and what leaves it
//! alone, worked out by hand.

use crate::fragment_edges::{holds, kept, numbers, opened, FIRST, LAST, OPEN, SECOND, VOID, WHOLE};
use crate::receiver_table::Host;
use crate::table::octets;

/// Opens channel 6 like channel 5, channel 7 in mode 0 and channel 8 in mode 1.
const OPEN_6: &str = "0014C600 00000000 02010102 42004210 527E0000";
const OPEN_7: &str = "000CC700 00000000 00010000";
const OPEN_8: &str = "0014C800 00000000 02010001 42004210 527E0000";

/// A host that gathers on channel 5, with the first fragment and the second.
fn gathering() -> Host {
    let mut host = opened();
    let messages = [OPEN_6, OPEN_7, OPEN_8, FIRST, SECOND];
    assert_eq!(numbers(&mut host, &messages), [0; 5]);
    host
}

/// The octets of the first fragment and the second.
const TWO: &str = "00000064 010200 0304FF 05";

/// The message has this number and drops the gathering; "dropping writes no
/// octet".
pub fn drops(message: &str, number: u32) {
    let mut host = gathering();
    assert_eq!(host.number(&octets(message)), number, "{message}");
    assert_eq!(host.receiver.gathering(), None, "{message}");
    holds(&host, TWO);
    // 24, or 16 where the channel was closed.
    let refused = if host.number(&octets(VOID)) == 0 {
        24
    } else {
        16
    };
    assert_eq!(host.number(&octets(LAST)), refused, "{message}");
    holds(&host, TWO);
}

/// The message has this number and leaves the gathering alone.
pub fn keeps(message: &str, number: u32) {
    let mut host = gathering();
    let before = host.receiver.readings();
    assert_eq!(host.number(&octets(message)), number, "{message}");
    assert_eq!(host.receiver.gathering(), kept(11, 2), "{message}");
    holds(&host, TWO);
    let adds = host.receiver.readings()[1] - before[1];
    let last = host.offer(&octets(LAST));
    assert_eq!((last.number, last.points, last.lit_points), (0, 3, 1));
    holds(&host, WHOLE);
    assert_eq!(host.receiver.readings()[1], adds + 3);
}

/// "on that channel an accepted routing or close or a refusal 19, drops what
/// was gathered".
#[test]
fn on_its_channel() {
    // Routing, the same configuration again, to mode 4, and with Close.
    drops(OPEN, 0);
    drops("000CC500 00000000 00010004", 0);
    drops("0014C500 00000000 02030102 42004210 527E0000", 0);
    // Routing with a whole frame.
    drops("0018C502 00000000 02010102 42004210 527E0000 00000000", 0);
    // Close without Routing, and with a whole frame.
    drops("000CC500 00000000 00020000", 0);
    drops("0016C502 00000000 00020000 00000001 000000 000000", 0);
    // 19, without Routing and with it, and of a first fragment.
    drops("000C8502 00000000 10000000", 19);
    drops("0018C502 00000000 02010102 42004210 527E0000 10000000", 19);
    drops("000C8503 00000000 20000000", 19);
    // Routing to mode 0 drops it too, and the fragments behind are ignored.
    let mut host = gathering();
    let messages = ["000CC500 00000000 00010000", SECOND, LAST, FIRST, LAST];
    assert_eq!(numbers(&mut host, &messages), [0; 5]);
    assert_eq!(host.receiver.gathering(), None);
    holds(&host, TWO);
}

/// "25 a wrong timestamp, which drops the gathering"; "26 [...], which drops
/// any gathering", also one on another channel.
#[test]
fn by_25_and_26() {
    drops(SECOND, 25);
    drops(FIRST.replace("8503", "85C0").as_str(), 25);
    for channel in ["8503", "8603"] {
        let mut host = gathering();
        host.assembly.truncate(12);
        let long = format!("0015{channel} 00000000 00000001 {}", "00".repeat(9));
        assert_eq!(host.number(&octets(&long)), 26);
        assert_eq!(host.receiver.gathering(), None);
        holds(&host, TWO);
    }
    // The routing of a first fragment that 26 refuses takes no hold.
    let mut host = gathering();
    host.assembly.truncate(11);
    let routed = "0020C703 00000000 02010102 42004210 527E0000 00000000 0000000000000000";
    assert_eq!(host.number(&octets(routed)), 26);
    assert_eq!(numbers(&mut host, &["00098700 00000000 FF", LAST]), [0, 24]);
}

/// "A first fragment accepted in mode 2 [...] drops what was gathered", on
/// any channel; its own octets are written and those behind stay.
#[test]
fn by_another_first() {
    let again = "000C8503 000000C8 00000007";
    for (first, channel) in [
        (again.to_string(), 5),
        (again.replace("8503", "8603"), 6),
        (
            "0018C503 000000C8 02010102 42004210 527E0000 00000007".into(),
            5,
        ),
        (
            "0018C603 000000C8 02010102 42004210 527E0000 00000007".into(),
            6,
        ),
        (
            "0018C703 000000C8 02010102 42004210 527E0000 00000007".into(),
            7,
        ),
    ] {
        let mut host = gathering();
        assert_eq!(host.number(&octets(&first)), 0, "{first}");
        let now = host.receiver.gathering().unwrap();
        assert_eq!((now.channel, now.octets), (channel, 4));
        assert_eq!((now.timestamp, now.sequel), (0xC8, 1));
        holds(&host, "00000007 010200 0304FF 05");
        let old = host.number(&octets(LAST));
        assert_eq!(old, if channel == 5 { 25 } else { 24 }, "{first}");
        let last = format!("000E{:02X}C0 000000C9 010203 040506", 0xC0 + channel);
        let now = host.number(&octets(&last));
        assert_eq!(now, if channel == 5 { 24 } else { 0 }, "{first}");
    }
}

/// A first fragment with Close is accepted and its octets are written; Close
/// "acts after the message" and drops what it began.
#[test]
fn first_with_close() {
    for (first, channel) in [
        ("0010C503 000000C8 00020000 00000007", 5),
        ("0010C603 000000C8 00020000 00000007", 6),
        ("0018C503 000000C8 02030102 42004210 527E0000 00000007", 5),
        ("0018C903 000000C8 02030102 42004210 527E0000 00000007", 9),
    ] {
        let mut host = gathering();
        let reply = host.offer(&octets(first));
        assert_eq!((reply.number, reply.channel, reply.kind), (0, channel, 3));
        assert_eq!(host.receiver.gathering(), None);
        holds(&host, "00000007 010200 0304FF 05");
        let void = format!("0008{:02X}0000000000", 0x80 + channel);
        assert_eq!(host.number(&octets(&void)), 16);
        let refused = if channel == 5 { 16 } else { 24 };
        assert_eq!(host.number(&octets(LAST)), refused);
        assert_eq!(host.receiver.readings(), [0; 3]);
    }
}

/// Refused messages leave the gathering alone, also those on its channel that
/// carry Routing or Close.
#[test]
fn kept_by_refusals() {
    for (number, message) in [
        (2, "0009850000000000"),
        (3, "0008050000000000"),
        (4, "0008850400000000"),
        (5, "000BC500 00000000 000000"),
        (6, "000CC500 00000000 00010107"),
        (7, "000CC500 00000000 00010202"),
        (9, "0014C500 00000000 02010102 42001000 527E0000"),
        (12, "000CC500 00000000 00010102"),
        (15, "0014C500 00000000 02010001 42004210 527E0000"),
        (17, "0010C502 00000000 00010004 00000000"),
        (17, "0010C501 00000000 00020000 00000000"),
        (18, "000DC500 00000000 00020000 00"),
        (18, "000B8503 00000000 000000"),
        (18, "0017C503 00000000 02010102 42004210 527E0000 000000"),
        (
            20,
            "001BC502 00000000 02030102 42004210 527E0000 00000000 000000",
        ),
    ] {
        keeps(message, number);
    }
    // 26 points where the rows hold 25.
    let long = format!("005A8502 00000000 00000000 {}", "00".repeat(78));
    keeps(&long, 22);
}

/// Accepted messages on its channel without Routing and Close leave the
/// gathering alone, a whole frame among them.
#[test]
fn kept_on_its_channel() {
    keeps(VOID, 0);
    keeps("00128502 00000000 00000001 000000 000001", 0);
    keeps("000C8502 00000000 00000001", 0);
    keeps("0016C502 00000000 08000000 00000001 000000 000000", 0);
}

/// Messages on other channels leave the gathering alone, those with Routing
/// or Close and refusals by 19 among them.
#[test]
fn kept_elsewhere() {
    for (number, message) in [
        (0, OPEN_6),
        (0, "0014C900 00000000 02010102 42004210 527E0000"),
        (0, "000CC600 00000000 00020000"),
        (19, "000C8602 00000000 10000000"),
        (19, "000C8603 00000000 10000000"),
        (0, "00128602 00000000 00000001 000000 000000"),
        (24, "000A86C0 00000066 0600"),
        (24, "000AC6C0 00000066 0600"),
        (24, "000AC8C0 00000066 0600"),
        (16, "000AC9C0 00000066 0600"),
        (16, "000C8903 00000066 00000000"),
        (17, "000C8803 00000066 00000000"),
        (18, "000B8603 00000066 000000"),
    ] {
        keeps(message, number);
    }
}

/// "in mode 0 they are accepted, past 24 to 26, and ignored": of any length,
/// with any timestamp, whatever is lent, and beside a gathering elsewhere.
#[test]
fn mode_0() {
    for message in [
        "00088703 00000000",
        "000C8703 00000066 30000000",
        "0010C703 00000066 00010000 00000000",
        "0010C603 00000066 00010000 00000000",
        "0010C703 00000066 00020000 00000000",
        "000887C0 00000000",
        "000AC7C0 00000066 0600",
    ] {
        keeps(message, 0);
        let mut host = opened();
        host.assembly.clear();
        assert_eq!(host.number(&octets(OPEN_7)), 0);
        let reply = host.offer(&octets(message));
        let octets = octets(message);
        assert_eq!((reply.number, reply.kind), (0, octets[3]));
        assert_eq!(reply.timestamp.to_be_bytes(), octets[4..8]);
        assert_eq!((reply.points, reply.space), (0, 0));
        assert_eq!(host.receiver.gathering(), None);
        assert_eq!(host.receiver.readings(), [0; 3]);
    }
}
