//! Request C-14: which number refuses a message of a set. The order of checks
//! is that of document 01 with request C-13, worked out by hand.

use crate::fragment_edges::{opened, OPEN, VOID};
use crate::receiver_table::Host;
use crate::set_edges::{patch, Placed};
use crate::two_checks::HOLD;

/// Opens channel 7 in mode 0, in which every type is accepted.
const OPEN_7: &str = "000CC700 00000000 00010000";

/// "A message of another type is refused by 4": those that check 4 lets in
/// elsewhere, and unknown ones.
const OTHERS: [u8; 11] = [
    0x01, 0x02, 0x03, 0x18, 0xC0, 0x04, 0x10, 0x19, 0x80, 0xC1, 0xFF,
];

/// The message alone, behind one and between others, which are accepted.
fn refused(message: &str, number: u32) {
    let reply = |host: Host, messages: &[&str]| -> Placed {
        let mut host = host;
        patch(&mut host, messages)
    };
    assert_eq!(reply(opened(), &[message]), (0, number), "{message}");
    assert_eq!(reply(Host::new(), &[OPEN, message]), (1, number));
    let five = [VOID, OPEN_7, message, VOID, OPEN_7];
    assert_eq!(reply(opened(), &five), (2, number), "{message}");
}

/// Messages that would be accepted one by one but for their type.
#[test]
fn other_types() {
    let mut host = Host::new();
    assert_eq!(patch(&mut host, &[OPEN_7]), (1, 0));
    for kind in OTHERS {
        let plain = format!("000887{kind:02X} 00000000");
        let set = [OPEN_7, &plain, OPEN];
        assert_eq!(patch(&mut host, &set), (1, 4), "{kind:02X}");
        let routed = format!("000CC7{kind:02X} 00000000 00010000");
        assert_eq!(patch(&mut host, &[&routed]), (0, 4), "{kind:02X}");
    }
    let frame = "00128502 00000000 00000005 000000 000001";
    refused(frame, 4);
    let mut host = opened();
    assert_eq!(patch(&mut host, &[VOID, frame]), (1, 4));
    assert_eq!(host.receiver.readings(), [0; 3]);
}

/// 3 stands before 4, and 4 before all others.
#[test]
fn around_4() {
    for kind in OTHERS {
        for (number, message) in [
            // The top bit is 0.
            (3, format!("000805{kind:02X} 00000000")),
            // The configuration header, or its words, pass the end.
            (4, format!("0008C5{kind:02X} 00000000")),
            (4, format!("000CC5{kind:02X} 00000000 01010102")),
            // Unknown mode, service that does not go, no dictionary.
            (4, format!("000CC5{kind:02X} 00000000 00010007")),
            (4, format!("000CC5{kind:02X} 00000000 00010202")),
            (4, format!("000CC5{kind:02X} 00000000 00010102")),
            // A closed channel.
            (4, format!("000889{kind:02X} 00000000")),
            // Under 4 octets, and SCM 1 where SDM is 0.
            (4, format!("000B85{kind:02X} 00000000 000000")),
            (4, format!("000C85{kind:02X} 00000000 10000000")),
        ] {
            refused(&message, number);
        }
    }
}

/// A refusal by 19 would close the channel; in a set there is none.
#[test]
fn never_19() {
    let mut host = opened();
    let mismatch = "000C8502 00000000 10000000";
    assert_eq!(patch(&mut host, &[VOID, mismatch]), (1, 4));
    assert_eq!(patch(&mut host, &[VOID]), (1, 0));
}

/// Each number that type 0x00 can be refused by, on a host whose channel 5 is
/// open; where more than one check applies, the earlier.
const OF_TYPE_0: [(u32, &str); 30] = [
    (3, "0008050000000000"),
    // 3 before 5.
    (3, "0008450000000000"),
    (5, "0008C50000000000"),
    (5, "000BC50000000000 000101"),
    (5, "000CC50000000000 01010107"),
    (5, "0013C50000000000 02010102 42004210 527E00"),
    // 5 without Routing: the header alone is wanted.
    (5, "000BC50000000000 000000"),
    (6, "000CC500 00000000 00010003"),
    // 6 before 7.
    (6, "000CC500 00000000 00010905"),
    (7, "000CC500 00000000 00010301"),
    (7, "000CC500 00000000 00010106"),
    // 7 before 8.
    (7, "0010C500 00000000 01010202 30000000"),
    (8, "0010C500 00000000 01010102 30001000"),
    (9, "0010C500 00000000 01010102 10003000"),
    (9, "0014C500 00000000 02010102 42004210 527E4101"),
    (10, "0010C500 00000000 01010102 40101000"),
    (11, "0010C500 00000000 01010102 42004200"),
    (12, "0010C500 00000000 01010102 42004210"),
    (12, "000CC500 00000000 00010102"),
    (13, "0010C500 00000000 01010104 44000000"),
    (13, "0010C500 00000000 01010006 42000000"),
    (14, "0014C500 00000000 02010004 42000142 00020000"),
    // 14 before 18.
    (14, "0015C500 00000000 02010004 42000142 00020000 FF"),
    (16, "0008890000000000"),
    (16, "000CC90000000000 00000000"),
    (16, "000CC90000000000 00020000"),
    // 16 before 18.
    (16, "0009890000000000 FF"),
    (18, "0009850000000000 FF"),
    (18, "000DC50000000000 00020000 FF"),
    (18, "0015C500 00000000 02010102 42004210 527E0000 FF"),
];

#[test]
fn of_type_0() {
    for (number, message) in OF_TYPE_0 {
        refused(message, number);
    }
}

/// Request C-13: 18 before 15, also in a set; and 12 before both.
#[test]
fn eighteen_before_15() {
    let asks = "0014C900 00000000 02010001 42004210 527E0000";
    let with_data = "0015C900 00000000 02010001 42004210 527E0000 FF";
    let no_colour = "0010C900 00000000 01010001 42004210";
    for (number, message) in [(15, asks), (18, with_data), (12, no_colour)] {
        assert_eq!(patch(&mut Host::new(), &[HOLD, message]), (1, number));
        let mut host = opened();
        assert_eq!(patch(&mut host, &[HOLD]), (1, 0));
        assert_eq!(patch(&mut host, &[VOID, VOID, message]), (2, number));
    }
}

/// Two wrong ones: "the place of the first refused message".
#[test]
fn the_first_counts() {
    let wrong = [
        (2, "0007850000000000"),
        (3, "0008050000000000"),
        (4, "0008850200000000"),
        (6, "000CC500 00000000 00010003"),
        (16, "0008890000000000"),
        (18, "0009850000000000 FF"),
    ];
    for (number, first) in wrong {
        for (_, second) in wrong {
            let mut host = opened();
            let reply = patch(&mut host, &[VOID, first, second, VOID]);
            assert_eq!(reply, (1, number), "{first}, {second}");
            let reply = patch(&mut host, &[VOID, VOID, first, VOID, second]);
            assert_eq!(reply, (2, number), "{first}, {second}");
        }
        // A cut end behind it.
        let reply = patch(&mut opened(), &[first, "00"]);
        assert_eq!(reply, (0, number), "{first}");
    }
}
