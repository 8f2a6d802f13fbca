//! Request C-12, "Frames too long for one message": replies, rows, what is
//! gathered, and the numbers 24 and 25, worked out by hand.

use crate::gathering::Gathering;
use crate::listing::listing;
use crate::receiver::Reply;
use crate::receiver_table::Host;
use crate::table::octets;

/// A Void chunk that opens channel 5 in mode 2 with SDM 0 and samples of X, Y
/// and one colour.
pub const OPEN: &str = "0014C500 00000000 02010102 42004210 527E0000";

/// A frame of three points and 100 microseconds on channel 5, cut inside the
/// second and the third sample; the second point is lit.
pub const FIRST: &str = "00118503 00000064 00000064 010200 0304";
pub const SECOND: &str = "000A85C0 00000065 FF 05";
pub const LAST: &str = "000AC5C0 00000066 06 00";

/// The octets of that frame.
pub const WHOLE: &str = "00000064 010200 0304FF 050600";

/// A Void chunk on channel 5.
pub const VOID: &str = "0008850000000000";

/// A host whose channel 5 is open.
pub fn opened() -> Host {
    let mut host = Host::new();
    assert_eq!(host.number(&octets(OPEN)), 0);
    host
}

/// The numbers of messages offered in order.
pub fn numbers(host: &mut Host, messages: &[&str]) -> Vec<u32> {
    let offer = |message: &&str| host.number(&octets(message));
    messages.iter().map(offer).collect()
}

/// The assembly slice has these octets at its start and is as lent behind.
pub fn holds(host: &Host, text: &str) {
    let mut expected = vec![0xEE; host.assembly.len()];
    let written = octets(text);
    expected[..written.len()].copy_from_slice(&written);
    assert_eq!(host.assembly, expected);
}

/// What is kept of a frame on channel 5 whose first timestamp is 0x64.
pub fn kept(octets: usize, sequel: u32) -> Option<Gathering> {
    Some(Gathering {
        channel: 5,
        octets,
        timestamp: 0x64,
        sequel,
    })
}

/// The reply to an accepted fragment on channel 5 without points.
fn fragment(kind: u8, timestamp: u32) -> Reply {
    Reply {
        channel: 5,
        kind,
        timestamp,
        ..Reply::default()
    }
}

/// "One frame at a time is gathered, header first, at the start of a lent
/// assembly slice [...] After the last fragment the whole is checked by 20 to
/// 23 and drawn as 0x02".
#[test]
fn frame_in_three() {
    let mut host = opened();
    assert_eq!(host.receiver.gathering(), None);
    assert_eq!(host.offer(&octets(FIRST)), fragment(0x03, 0x64));
    holds(&host, "00000064 010200 0304");
    assert_eq!(host.receiver.gathering(), kept(9, 1));
    assert_eq!(host.offer(&octets(SECOND)), fragment(0xC0, 0x65));
    holds(&host, "00000064 010200 0304FF 05");
    assert_eq!(host.receiver.gathering(), kept(11, 2));
    assert_eq!(host.rows, [-7; 600]);
    assert_eq!(host.receiver.readings(), [0; 3]);
    let last = Reply {
        points: 3,
        lit_points: 1,
        ..fragment(0xC0, 0x66)
    };
    assert_eq!(host.offer(&octets(LAST)), last);
    holds(&host, WHOLE);
    assert_eq!(host.receiver.gathering(), None);
    let mut rows = vec![-7; 600];
    rows[..72].fill(0);
    rows[..6].copy_from_slice(&[256, 512, 0, 0, 0, 1]);
    rows[24..33].copy_from_slice(&[768, 1024, 0, 0, 0, 1, 0, 0, 65_280]);
    rows[48..54].copy_from_slice(&[1280, 1536, 0, 0, 0, 1]);
    (rows[16], rows[40], rows[64]) = (40_832, 40_832, 40_832);
    assert_eq!(host.rows, rows);
    assert_eq!(host.levels, [7; 1024]);
    assert_eq!(host.receiver.readings(), [100, 3, 1]);
    assert_eq!(
        listing(&[OPEN, FIRST, SECOND, LAST].map(octets).concat()),
        "5 0 0 0 0\n5 3 0 0 0\n5 192 0 0 0\n5 192 0 3 1\nmeters 100 3 1\n"
    );
}

/// "The first message carries the chunk header and may carry configuration,
/// which takes hold then". The space modifier is in force for every fragment.
#[test]
fn first_with_routing() {
    let first = "001DC503 FFFFFFFF 02110102 11554200 4210527E 1F000002 010203 0405";
    let mut host = Host::new();
    let reply = host.offer(&octets(first));
    let expected = Reply {
        space: 0x1155,
        ..fragment(0x03, u32::MAX)
    };
    assert_eq!(reply, expected);
    // A whole frame under the new configuration, while one is gathered.
    let reply = host.offer(&octets("00128502 00000000 10000001 000000 000001"));
    assert_eq!(
        (reply.number, reply.space, reply.lit_points),
        (0, 0x1155, 1)
    );
    holds(&host, "1F000002 010203 0405");
    // "wrapping at 32 bits".
    let reply = host.offer(&octets("0009C5C0 00000000 06"));
    let expected = Reply {
        space: 0x1155,
        points: 2,
        lit_points: 1,
        ..fragment(0xC0, 0)
    };
    assert_eq!(reply, expected);
    assert_eq!(host.receiver.readings(), [3, 4, 2]);
}

/// "The first message [...]; checks 17 to 19 run on it." A refused one writes
/// and begins nothing.
#[test]
fn checks_of_the_first() {
    let mut host = opened();
    assert_eq!(host.number(&octets("000B8503 00000000 300000")), 18);
    assert_eq!(host.number(&octets("00088503 00000000")), 18);
    assert_eq!(host.receiver.gathering(), None);
    // Three octets of data after a configuration header without Routing.
    assert_eq!(
        host.number(&octets("000FC503 00000000 00000000 000000")),
        18
    );
    assert_eq!(host.number(&octets("000BC503 00000000 000000")), 5);
    assert_eq!(host.number(&octets("000C8503 00000000 30000000")), 19);
    assert_eq!(host.number(&octets(VOID)), 16);
    assert_eq!(host.number(&octets(FIRST)), 16);
    holds(&host, "");
    // Modes 1, 4 and 6: "both go with mode 2"; 24 is tried before 17, and 17
    // passes a sequel by.
    for open in [
        "0014C500 00000000 02010001 42004210 527E0000",
        "000CC500 00000000 00010004",
        "000CC500 00000000 00010006",
    ] {
        let first = "000C8503 00000000 00000000";
        let numbers = numbers(&mut host, &[open, first, SECOND, LAST]);
        assert_eq!(numbers, [0, 17, 24, 24]);
    }
    holds(&host, "");
}

/// "Sequels carry bare octets from octet 8 [...]. A sequel never routes or
/// closes, and checks 5 and 17 to 19 pass it by."
#[test]
fn bare_octets() {
    let mut host = opened();
    // The octets would be a Close, a Routing to mode 7, and a cut header; one
    // octet of flags would be SCM 3, and a sequel may carry no octet at all.
    let messages = [
        "000C8503 00000000 00000009",
        "000E85C0 00000001 000200000000",
        "000F85C0 00000002 09010107000000",
        "000A85C0 00000003 3000",
        "000885C0 00000004",
        "000BC5C0 00000005 000201",
    ];
    assert_eq!(numbers(&mut host, &messages), [0; 6]);
    holds(&host, "00000009 000200000000 09010107000000 3000 000201");
    assert_eq!(host.number(&octets(VOID)), 0);
    // Of six points, the third and the last have a colour.
    assert_eq!(host.receiver.readings(), [9, 6, 2]);
    // The last one may have none either: a frame of no points.
    let messages = ["000C8503 00000007 00FFFFFF", "0008C5C0 00000008"];
    assert_eq!(numbers(&mut host, &messages), [0, 0]);
    assert_eq!(host.receiver.readings(), [9, 6, 2]);
}

/// "after 16, 24 a sequel with no gathering on its channel".
#[test]
fn sequels_without_a_first() {
    let mut host = Host::new();
    assert_eq!(host.number(&octets(SECOND)), 16);
    assert_eq!(host.number(&octets(OPEN)), 0);
    assert_eq!(numbers(&mut host, &[SECOND, LAST]), [24, 24]);
    // Gathered on channel 5; 6 is open and 7 is closed.
    let open_6 = OPEN.replace("C500", "C600");
    assert_eq!(numbers(&mut host, &[&open_6, FIRST]), [0, 0]);
    let [on_6, on_7] = ["86C0", "87C0"].map(|channel| SECOND.replace("85C0", channel));
    assert_eq!(numbers(&mut host, &[&on_6, &on_7]), [24, 16]);
    assert_eq!(
        numbers(&mut host, &[SECOND, LAST, LAST, SECOND]),
        [0, 0, 24, 24]
    );
    assert_eq!(host.receiver.readings(), [100, 3, 1]);
}

/// "25 a wrong timestamp, which drops the gathering": one too few, one too
/// many, far off, for each sequel. It is refused before the slice is too
/// short, and writes nothing.
#[test]
fn wrong_timestamps() {
    for (before, wrong) in [
        (vec![FIRST], ["00000064", "00000066", "80000065"]),
        (vec![FIRST, SECOND], ["00000065", "00000067", "00000064"]),
    ] {
        for timestamp in wrong {
            for kind in ["85C0", "C5C0"] {
                let mut host = opened();
                numbers(&mut host, &before);
                host.assembly.truncate(11);
                let text = host.assembly.clone();
                let sequel = format!("000A{kind}{timestamp}0600");
                assert_eq!(numbers(&mut host, &[&sequel, SECOND, LAST]), [25, 24, 24]);
                assert_eq!(host.assembly, text);
                assert_eq!(host.receiver.readings(), [0; 3]);
            }
        }
    }
}
