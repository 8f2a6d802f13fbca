//! Request C-12: "Where the host lends the assembly slice unaltered and at one
//! length for as long as a frame is gathered, demand 3 holds with split frames
//! too: the meters count each at its accepted last fragment." Lists worked out
//! by hand, for the look-back rule and the receiver.

use crate::chunk::Lent;
use crate::fragment_edges::{FIRST, LAST, OPEN, SECOND, VOID};
use crate::lookback::{sums, verdicts, Offered};
use crate::receiver::{Receiver, LIMIT};
use crate::table::octets;

/// A message and the number that it has.
type Line<'a> = (u32, &'a str);

/// Offers a list with slices of one length, rows for 20 points among them, and
/// gives the last readings. Both the rule and the receiver must have the
/// numbers and the same sums after each message.
pub fn readings(start: [u64; 3], assembly: usize, list: &[Line]) -> [u64; 3] {
    let messages: Vec<Vec<u8>> = list.iter().map(|(_, text)| octets(text)).collect();
    let lent = Lent {
        rows: 480,
        levels: 1_024,
        assembly,
    };
    let offer = |octets| Offered { octets, lent };
    let offered: Vec<Offered> = messages.iter().map(|octets| offer(octets)).collect();
    let verdicts = verdicts(start, &offered);
    let (mut receiver, _) = Receiver::start(start[0], start[1], start[2]);
    let (mut rows, mut levels) = ([0; 480], [0; 1_024]);
    let mut slice = vec![0; assembly];
    for (place, (number, text)) in list.iter().enumerate() {
        let reply = receiver.message(&messages[place], &mut rows, &mut levels, &mut slice);
        assert_eq!(reply.number, *number, "{place}: {text}");
        assert_eq!(
            verdicts[place].number, *number,
            "look-back, {place}: {text}"
        );
        assert_eq!(receiver.readings(), sums(start, &verdicts[..=place]));
    }
    receiver.readings()
}

const OPEN_6: &str = "0014C600 00000000 02010102 42004210 527E0000";
const OPEN_7: &str = "000CC700 00000000 00010000";

/// A frame of two points and one microsecond on channel 6, in two fragments.
const FIRST_6: &str = "000D8603 00000010 00000001 01";
const LAST_6: &str = "000DC6C0 00000011 02 FF 0304FF";

/// Split frames on two channels, with whole ones and refused ones between.
#[test]
fn two_channels() {
    let list = [
        (16, SECOND),
        (0, OPEN),
        (0, OPEN_6),
        (24, SECOND),
        (0, FIRST),
        (24, LAST_6),
        (0, SECOND),
        (20, "000F8502 00000000 00000001 000000"),
        (0, "00128502 00000000 00000005 000000 000001"),
        (0, LAST),
        (24, LAST),
        // Channel 6 drops what channel 5 gathers.
        (0, FIRST),
        (0, FIRST_6),
        (24, SECOND),
        (0, LAST_6),
        (24, SECOND),
        // One with no sequel, then the same again whole.
        (0, FIRST),
        (0, FIRST),
        (0, SECOND),
        (0, LAST),
    ];
    // 5, 100, 1 and 100 microseconds; points 2, 3, 2, 3; lit 1, 1, 1, 1.
    assert_eq!(readings([7, 8, 9], 13, &list), [213, 18, 13]);
}

/// Everything that drops a gathering.
#[test]
fn drops() {
    let long = "00188503 00000000 00000001 000000000000000000000000";
    let mut list = vec![(0, OPEN_6), (0, OPEN_7)];
    for (number, message, after) in [
        (0, OPEN, 24),
        (0, "000CC500 00000000 00020000", 16),
        (0, "0010C503 00000064 00020000 00000000", 16),
        (19, "000C8502 00000000 10000000", 16),
        (25, SECOND, 24),
        (26, long, 24),
        (26, "000D85C0 00000066 0102030405", 24),
        (20, "0008C5C0 00000066", 24),
        (0, FIRST_6, 24),
        (0, "0010C603 00000064 00020000 00000000", 24),
    ] {
        let opened = [(0, OPEN), (0, OPEN_6), (0, FIRST), (0, SECOND)];
        list.extend(opened);
        list.extend([(number, message), (after, LAST)]);
    }
    assert_eq!(readings([0; 3], 15, &list), [0; 3]);
}

/// What leaves the gathering alone, fragments in mode 0 and other channels'
/// routings, closes and refusals by 19 among them. Each is offered after the
/// first fragment and after the second.
#[test]
fn keeps() {
    let mut list = vec![(0, OPEN), (0, OPEN_7)];
    let between = [
        (0, 0, VOID),
        (0, 0, "00088703 00000000"),
        (0, 0, "0010C703 00000066 00010000 00000000"),
        (0, 0, "0008C7C0 00000000"),
        (0, 0, OPEN_6),
        (24, 24, LAST_6),
        (0, 16, "000CC600 00000000 00020000"),
        (16, 16, LAST_6),
        (0, 0, OPEN_6),
        (19, 16, "000C8602 00000000 10000000"),
        (6, 6, "000CC500 00000000 00010107"),
        (18, 18, "000B8503 00000000 000000"),
        (2, 2, "0009850000000000"),
    ];
    for (once, again, message) in between {
        list.extend([(0, FIRST), (once, message)]);
        list.extend([(0, SECOND), (again, message), (0, LAST)]);
    }
    assert_eq!(readings([0; 3], 64, &list), [1_300, 39, 13]);
}

/// Fragments in mode 0 are no part of a frame on the same channel: a routing
/// stands between.
#[test]
fn mode_0_before() {
    let to_mode_0 = "0010C503 00000064 00010000 00000000";
    let list = [
        (0, to_mode_0),
        (0, "000A85C0 00000065 0000"),
        (0, OPEN),
        (24, "000A85C0 00000066 0000"),
        (0, FIRST),
        (0, to_mode_0),
        (0, SECOND),
        (0, OPEN),
        (24, LAST),
    ];
    assert_eq!(readings([0; 3], 64, &list), [0; 3]);
}

/// Timestamps that wrap, and sequels without octets.
#[test]
fn wrapping_timestamps() {
    let list = [
        (0, OPEN),
        (0, "000C8503 FFFFFFFE 0000000A"),
        (0, "000885C0 FFFFFFFF"),
        (0, "000E85C0 00000000 000000000000"),
        (0, "000885C0 00000001"),
        (0, "000BC5C0 00000002 000001"),
        (0, "000C8503 FFFFFFFF 0000000A"),
        (25, "0008C5C0 00000001"),
        (0, "000C8503 FFFFFFFF 0000000A"),
        (25, "0008C5C0 FFFFFFFF"),
        (24, "0008C5C0 00000000"),
    ];
    assert_eq!(readings([0; 3], 13, &list), [10, 3, 1]);
}

/// The running sums decide 23 at the last fragment; a frame refused there
/// counts nothing and can be sent again.
#[test]
fn near_the_limits() {
    let start = [LIMIT - 250, LIMIT - 8, 0];
    let split = [(0, FIRST), (0, SECOND), (0, LAST)];
    let mut list = vec![(0, OPEN)];
    list.extend(split);
    // Leaves 5 points and 150 microseconds, then 3 and 150.
    list.extend([(0, FIRST), (0, "00128502 00000000 000000FF 000001 000000")]);
    list.extend([(0, SECOND), (0, LAST)]);
    list.extend([(0, FIRST), (0, SECOND), (23, LAST), (24, LAST)]);
    assert_eq!(readings(start, 13, &list), [LIMIT - 50, LIMIT, 2]);
}
