//! Request C-13: "histories are metered under the new order". Lists worked out
//! by hand, for the look-back rule and the receiver.

use crate::fragment_edges::{FIRST, LAST, OPEN, SECOND};
use crate::fragment_list::readings;
use crate::message::{FRAME, VOID, WAVE};
use crate::receiver::LIMIT;
use crate::two_checks::{asks, wave, HOLD, ROUTING};

/// A frame of two points, one of them lit, and 10 microseconds on channel 5.
const FRAME_5: &str = "00128502 00000000 0000000A 000000 000001";

/// A channel asks for mode 1 by SDM 1, with a wave of these flags.
fn asks_with(channel: u8, flags: u8) -> String {
    asks(channel, WAVE, ROUTING, &wave(flags))
}

/// Such a wave without Routing, with SCM 1.
fn drawn(channel: u8) -> String {
    format!("0048{:02X}01 00000000 {}", 0x80 + channel, wave(0x10))
}

/// Channel 0 has mode 1, and channel 1 mode 2. A player asks for mode 1
/// on channel 1 with SCM 0 and SDM 1: by 19 its channel is closed and the
/// frame behind is not drawn. 15, 17 and 18 leave the channel in mode 2.
#[test]
fn mismatch_while_held() {
    let open_1 = OPEN.replace("C500", "C100");
    let frame_1 = FRAME_5.replace("8502", "8102");
    let right_0 = asks_with(0, 0x10);
    let [right_1, wrong_1] = [0x10, 0x00].map(|flags| asks_with(1, flags));
    let list = [
        (0, right_0.as_str()),
        (0, &open_1),
        (0, &frame_1),
        (19, &wrong_1),
        (16, &frame_1),
        (0, &drawn(0)),
        (15, &right_1),
        (16, &frame_1),
        (0, &open_1),
        (15, &right_1),
        (0, &frame_1),
        (17, &asks(1, FRAME, ROUTING, &wave(0x10))),
        (18, &asks(1, WAVE, ROUTING, "100000")),
        (0, &frame_1),
    ];
    // Two waves of 20 lit points and 100 microseconds, three frames of 2
    // points, 1 of them lit, and 10 microseconds.
    assert_eq!(readings([5, 6, 7], 0, &list), [235, 52, 50]);
}

/// Channel 0 has mode 1, then channel 1, then channel 0 again. A 19 closes the
/// channel of its own message, be it the one that has mode 1 or another.
#[test]
fn mode_1_on_another_channel() {
    let [right_0, wrong_0] = [0x10, 0x30].map(|flags| asks_with(0, flags));
    let [right_1, wrong_1] = [0x10, 0x00].map(|flags| asks_with(1, flags));
    let list = [
        (0, right_0.as_str()),
        (15, &right_1),
        (0, "000CC000 00000000 00020000"),
        (0, &right_1),
        (19, &wrong_0),
        (16, &drawn(0)),
        (0, &drawn(1)),
        (15, &right_0),
        (19, &wrong_1),
        (16, &drawn(1)),
        (0, &right_0),
    ];
    // Four waves of 20 lit points and 100 microseconds.
    assert_eq!(readings([0; 3], 0, &list), [400, 80, 80]);
}

/// A frame in fragments on channel 5, of 100 microseconds and 3 points, 1 of
/// them lit: dropped by a 19 on its channel, kept by the others.
#[test]
fn split_frames() {
    let [right, wrong] = [0x10, 0x30].map(|flags| asks_with(5, flags));
    let [void, with_data] = ["", "10"].map(|data| asks(5, VOID, ROUTING, data));
    let frame = asks(5, FRAME, ROUTING, &wave(0x30));
    let wrong_6 = asks_with(6, 0x30);
    let list = [
        (0, HOLD),
        (0, OPEN),
        (0, FIRST),
        (15, &right),
        (17, &frame),
        (0, SECOND),
        (18, &with_data),
        (15, &void),
        (0, LAST),
        // 19, before the second fragment and before the last.
        (0, FIRST),
        (19, &wrong),
        (16, SECOND),
        (0, OPEN),
        (24, SECOND),
        (0, FIRST),
        (0, SECOND),
        (19, &wrong),
        (16, LAST),
        (0, OPEN),
        (24, LAST),
        // 19 on another channel, closed before, and in mode 2 before.
        (0, FIRST),
        (19, &wrong_6),
        (0, SECOND),
        (0, "0014C600 00000000 02010102 42004210 527E0000"),
        (19, &wrong_6),
        (16, "0008860000000000"),
        (0, LAST),
    ];
    assert_eq!(readings([0; 3], 64, &list), [200, 6, 2]);
}

/// The lit microseconds and the lit points come to their limits with the
/// first wave. 23 stands behind 15, and 16 before it once 19 closed the
/// channel; what is dark is drawn.
#[test]
fn near_the_limits() {
    let right_8 = asks_with(8, 0x10);
    let [right, wrong] = [0x10, 0x20].map(|flags| asks_with(5, flags));
    let dark = "00128502 00000000 0000000A 000000 000000";
    let list = [
        (0, right_8.as_str()),
        (0, OPEN),
        (23, FRAME_5),
        (15, &right),
        (23, FRAME_5),
        (0, dark),
        (19, &wrong),
        (16, FRAME_5),
        (16, dark),
        (0, OPEN),
        (0, dark),
        (0, "000CC800 00000000 00020000"),
        (23, &right),
        (0, dark),
    ];
    let start = [LIMIT - 100, LIMIT - 27, LIMIT - 20];
    assert_eq!(readings(start, 0, &list), [LIMIT, LIMIT - 1, LIMIT]);
}
