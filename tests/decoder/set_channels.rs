//! Request C-14: "All are accepted or none is, with the channels that offering
//! them one by one would leave." Messages of a set that depend on earlier ones
//! of it, worked out by hand.

use crate::fragment_edges::{opened, OPEN, VOID};
use crate::receiver::{Receiver, LIMIT};
use crate::receiver_table::Host;
use crate::set_edges::{patch, patch_octets};
use crate::table::octets;
use crate::two_checks::HOLD;

/// Channel 5 asks for mode 1, which HOLD gives to channel 8.
const WAVE_5: &str = "0014C500 00000000 02010001 42004210 527E0000";
const CLOSE_8: &str = "000CC800 00000000 00020000";
const CLOSE_5: &str = "000CC500 00000000 00020000";

/// Channel 8 to mode 2, and to mode 1 with Close.
const FRAMES_8: &str = "0014C800 00000000 02010102 42004210 527E0000";
const AND_CLOSE_8: &str = "0014C800 00000000 02030001 42004210 527E0000";

/// A host whose channel 8 has mode 1.
fn holding() -> Host {
    let mut host = Host::new();
    assert_eq!(host.number(&octets(HOLD)), 0);
    host
}

/// "With Routing to mode 1, another open channel has mode 1", opened by an
/// earlier message of the same set.
#[test]
fn fifteen_against_the_set() {
    assert_eq!(patch(&mut Host::new(), &[HOLD, WAVE_5]), (1, 15));
    assert_eq!(patch(&mut Host::new(), &[WAVE_5, OPEN, HOLD]), (3, 0));
    assert_eq!(patch(&mut Host::new(), &[OPEN, HOLD, WAVE_5]), (2, 15));
    assert_eq!(patch(&mut Host::new(), &[HOLD, HOLD]), (2, 0));
    assert_eq!(patch(&mut holding(), &[OPEN, WAVE_5]), (1, 15));
    // Neither of the two holds mode 1 after a refusal.
    let mut host = Host::new();
    assert_eq!(patch(&mut host, &[HOLD, WAVE_5]), (1, 15));
    assert_eq!(patch(&mut host, &[WAVE_5]), (1, 0));
}

/// No 15 where an earlier message of the set closed the channel that had mode
/// 1, or routed it elsewhere; behind it, that comes too late.
#[test]
fn fifteen_avoided() {
    for release in [CLOSE_8, FRAMES_8, AND_CLOSE_8] {
        assert_eq!(patch(&mut holding(), &[release, WAVE_5]), (2, 0));
        assert_eq!(patch(&mut Host::new(), &[HOLD, release, WAVE_5]), (3, 0));
        assert_eq!(patch(&mut holding(), &[WAVE_5, release]), (0, 15));
        assert_eq!(patch(&mut holding(), &[release, WAVE_5, HOLD]), (2, 15));
        // A refused set releases nothing.
        let mut host = holding();
        assert_eq!(patch(&mut host, &[release, "00"]), (1, 2));
        assert_eq!(patch(&mut host, &[WAVE_5]), (0, 15));
    }
    // A routing with Close holds nothing afterwards.
    assert_eq!(patch(&mut Host::new(), &[AND_CLOSE_8, WAVE_5]), (2, 0));
}

/// "Without Routing, the channel is closed", unless an earlier message of the
/// set opened it. Keep-alive messages are of type 0x00 too (003, 2.1).
#[test]
fn sixteen() {
    let header_alone = "000CC500 00000000 FF080907";
    for message in [VOID, header_alone, CLOSE_5] {
        assert_eq!(patch(&mut Host::new(), &[message]), (0, 16));
        assert_eq!(patch(&mut Host::new(), &[OPEN, message]), (2, 0));
        assert_eq!(patch(&mut opened(), &[message]), (1, 0));
        assert_eq!(patch(&mut opened(), &[CLOSE_5, message]), (1, 16));
        assert_eq!(patch(&mut Host::new(), &[OPEN, CLOSE_5, message]), (2, 16));
        assert_eq!(patch(&mut opened(), &[CLOSE_5, OPEN, message]), (3, 0));
    }
    // A refused set opens nothing.
    let mut host = Host::new();
    assert_eq!(patch(&mut host, &[OPEN, VOID, HOLD, WAVE_5]), (3, 15));
    assert_eq!(patch(&mut host, &[VOID]), (0, 16));
}

/// "Close acts after the message", in a set too.
#[test]
fn closing() {
    let mut host = opened();
    assert_eq!(patch(&mut host, &[HOLD, VOID, CLOSE_5]), (3, 0));
    assert_eq!(host.number(&octets(VOID)), 16);
    assert_eq!(host.number(&octets("0008880000000000")), 0);
    let with_close = OPEN.replace("02010102", "02030102");
    assert_eq!(patch(&mut host, &[OPEN, &with_close]), (2, 0));
    assert_eq!(host.number(&octets(VOID)), 16);
    assert_eq!(patch(&mut host, &[&with_close, VOID]), (1, 16));
}

/// "Routing an open channel replaces its configuration": the last routing of a
/// channel governs it.
#[test]
fn routed_twice() {
    // With the space modifier 1155, SDM 1 and four octets a sample; to mode 0.
    let wide = "0018C500 00000000 03110102 11554200 42104220 527E0000";
    let to_mode_0 = "000CC500 00000000 00010000";
    let narrow_frame = "00128502 00000000 00000005 000000 000001";
    let wide_frame = "00148502 00000000 10000005 00000000 00000001";
    for (messages, frame, space) in [
        ([OPEN, wide], wide_frame, 0x1155),
        ([wide, OPEN], narrow_frame, 0),
        ([to_mode_0, OPEN], narrow_frame, 0),
    ] {
        let mut host = opened();
        assert_eq!(patch(&mut host, &messages), (2, 0));
        let reply = host.offer(&octets(frame));
        let shown = (reply.number, reply.points, reply.lit_points, reply.space);
        assert_eq!(shown, (0, 2, 1, space), "{messages:?}");
    }
    let mut host = opened();
    assert_eq!(patch(&mut host, &[wide, to_mode_0]), (2, 0));
    let reply = host.offer(&octets(wide_frame));
    assert_eq!((reply.number, reply.points), (0, 0));
    // A refused set replaces nothing.
    let mut host = opened();
    assert_eq!(patch(&mut host, &[wide, to_mode_0, "0000"]), (2, 2));
    assert_eq!(host.offer(&octets(narrow_frame)).points, 2);
}

/// "Mode 0 skips 8 to 14 and 17 to 22": words and data of a Void chunk are
/// ignored in it.
#[test]
fn mode_0() {
    let routed = "0016C700 00000000 02010200 FFFF0000 42004010 FFFF";
    let plain = "000A8700 00000000 FFFF";
    let mut host = Host::new();
    assert_eq!(patch(&mut host, &[routed, plain, plain]), (3, 0));
    assert_eq!(patch(&mut host, &[plain]), (1, 0));
}

/// A Void chunk adds nothing, so no meter passes its limit.
#[test]
fn meters_at_their_limit() {
    let (mut receiver, _) = Receiver::start(LIMIT, LIMIT, LIMIT);
    let messages = [HOLD, OPEN, VOID, CLOSE_5].map(octets);
    assert_eq!(patch_octets(&mut receiver, &messages), (4, 0));
    let wrong = [OPEN, VOID, WAVE_5].map(octets);
    assert_eq!(patch_octets(&mut receiver, &wrong), (2, 15));
    assert_eq!(receiver.readings(), [LIMIT; 3]);
}
