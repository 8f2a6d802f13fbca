//! Request C-14 where a frame is being gathered: request C-12, "on that channel
//! an accepted routing or close [...] drops what was gathered", worked out by
//! hand. The frame is on channel 5.

use crate::fragment_edges::{holds, kept, numbers, opened, FIRST, LAST, OPEN, SECOND, VOID, WHOLE};
use crate::receiver_table::Host;
use crate::set_edges::patch;
use crate::table::octets;

const OPEN_6: &str = "0014C600 00000000 02010102 42004210 527E0000";
const CLOSE_5: &str = "000CC500 00000000 00020000";
const CLOSE_6: &str = "000CC600 00000000 00020000";
const AND_CLOSE_5: &str = "0014C500 00000000 02030102 42004210 527E0000";
const TO_MODE_0: &str = "000CC500 00000000 00010000";

/// The octets of the first fragment and the second.
const TWO: &str = "00000064 010200 0304FF 05";

/// A host that gathers on channel 5, channel 6 open beside it.
fn gathering() -> Host {
    let mut host = opened();
    assert_eq!(numbers(&mut host, &[OPEN_6, FIRST, SECOND]), [0; 3]);
    host
}

/// An accepted set drops the frame; "dropping writes no octet".
#[test]
fn dropped() {
    for (messages, last) in [
        (vec![OPEN], 24),
        (vec![CLOSE_5], 16),
        (vec![AND_CLOSE_5], 16),
        (vec![VOID, OPEN, VOID], 24),
        (vec![OPEN_6, OPEN], 24),
        (vec![CLOSE_5, OPEN], 24),
        (vec![TO_MODE_0], 0),
        (vec![TO_MODE_0, OPEN], 24),
    ] {
        let mut host = gathering();
        assert_eq!(patch(&mut host, &messages), (messages.len(), 0));
        assert_eq!(host.receiver.gathering(), None, "{messages:?}");
        holds(&host, TWO);
        assert_eq!(host.number(&octets(LAST)), last, "{messages:?}");
        holds(&host, TWO);
        assert_eq!(host.receiver.readings(), [0; 3]);
    }
}

/// The frame comes to its end behind the set.
fn goes_on(host: &mut Host, messages: &[&str]) {
    assert_eq!(host.receiver.gathering(), kept(11, 2), "{messages:?}");
    holds(host, TWO);
    let last = host.offer(&octets(LAST));
    let shown = (last.number, last.points, last.lit_points);
    assert_eq!(shown, (0, 3, 1), "{messages:?}");
    holds(host, WHOLE);
    assert_eq!(host.receiver.readings(), [100, 3, 1]);
}

/// An accepted set that neither routes nor closes channel 5 leaves the frame.
#[test]
fn kept_by_accepted_sets() {
    for messages in [
        vec![],
        vec![VOID],
        vec!["000CC500 00000000 08000000"],
        vec![OPEN_6, CLOSE_6],
        vec![CLOSE_6, VOID, OPEN_6, VOID],
    ] {
        let mut host = gathering();
        assert_eq!(patch(&mut host, &messages), (messages.len(), 0));
        goes_on(&mut host, &messages);
    }
}

/// A refused one leaves it, whatever its messages before the wrong one are.
#[test]
fn kept_by_refused_sets() {
    for (messages, reply) in [
        (vec![OPEN, "00"], (1, 2)),
        (vec![CLOSE_5, VOID], (1, 16)),
        (vec![AND_CLOSE_5, VOID], (1, 16)),
        (vec![TO_MODE_0, "000CC500 00000000 00010007"], (1, 6)),
        (vec![VOID, OPEN, VOID, SECOND], (3, 4)),
        (vec![FIRST], (0, 4)),
        (vec![VOID, "000C8502 00000000 10000000"], (1, 4)),
        (vec![OPEN, "000C8503 00000000 20000000"], (1, 4)),
    ] {
        let mut host = gathering();
        assert_eq!(patch(&mut host, &messages), reply, "{messages:?}");
        goes_on(&mut host, &messages);
    }
}

/// No slice is lent with a set, so one that comes between fragments changes no
/// length and the next sequel is gathered behind those before.
#[test]
fn between_fragments() {
    let mut host = opened();
    assert_eq!(host.number(&octets(FIRST)), 0);
    assert_eq!(patch(&mut host, &[VOID, OPEN_6]), (2, 0));
    assert_eq!(host.number(&octets(SECOND)), 0);
    assert_eq!(patch(&mut host, &[OPEN, VOID, "0000"]), (2, 2));
    goes_on(&mut host, &[]);
}
