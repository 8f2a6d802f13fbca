//! Request C-14: where a set ends, what cannot be a message of it, and how
//! many there were, worked out by hand.

use crate::fragment_edges::{opened, OPEN, VOID};
use crate::message::MOST;
use crate::receiver::{Receiver, LIMIT};
use crate::receiver_table::Host;
use crate::set::SetReply;
use crate::table::octets;

/// Place and number of the reply to a set.
pub type Placed = (usize, u32);

/// Offers a set. "On refusal the record is as before"; an accepted one leaves
/// what its messages one by one leave.
pub fn patch_octets(receiver: &mut Receiver, messages: &[Vec<u8>]) -> Placed {
    let before = receiver.clone();
    let SetReply { place, number } = receiver.patch(&messages.concat());
    let mut expected = before;
    if number == 0 {
        assert_eq!(place, messages.len());
        for octets in messages {
            let reply = expected.message(octets, &mut [], &mut [], &mut []);
            assert_eq!(reply.number, 0);
        }
    }
    assert_eq!(*receiver, expected);
    (place, number)
}

/// The same, of messages in hexadecimal, to the receiver of a host. The slices
/// are not lent.
pub fn patch(host: &mut Host, messages: &[&str]) -> Placed {
    let messages: Vec<Vec<u8>> = messages.iter().map(|text| octets(text)).collect();
    patch_octets(&mut host.receiver, &messages)
}

/// To a receiver newly started.
fn fresh(messages: &[&str]) -> Placed {
    patch(&mut Host::new(), messages)
}

/// To one whose channel 5 is open, with keep-alive messages on it in front: the
/// place is one more for each of them.
fn behind(count: usize, messages: &[&str]) -> Placed {
    patch(&mut opened(), &[&vec![VOID; count], messages].concat())
}

/// "An empty list is accepted."
#[test]
fn empty_list() {
    assert_eq!(fresh(&[]), (0, 0));
    assert_eq!(patch(&mut opened(), &[]), (0, 0));
    let (mut full, _) = Receiver::start(LIMIT, LIMIT, LIMIT);
    assert_eq!(patch_octets(&mut full, &[]), (0, 0));
    assert_eq!(full.readings(), [LIMIT; 3]);
}

/// "a lone octet, by 2", at the place that its message would have.
#[test]
fn lone_octet() {
    for octet in ["00", "08", "FF"] {
        assert_eq!(fresh(&[octet]), (0, 2));
        assert_eq!(fresh(&[OPEN, octet]), (1, 2));
        assert_eq!(behind(1, &[octet]), (1, 2));
        assert_eq!(behind(200, &[octet]), (200, 2));
    }
}

/// "a size below 8", with as many octets as it says, with fewer and with more.
#[test]
fn size_below_8() {
    for size in 0..8 {
        for rest in [0, 1, 5, 6, 40] {
            let cut = format!("{size:04X}{}", "85".repeat(rest));
            assert_eq!(fresh(&[&cut]), (0, 2), "{cut}");
            assert_eq!(fresh(&[OPEN, &cut]), (1, 2), "{cut}");
            // What stands behind it is not read.
            assert_eq!(behind(2, &[&cut, VOID, VOID]), (2, 2), "{cut}");
        }
    }
}

/// A size "past the slice", by one octet and by many, also where fewer than 8
/// octets are left.
#[test]
fn size_past_the_slice() {
    let by_one = "0009850000000000";
    let cut_open = &OPEN[..OPEN.len() - 2];
    for cut in [
        by_one,
        cut_open,
        "0008",
        "000885",
        "00088500000000",
        "FFFF850000000000",
        "FF00C50000000000 00010000",
    ] {
        assert_eq!(fresh(&[cut]), (0, 2), "{cut}");
        assert_eq!(fresh(&[OPEN, cut]), (1, 2), "{cut}");
        assert_eq!(behind(3, &[cut]), (3, 2), "{cut}");
    }
    // 2 stands before 3 and 4.
    assert_eq!(fresh(&["0009050100000000"]), (0, 2));
}

/// A size that is within the slice takes in the message behind: as data of a
/// Void chunk it gives 18, and in mode 0 it is ignored.
#[test]
fn size_over_the_next() {
    let over = OPEN.replacen("0014", "001C", 1);
    assert_eq!(fresh(&[&over, VOID]), (0, 18));
    assert_eq!(fresh(&[&over, VOID, VOID]), (0, 18));
    let mut host = Host::new();
    let to_mode_0 = octets("0014C500 00000000 00010000 0008C900 00000000");
    assert_eq!(
        host.receiver.patch(&to_mode_0),
        SetReply {
            place: 1,
            number: 0
        }
    );
    // One octet too few for the header is 5; the lone octet behind it is not
    // come to.
    let short = octets("000BC500 00000000 00010000");
    assert_eq!(
        host.receiver.patch(&short),
        SetReply {
            place: 0,
            number: 5
        }
    );
}

/// A message of mode 0 with so many octets in all, the words and the data of
/// which are ignored.
fn long(length: usize) -> Vec<u8> {
    let mut message = octets("0000C700 00000000 00010000");
    message.resize(length, 0xA5);
    message[..2].copy_from_slice(&(length as u16).to_be_bytes());
    message
}

/// Check 2, "above 65,280", holds of each message, not of the whole set.
#[test]
fn sizes_above_the_most() {
    let reply = |messages: &[Vec<u8>]| patch_octets(&mut Host::new().receiver, messages);
    assert_eq!(reply(&[long(MOST)]), (1, 0));
    assert_eq!(reply(&vec![long(MOST); 3]), (3, 0));
    for length in [MOST + 1, 65_534, 65_535] {
        assert_eq!(reply(&[long(length)]), (0, 2));
        assert_eq!(reply(&[long(MOST), long(length), octets(OPEN)]), (1, 2));
        // 2 stands before 3 and 4.
        let mut wrong = long(length);
        (wrong[2], wrong[3]) = (0x05, 0x18);
        assert_eq!(reply(&[octets(OPEN), wrong]), (1, 2));
    }
}

/// "otherwise it holds how many there were and 0": 64 channels opened, and
/// more messages than channels.
#[test]
fn how_many() {
    let rig: Vec<Vec<u8>> = (0..64)
        .map(|channel| {
            let mut message = octets(OPEN);
            message[2] = 0xC0 | channel;
            message
        })
        .collect();
    let mut host = Host::new();
    assert_eq!(patch_octets(&mut host.receiver, &rig), (64, 0));
    for channel in 0..64 {
        assert_eq!(host.number(&[0, 8, 0x80 | channel, 0, 0, 0, 0, 0]), 0);
    }
    assert_eq!(
        patch_octets(&mut host.receiver, &vec![octets(VOID); 1_000]),
        (1_000, 0)
    );
    // "the place of the first refused message, counted from 0": the last one.
    let wrong = vec![octets("000CC500 00000000 00010007")];
    let mut other = Host::new();
    let messages = [rig, wrong].concat();
    assert_eq!(patch_octets(&mut other.receiver, &messages), (64, 6));
    assert_eq!(other.number(&octets(VOID)), 16);
}
