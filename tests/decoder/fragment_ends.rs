//! Request C-12: "After the last fragment the whole is checked by 20 to 23 and
//! drawn as 0x02; accepted or refused by those checks, it is then gathered no
//! longer, but its octets stay written." Worked out by hand.

use crate::fragment_edges::{holds, numbers, opened, FIRST, LAST, OPEN, SECOND, VOID, WHOLE};
use crate::receiver::{Receiver, LIMIT};
use crate::receiver_table::Host;
use crate::table::octets;

/// The last fragment is refused, its octets stay written, nothing is gathered
/// any longer, the channel stays open, and rows and meters are as before.
fn refused(host: &mut Host, last: &str, number: u32, written: &str) {
    let (rows, readings) = (host.rows.clone(), host.receiver.readings());
    assert_eq!(host.number(&octets(last)), number, "{last}");
    holds(host, written);
    assert_eq!(host.receiver.gathering(), None);
    assert_eq!((&host.rows, host.receiver.readings()), (&rows, readings));
    assert_eq!(numbers(host, &[VOID, last]), [0, 24]);
}

/// Check 20: samples that are not whole, and exactly one.
#[test]
fn samples_not_whole() {
    for (last, written) in [
        ("0009C5C0 00000066 06", "00000064 010200 0304FF 0506"),
        (
            "000BC5C0 00000066 060007",
            "00000064 010200 0304FF 050600 07",
        ),
        ("0008C5C0 00000066", "00000064 010200 0304FF 05"),
    ] {
        let mut host = opened();
        assert_eq!(numbers(&mut host, &[FIRST, SECOND]), [0, 0]);
        refused(&mut host, last, 20, written);
    }
    let mut host = opened();
    assert_eq!(host.number(&octets("000E8503 00000064 00000001 0102")), 0);
    refused(&mut host, "0009C5C0 00000065 03", 20, "00000001 010203");
    // The mark of the last on a sequel that should not be it.
    let mut host = opened();
    assert_eq!(host.number(&octets(FIRST)), 0);
    refused(
        &mut host,
        &SECOND.replace("85C0", "C5C0"),
        20,
        "00000064 010200 0304FF 05",
    );
}

/// Check 22 asks for the rows lent with the last fragment alone.
#[test]
fn rows_lent() {
    let mut host = opened();
    host.rows.clear();
    assert_eq!(numbers(&mut host, &[FIRST, SECOND]), [0, 0]);
    host.rows = vec![-7; 71];
    refused(&mut host, LAST, 22, WHOLE);
    host.rows.clear();
    assert_eq!(numbers(&mut host, &[FIRST, SECOND]), [0, 0]);
    host.rows = vec![-7; 72];
    assert_eq!(host.number(&octets(LAST)), 0);
    assert_eq!(host.rows[71], 0);
    assert_eq!(host.receiver.readings(), [100, 3, 1]);
}

/// A host that started at these readings and gathers.
fn started(start: [u64; 3]) -> Host {
    let mut host = Host::new();
    host.receiver = Receiver::start(start[0], start[1], start[2]).0;
    assert_eq!(numbers(&mut host, &[OPEN, FIRST, SECOND]), [0, 0, 0]);
    host
}

/// Check 23 by each meter, at the last fragment: the fragments before add
/// nothing, so they are accepted at the limit too.
#[test]
fn meters() {
    let adds = [100, 3, 1];
    for meter in 0..3 {
        let mut start = [0; 3];
        start[meter] = LIMIT - adds[meter] + 1;
        refused(&mut started(start), LAST, 23, WHOLE);
        start[meter] -= 1;
        let mut host = started(start);
        assert_eq!(host.number(&octets(LAST)), 0);
        assert_eq!(host.receiver.readings()[meter], LIMIT);
    }
    let mut host = started([LIMIT; 3]);
    let [first, last] = ["000C8503 00000007 00FFFFFF", "0008C5C0 00000008"];
    assert_eq!(numbers(&mut host, &[first, last]), [0, 0]);
    assert_eq!(host.receiver.readings(), [LIMIT; 3]);
}

/// The sums that decide 23 are those at the last fragment: a whole frame in
/// between takes what was left.
#[test]
fn meters_between() {
    let frame = "00128502 00000000 00000001 000000 000001";
    let mut host = started([0, LIMIT - 4, 0]);
    assert_eq!(host.number(&octets(frame)), 0);
    refused(&mut host, LAST, 23, WHOLE);
    assert_eq!(host.receiver.readings(), [1, LIMIT - 2, 1]);
}

/// "drawn as 0x02": the first point never counts as lit (request C-11), also
/// where it is cut or comes with a sequel.
#[test]
fn first_point() {
    for fragments in [
        [
            "00128503 00000064 00000064 000001 000000",
            "0008C5C0 00000065",
        ],
        [
            "000E8503 00000064 00000064 0000",
            "000CC5C0 00000065 01000000",
        ],
        [
            "000C8503 00000064 00000064",
            "000EC5C0 00000065 000001000000",
        ],
    ] {
        let mut host = opened();
        assert_eq!(host.number(&octets(fragments[0])), 0);
        let last = host.offer(&octets(fragments[1]));
        assert_eq!((last.number, last.points, last.lit_points), (0, 2, 0));
        assert_eq!((host.rows[8], host.rows[32]), (256, 0));
        assert_eq!(host.receiver.readings(), [0, 2, 0]);
    }
}
