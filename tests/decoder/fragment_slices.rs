//! Request C-12: the lent assembly slice and the number 26, worked out by hand.

use crate::fragment_edges::{holds, numbers, opened, FIRST, LAST, SECOND, WHOLE};
use crate::gathering::room;
use crate::table::octets;

/// "after 19, 26 an assembly slice too short for the octets so far, [...]
/// which drops any gathering": exactly enough and one too short, for each
/// fragment. The octets so far are those with the fragment's own.
#[test]
fn slices_too_short() {
    for (place, enough) in [9, 11, 13].into_iter().enumerate() {
        let messages = [FIRST, SECOND, LAST];
        let mut host = opened();
        host.assembly.truncate(enough);
        assert_eq!(numbers(&mut host, &messages[..=place]), vec![0; place + 1]);
        let mut host = opened();
        host.assembly.truncate(enough - 1);
        let mut expected = vec![0; place];
        expected.extend([26, 24]);
        let offered = [&messages[..=place], &[SECOND]].concat();
        assert_eq!(numbers(&mut host, &offered), expected);
        assert_eq!(host.receiver.gathering(), None);
        let before = [0, 9, 11][place];
        holds(&host, &WHOLE.replace(' ', "")[..2 * before]);
    }
    let mut host = opened();
    host.assembly.clear();
    assert_eq!(host.number(&octets(FIRST)), 26);
    // 19 is tried before 26, and 18 before both.
    assert_eq!(host.number(&octets("000B8503 00000000 300000")), 18);
    assert_eq!(host.number(&octets("000C8503 00000000 30000000")), 19);
}

/// "or over 1,000,000,000 of them".
#[test]
fn most_octets() {
    let most = 1_000_000_000;
    assert_eq!(room(most, most), Ok(()));
    assert_eq!(room(most, usize::MAX), Ok(()));
    assert_eq!(room(most, most - 1), Err(26));
    assert_eq!(room(most + 1, most + 1), Err(26));
    assert_eq!(room(most + 1, usize::MAX), Err(26));
    assert_eq!(room(0, 0), Ok(()));
    assert_eq!(room(1, 0), Err(26));
}

/// The whole is read from the lent slice: where the host alters it between,
/// its Duration and its samples are the altered ones. SCM is not read again.
#[test]
fn altered_slices() {
    let mut host = opened();
    assert_eq!(numbers(&mut host, &[FIRST, SECOND]), [0, 0]);
    host.assembly[0] = 0x30;
    host.assembly[3] = 5;
    host.assembly[4] = 0xFF;
    host.assembly[9] = 0;
    host.assembly[11] = 0x77;
    let reply = host.offer(&octets(LAST));
    assert_eq!((reply.number, reply.points, reply.lit_points), (0, 3, 0));
    holds(&host, "30000005 FF0200 030400 050600");
    assert_eq!(host.rows[0], -256);
    assert_eq!(host.receiver.readings(), [0, 3, 0]);
    // A slice that became shorter than what was gathered.
    assert_eq!(numbers(&mut host, &[FIRST, SECOND]), [0, 0]);
    host.assembly.truncate(10);
    assert_eq!(numbers(&mut host, &["0008C5C0 00000066", LAST]), [26, 24]);
}
