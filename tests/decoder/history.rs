//! Document 01, "Meters and the look-back rule": a list of messages worked out
//! by hand.

use crate::chunk::Lent;
use crate::lookback::{sums, verdicts, Offered};
use crate::receiver_table::{routed, FRAME_OF_TWO, PLAIN};
use crate::table::octets;

/// A list with the numbers that "Meters and the look-back rule" gives it,
/// worked out by hand. Channel 5 has mode 2, channels 6 and 7 mode 1.
fn list() -> Vec<(u32, Vec<u8>)> {
    let frame = octets(FRAME_OF_TWO);
    let with = |place: usize, octet: u8, message: &[u8]| {
        let mut changed = message.to_vec();
        changed[place] = octet;
        changed
    };
    let wave = routed(1, 1, 1, PLAIN, &[1; 60]);
    let (wave_6, wave_7) = (with(2, 0xC6, &wave), with(2, 0xC7, &wave));
    let void = octets("0008850000000000");
    vec![
        (16, void.clone()),
        (0, frame.clone()),
        (0, void.clone()),
        (0, wave_6.clone()),
        (15, wave_7.clone()),
        // Routing with SCM 1 and SDM 0 closes channel 6.
        (19, with(20, 0x10, &wave_6)),
        (16, with(2, 0x86, &void)),
        (0, wave_7.clone()),
        (15, wave_6.clone()),
        // A refused routing to mode 2 leaves channel 7 in mode 1.
        (17, with(11, 2, &wave_7)),
        (15, wave_6.clone()),
        // Close without Routing, then with Routing.
        (0, octets("000CC70000000000 FF020000")),
        (16, octets("000CC70000000000 00020000")),
        (0, with(9, 0x03, &wave_6)),
        (0, wave_7.clone()),
        (0, with(9, 0x13, &frame)),
        (16, void),
    ]
}

/// The messages, each with rows for 20 points.
pub fn offered<'a>(messages: impl IntoIterator<Item = &'a Vec<u8>>) -> Vec<Offered<'a>> {
    let lent = Lent {
        rows: 480,
        levels: 0,
        assembly: 0,
    };
    messages
        .into_iter()
        .map(|octets| Offered { octets, lent })
        .collect()
}

#[test]
fn list_by_hand() {
    let list = list();
    let offered = offered(list.iter().map(|(_, octets)| octets));
    let verdicts = verdicts([1, 2, 3], &offered);
    let numbers: Vec<u32> = verdicts.iter().map(|verdict| verdict.number).collect();
    let expected: Vec<u32> = list.iter().map(|(number, _)| *number).collect();
    assert_eq!(numbers, expected);
    // Four waves of 20 lit points and two frames of 2 points, 1 of them lit,
    // each of 100 microseconds.
    assert_eq!(sums([1, 2, 3], &verdicts), [601, 86, 85]);
}
