//! Request C-14: "An accepted set counts in a meter history as its messages in
//! order, a refused one as no message." Lists of messages and sets worked out
//! by hand, for the look-back rule and the receiver.

use crate::calls::{answers, Answer, Call};
use crate::chunk::Lent;
use crate::fragment_edges::{FIRST, LAST, OPEN, SECOND, VOID};
use crate::lookback::{verdicts, Offered};
use crate::receiver::{Receiver, LIMIT};
use crate::table::octets;
use crate::two_checks::{wave, HOLD};

const LENT: Lent = Lent {
    rows: 480,
    levels: 1_024,
    assembly: 64,
};

/// A frame of two points, one of them lit, and 10 microseconds on channel 5.
const FRAME_5: &str = "00128502 00000000 0000000A 000000 000001";
const CLOSE_5: &str = "000CC500 00000000 00020000";
const CLOSE_8: &str = "000CC800 00000000 00020000";
const WAVE_5: &str = "0014C500 00000000 02010001 42004210 527E0000";

/// A call and what it is answered.
enum Line<'a> {
    Message(u32, &'a str),
    Set((usize, u32), &'a [&'a str]),
}

use Line::{Message, Set};

impl Line<'_> {
    fn octets(&self) -> Vec<u8> {
        match self {
            Message(_, text) => octets(text),
            Set(_, texts) => octets(&texts.concat()),
        }
    }

    fn call<'a>(&self, octets: &'a [u8]) -> Call<'a> {
        match self {
            Message(..) => Call::Message(Offered { octets, lent: LENT }),
            Set(..) => Call::Set(octets),
        }
    }

    /// What the receiver must give and what the rule must say.
    fn answer(&self, sums: [u64; 3]) -> Answer {
        let (place, number) = match self {
            Message(number, _) => (None, *number),
            Set((place, number), _) => (Some(*place), *number),
        };
        Answer {
            place,
            number,
            sums,
        }
    }
}

/// Offers a list to the receiver and gives the last readings. The rule must
/// have the same answers and sums after each call.
fn readings(start: [u64; 3], list: &[Line]) -> [u64; 3] {
    let octets: Vec<Vec<u8>> = list.iter().map(Line::octets).collect();
    let calls: Vec<Call> = list
        .iter()
        .zip(&octets)
        .map(|(line, octets)| line.call(octets))
        .collect();
    let answers = answers(start, &calls);
    let (mut receiver, _) = Receiver::start(start[0], start[1], start[2]);
    let (mut rows, mut levels, mut assembly) = ([0; 480], [0; 1_024], [0; 64]);
    for (place, line) in list.iter().enumerate() {
        let octets = &octets[place];
        let (at, number) = match line {
            Message(..) => {
                let reply = receiver.message(octets, &mut rows, &mut levels, &mut assembly);
                (None, reply.number)
            }
            Set(..) => {
                let reply = receiver.patch(octets);
                (Some(reply.place), reply.number)
            }
        };
        let sums = receiver.readings();
        let given = Answer {
            place: at,
            number,
            sums,
        };
        assert_eq!(given, line.answer(sums), "call {place}");
        assert_eq!(answers[place], given, "look-back, call {place}");
    }
    receiver.readings()
}

/// Sets that open, refuse, close and open again.
#[test]
fn messages_and_sets() {
    let wave_8 = format!("00488801 00000000 {}", wave(0x00));
    let list = [
        Set((0, 0), &[]),
        Message(16, FRAME_5),
        // Refused: channels 5 and 8 stay closed.
        Set((2, 15), &[HOLD, OPEN, WAVE_5]),
        Message(16, FRAME_5),
        Message(16, &wave_8),
        Set((3, 0), &[HOLD, OPEN, VOID]),
        Message(0, FRAME_5),
        Message(0, &wave_8),
        // Refused: channel 5 stays open, and channel 8 in mode 1.
        Set((3, 16), &[CLOSE_5, CLOSE_8, WAVE_5, "0008860000000000"]),
        Message(0, FRAME_5),
        Message(15, WAVE_5),
        // Accepted: channel 5 has mode 1.
        Set((2, 0), &[CLOSE_8, WAVE_5]),
        Message(16, &wave_8),
        Message(17, FRAME_5),
        Message(15, HOLD),
        Set((1, 0), &[OPEN]),
        Message(0, FRAME_5),
        // What 19 closed, a set opens.
        Message(19, "000C8502 00000000 10000000"),
        Set((0, 16), &[VOID]),
        Set((2, 0), &[OPEN, VOID]),
        Message(0, FRAME_5),
    ];
    // Four frames of 2 points, 1 of them lit, and 10 microseconds; a wave of
    // 20 lit points and 100 microseconds.
    assert_eq!(readings([5, 6, 7], &list), [145, 34, 31]);
}

/// A frame of 3 points, 1 of them lit, and 100 microseconds in fragments.
#[test]
fn between_fragments() {
    let wrong = "000CC500 00000000 00010007";
    let list = [
        Set((1, 0), &[OPEN]),
        Message(0, FIRST),
        Set((3, 0), &[VOID, HOLD, VOID]),
        Message(0, SECOND),
        // Refused sets that would drop the frame.
        Set((1, 6), &[OPEN, wrong]),
        Set((1, 16), &[CLOSE_5, VOID]),
        Set((1, 4), &[OPEN, LAST]),
        Message(0, LAST),
        // Accepted ones drop it.
        Message(0, FIRST),
        Set((2, 0), &[VOID, OPEN]),
        Message(24, SECOND),
        Message(0, FIRST),
        Message(0, SECOND),
        Set((2, 0), &[CLOSE_5, OPEN]),
        Message(24, LAST),
        Message(0, FIRST),
        Set((1, 0), &[CLOSE_8]),
        Message(0, SECOND),
        Set((0, 0), &[]),
        Message(0, LAST),
    ];
    assert_eq!(readings([0; 3], &list), [200, 6, 2]);
}

/// The running sums decide 23 for messages; sets add nothing to them.
#[test]
fn at_the_limits() {
    let start = [LIMIT - 10, LIMIT - 2, LIMIT - 1];
    let list = [
        Set((2, 0), &[OPEN, HOLD]),
        Message(0, FRAME_5),
        Message(23, FRAME_5),
        Set((3, 0), &[CLOSE_8, OPEN, VOID]),
        Message(23, FRAME_5),
        Set((1, 15), &[HOLD, WAVE_5]),
        Set((1, 2), &[OPEN, "000785"]),
        Message(23, FRAME_5),
    ];
    assert_eq!(readings(start, &list), [LIMIT; 3]);
}

/// "for each message in order, its octets and the lengths of the slices lent
/// with it": with a set none are lent. Whatever lengths its messages would
/// count with, their numbers are the same.
#[test]
fn lengths_do_not_matter() {
    let set = [HOLD, OPEN, VOID, CLOSE_8, WAVE_5, HOLD, CLOSE_5, VOID].map(octets);
    let first = octets(FIRST);
    let before = [octets(OPEN), first];
    let numbers = |lent: Lent| -> Vec<u32> {
        let of_set = set.iter().map(|octets| Offered { octets, lent });
        let list: Vec<Offered> = before
            .iter()
            .map(|octets| Offered { octets, lent: LENT })
            .chain(of_set)
            .collect();
        let verdicts = verdicts([LIMIT; 3], &list);
        assert!(verdicts.iter().all(|verdict| verdict.adds == [0; 3]));
        verdicts.iter().map(|verdict| verdict.number).collect()
    };
    for lengths in [0, 1, 23, 24, 1_023, 1_024, 65_536] {
        let lent = Lent {
            rows: lengths,
            levels: lengths,
            assembly: lengths,
        };
        assert_eq!(numbers(lent), [0, 0, 0, 0, 0, 0, 0, 15, 0, 16]);
    }
}
