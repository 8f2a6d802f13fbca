//! Sets with the wrong message in each place, offered to the decoder's receiver:
//! the reply is the place that was made wrong and the number that it was made
//! for, and the receiver is as before.

use crate::assembly::LONGEST;
use crate::places::{channels, Placed, Places};
use crate::random::Random;
use crate::set_situations::of_reply;
use crate::stream::stream;
use crate::wrong::{Wrong, ALL};
use decoder::calls::{answers, Call};
use decoder::receiver::Receiver;
use decoder::set::SetReply;
use std::collections::BTreeMap;

/// Lengths of which each place is made wrong in each way.
const LENGTHS: [usize; 6] = [1, 2, 3, 9, 64, 200];

/// Opens channel 9 in mode 1, if no other channel has it.
const WAVES: [u8; 20] = [
    0, 20, 0xC9, 0, 0, 0, 0, 0, 2, 1, 0, 1, 0x42, 0x00, 0x42, 0x10, 0x52, 0x7E, 0, 0,
];

type Counts = BTreeMap<String, u64>;

/// A receiver that a generated stream left.
fn left_by_stream(random: &mut Random) -> Receiver {
    let stream = stream(random, 60);
    let [lit_time, points, lit_points] = stream.start;
    let (mut receiver, _) = Receiver::start(lit_time, points, lit_points);
    let mut assembly = vec![0; LONGEST];
    for offer in &stream.offers {
        let mut rows = vec![0; offer.lent.rows];
        let mut levels = vec![0; offer.lent.levels];
        let lent = &mut assembly[..offer.lent.assembly];
        receiver.message(&offer.octets, &mut rows, &mut levels, lent);
    }
    receiver
}

/// Offers a set that is refused.
fn refused(receiver: &mut Receiver, placed: &Placed, counts: &mut Counts) {
    let before = receiver.clone();
    let reply = receiver.patch(&placed.octets);
    let expected = SetReply {
        place: placed.place,
        number: placed.wrong.number(),
    };
    assert_eq!(
        reply, expected,
        "{:?}: {:02X?}",
        placed.wrong, placed.octets
    );
    assert_eq!(*receiver, before, "{:?}", placed.wrong);
    for situation in of_reply(&placed.octets, reply) {
        *counts.entry(situation).or_default() += 1;
    }
}

/// Offers a set that is accepted.
fn accepted(receiver: &Receiver, places: &Places, count: usize, counts: &mut Counts) {
    let octets = places.accepted();
    let reply = receiver.clone().patch(&octets);
    let number = 0;
    assert_eq!(
        reply,
        SetReply {
            place: count,
            number
        }
    );
    for situation in of_reply(&octets, reply) {
        *counts.entry(situation).or_default() += 1;
    }
}

/// The numbers that a set can be refused by, but for 1. How often each must
/// occur is at most half of the least that 24 seeds gave.
const NUMBERS: [u32; 16] = [2, 3, 4, 5, 6, 7, 8, 9, 10, 11, 12, 13, 14, 15, 16, 18];

/// Each length of LENGTHS, each place, each kind, for a receiver newly started
/// and some that streams left. A kind is left out where the receiver has no
/// channel for it.
#[test]
fn each_kind_in_each_place() {
    let mut random = Random::new(1);
    let mut counts = Counts::new();
    for count in LENGTHS {
        for turn in 0..(256 / count).clamp(2, 32) {
            let mut receiver = match turn {
                0 => Receiver::start(0, 0, 0).0,
                _ => left_by_stream(&mut random),
            };
            // Check 15 needs a channel that has mode 1.
            if turn % 2 == 1 {
                receiver.message(&WAVES, &mut [], &mut [], &mut []);
            }
            let places = Places::new(&mut random, &receiver, &channels(), count);
            accepted(&receiver, &places, count, &mut counts);
            for (place, wrong) in (0..count).flat_map(|place| ALL.map(|wrong| (place, wrong))) {
                if let Some(placed) = places.with(&mut random, place, wrong) {
                    refused(&mut receiver, &placed, &mut counts);
                }
            }
        }
    }
    println!("{counts:#?}");
    for number in NUMBERS {
        for (position, least) in [("only", 8), ("first", 25), ("middle", 300), ("last", 25)] {
            let situation = format!("set, {number}, {position} place");
            let count = counts.get(&situation).copied().unwrap_or(0);
            assert!(count >= least, "{situation}: {count}");
        }
    }
}

/// Every length from 0 to 200, each place, the kinds in turn; and two wrong
/// messages, of which the first counts.
#[test]
fn every_length() {
    let mut random = Random::new(2);
    let mut counts = Counts::new();
    let mut receiver = left_by_stream(&mut random);
    let (mut turn, mut two) = (0, 0);
    for count in 0..=200 {
        let places = Places::new(&mut random, &receiver, &channels(), count);
        accepted(&receiver, &places, count, &mut counts);
        for place in 0..count {
            turn += 1;
            let wrong = ALL[turn % ALL.len()];
            if let Some(placed) = places.with(&mut random, place, wrong) {
                refused(&mut receiver, &placed, &mut counts);
            }
            if turn % 16 == 0 && place + 1 < count && !wrong.ends() {
                let later = random.between(place + 1, count - 1);
                let second = (later, random.pick(&ALL));
                if let Some(placed) = places.with_two(&mut random, (place, wrong), second) {
                    refused(&mut receiver, &placed, &mut counts);
                    two += 1;
                }
            }
        }
    }
    println!("{two} sets with two wrong messages");
    assert!(two >= 600, "{two}");
    for length in [0, 1, 2, 64, 200] {
        assert_eq!(counts[&format!("set of {length}, accepted")], 1);
    }
}

/// The look-back rule says the same of a set on its own.
#[test]
fn look_back_of_sets() {
    let mut random = Random::new(3);
    let mut counts = Counts::new();
    for count in [0, 1, 2, 3, 9, 64, 200] {
        let (mut receiver, _) = Receiver::start(0, 0, 0);
        let places = Places::new(&mut random, &receiver, &channels(), count);
        let octets = places.accepted();
        let answer = answers([0; 3], &[Call::Set(&octets)])[0];
        assert_eq!((answer.place, answer.number), (Some(count), 0));
        for _ in 0..count.min(40) {
            let wrong: Wrong = random.pick(&ALL);
            let place = random.below(count);
            let Some(placed) = places.with(&mut random, place, wrong) else {
                continue;
            };
            refused(&mut receiver, &placed, &mut counts);
            let calls = [Call::Set(&placed.octets), Call::Set(&octets)];
            let both: Vec<(Option<usize>, u32)> = answers([0; 3], &calls)
                .iter()
                .map(|answer| (answer.place, answer.number))
                .collect();
            assert_eq!(both, [(Some(place), wrong.number()), (Some(count), 0)]);
        }
    }
}
