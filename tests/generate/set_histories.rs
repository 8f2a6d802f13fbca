//! Lists of messages and sets: the decoder's receiver against its look-back
//! rule, and which situations of request C-14 the lists reach.

use crate::assembly::LONGEST;
use crate::mixed::{mixed, Call, Mixed};
use crate::random::Random;
use crate::set_later::follow;
use crate::set_table::SITUATIONS;
use decoder::calls::{self, answers, Answer};
use decoder::receiver::Receiver;
use std::collections::BTreeMap;

/// The most calls of one list.
const MOST: usize = 80;

/// Compares both ways of working out the replies and the readings, where the
/// assembly slice has one length for as long as a frame is gathered. Gives how
/// many messages and sets were compared.
fn compare(list: &Mixed) -> [usize; 2] {
    let [lit_time, points, lit_points] = list.start;
    let (mut receiver, _) = Receiver::start(lit_time, points, lit_points);
    let offered: Vec<calls::Call> = list.calls.iter().map(Call::offered).collect();
    let expected = answers(receiver.readings(), &offered);
    let mut assembly = vec![0; LONGEST];
    let mut compared = [0; 2];
    for (call, expected) in list.calls.iter().zip(expected) {
        let (place, number) = match call {
            Call::Set(octets) => {
                let reply = receiver.patch(octets);
                (Some(reply.place), reply.number)
            }
            Call::Message(offer) => {
                let mut rows = vec![0; offer.lent.rows];
                let mut levels = vec![0; offer.lent.levels];
                let lent = &mut assembly[..offer.lent.assembly];
                let reply = receiver.message(&offer.octets, &mut rows, &mut levels, lent);
                (None, reply.number)
            }
        };
        let sums = receiver.readings();
        let given = Answer {
            place,
            number,
            sums,
        };
        assert_eq!(given, expected);
        compared[usize::from(place.is_some())] += 1;
    }
    compared
}

#[test]
fn generated_lists() {
    let mut random = Random::new(1);
    let mut compared = [0; 2];
    let mut counts: BTreeMap<String, u64> = BTreeMap::new();
    for _ in 0..1_000 {
        let list = mixed(&mut random, MOST);
        if list.steady {
            let of_list = compare(&list);
            compared = [0, 1].map(|which| compared[which] + of_list[which]);
        }
        follow(&list, |situation| {
            *counts.entry(situation).or_default() += 1;
        });
    }
    println!("{compared:?} messages and sets by the look-back rule");
    assert!(
        compared[0] >= 15_000 && compared[1] >= 3_800,
        "{compared:?}"
    );
    for (situation, count) in &counts {
        println!("{count} {situation}");
    }
    for (situation, least) in SITUATIONS {
        let count = counts.get(situation).copied().unwrap_or(0);
        assert!(count >= least, "{situation}: {count}");
    }
}

/// The same seed gives the same lists.
#[test]
fn repeatable() {
    let octets = |seed: u64| -> Vec<Vec<u8>> {
        let list = mixed(&mut Random::new(seed), MOST);
        let octets = |call: Call| match call {
            Call::Message(offer) => offer.octets,
            Call::Set(octets) => octets,
        };
        list.calls.into_iter().map(octets).collect()
    };
    assert_eq!(octets(3), octets(3));
    assert_ne!(octets(3), octets(4));
}
