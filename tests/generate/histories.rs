//! The decoder's receiver against its look-back rule on generated streams, how
//! often each number occurs in them, and how many of them hold each situation
//! of requests C-11 to C-13 and C-16.

use crate::assembly::LONGEST;
use crate::coverage::follow;
use crate::end_to_end::end_to_end;
use crate::random::Random;
use crate::stream::{stream, Offer, Stream};
use crate::{first_point, newer_tags, split_frames, split_table, two_checks};
use decoder::listing::listing;
use decoder::lookback::{sums, verdicts, Offered};
use decoder::message::SEQUEL;
use decoder::receiver::Receiver;
use std::collections::BTreeSet;

/// Counts the numbers of one stream and, where the assembly slice has one
/// length for as long as a frame is gathered, compares both ways of working
/// them out.
fn compare(stream: &Stream, counts: &mut [u64; 27]) {
    let [lit_time, points, lit_points] = stream.start;
    let (mut receiver, reply) = Receiver::start(lit_time, points, lit_points);
    counts[reply.number as usize] += u64::from(reply.number > 0);
    let start = receiver.readings();
    let list: Vec<Offered> = stream.offers.iter().map(Offer::offered).collect();
    let verdicts = verdicts(start, &list);
    let mut assembly = vec![0; LONGEST];
    for (place, offered) in list.iter().enumerate() {
        let mut rows = vec![0; offered.lent.rows];
        let mut levels = vec![0; offered.lent.levels];
        let lent = &mut assembly[..offered.lent.assembly];
        let reply = receiver.message(offered.octets, &mut rows, &mut levels, lent);
        counts[reply.number as usize] += 1;
        if stream.steady {
            assert_eq!(reply.number, verdicts[place].number);
            assert_eq!(receiver.readings(), sums(start, &verdicts[..=place]));
        }
    }
}

#[test]
fn generated_streams() {
    let mut random = Random::new(1);
    let mut counts = [0; 27];
    let mut decided = Vec::new();
    for _ in 0..500 {
        let stream = stream(&mut random, 200);
        compare(&stream, &mut counts);
        decided.push(situations(&stream));
    }
    println!("{counts:?}");
    assert_eq!(counts[1], 0);
    for number in [0].into_iter().chain(2..27) {
        assert!(counts[number] >= 50, "number {number}: {counts:?}");
    }
    let table = first_point::SITUATIONS
        .iter()
        .chain(&split_table::SITUATIONS)
        .chain(&two_checks::SITUATIONS)
        .chain(&newer_tags::SITUATIONS);
    for (situation, _, least) in table {
        let count = decided.iter().filter(|of| of.contains(*situation)).count();
        println!("{count} histories: {situation}");
        assert!(count >= *least, "{situation}: {count}");
    }
}

/// The situations of requests C-11 to C-13 and C-16 that a history holds.
fn situations(stream: &Stream) -> BTreeSet<String> {
    let mut list = BTreeSet::new();
    follow(stream, |case| list.extend(first_point::situations(case)));
    split_frames::follow(stream, |situation| {
        list.insert(situation);
    });
    two_checks::follow(stream, |situation| {
        list.insert(situation);
    });
    newer_tags::follow(stream, |situation| {
        list.insert(situation);
    });
    list
}

/// The same seed gives the same streams.
#[test]
fn repeatable() {
    let octets = |seed: u64| {
        let mut random = Random::new(seed);
        let offers = stream(&mut random, 50).offers;
        offers
            .into_iter()
            .map(|offer| offer.octets)
            .collect::<Vec<_>>()
    };
    assert_eq!(octets(3), octets(3));
    assert_ne!(octets(3), octets(4));
}

/// The listing of a generated input has a line for each message, then "cut"
/// for the five octets left at its end, then the meters. Split frames are drawn
/// in it, and each number of request C-12 occurs.
#[test]
fn generated_listing() {
    let octets = end_to_end(&mut Random::new(5), 4_000);
    let text = listing(&octets);
    let lines: Vec<&str> = text.lines().collect();
    assert!(lines.len() > 4_000);
    assert_eq!(lines[lines.len() - 2], "cut 5");
    assert!(lines[lines.len() - 1].starts_with("meters "));
    let mut numbers = BTreeSet::new();
    let mut drawn = 0;
    for line in &lines[..lines.len() - 2] {
        let words: Vec<u32> = line.split(' ').map(|word| word.parse().unwrap()).collect();
        let [_, kind, number, points, _] = words[..] else {
            panic!("{line}");
        };
        assert!(number == 0 || words == [0, 0, number, 0, 0]);
        numbers.insert(number);
        drawn += usize::from(kind == u32::from(SEQUEL) && points > 0);
    }
    assert!([24, 25, 26].iter().all(|number| numbers.contains(number)));
    assert!(drawn >= 10, "{drawn}");
}
