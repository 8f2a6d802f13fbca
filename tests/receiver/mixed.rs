//! Lists of messages and sets through the proved receiver by value and in place,
//! the second receiver and the look-back rule: demand 3 with request C-14, "An
//! accepted set counts in a meter history as its messages in order, a refused
//! one as no message."

use crate::calls;
use crate::compare::All;
use crate::tally::Tally;
use decoder::calls::{answers, Answer, Call as Offered};
use generate::mixed::{mixed, Call, Mixed};
use generate::random::Random;

/// The most calls of one list.
const MOST: usize = 80;

/// So many lists, each from a seed of its own.
pub fn compare(lists: usize, tally: &mut Tally) {
    for seed in 0..lists as u64 {
        let mut random = Random::new(seed);
        let list = mixed(&mut random, MOST);
        of_list(&list, &mut random, &format!("list {seed}"), tally);
    }
}

/// Runs one list. After the first call that differs the rest is left out.
fn of_list(list: &Mixed, random: &mut Random, name: &str, tally: &mut Tally) {
    let mut all = All::start(list.start, tally);
    let start = all.second.receiver.readings();
    let mut given: Vec<Answer> = Vec::new();
    for (place, call) in list.calls.iter().enumerate() {
        match answer(&mut all, call, &format!("{name}, call {place}"), tally) {
            Some(answer) => given.push(answer),
            None => return,
        }
    }
    all.ended(name, tally);
    if list.steady {
        look_back(start, &list.calls, &given, name, tally);
    }
    tally.sets.shown += 1;
    all.probe(random, name, tally);
}

/// What the proved receiver gave for a call; none if something differed.
fn answer(all: &mut All, call: &Call, name: &str, tally: &mut Tally) -> Option<Answer> {
    let (place, number) = match call {
        Call::Set(octets) => {
            let reply = all.patch(octets, name, tally)?;
            (Some(reply.place), reply.number)
        }
        Call::Message(offer) => {
            let same = all.offer(offer, name, tally);
            (None, same.then(|| all.last_number())?)
        }
    };
    Some(Answer {
        place,
        number,
        sums: calls::readings(&all.by_value.receiver),
    })
}

/// Document 01, "Meters and the look-back rule", of lists of calls.
fn look_back(start: [u64; 3], calls: &[Call], given: &[Answer], name: &str, tally: &mut Tally) {
    let list: Vec<Offered> = calls.iter().map(Call::offered).collect();
    for (place, (answer, expected)) in given.iter().zip(answers(start, &list)).enumerate() {
        match answer.place {
            Some(_) => tally.sets.looked_back += 1,
            None => tally.sets.messages += 1,
        }
        tally.same(*answer == expected, || {
            format!("{name}, call {place}: {answer:?}, look-back {expected:?}")
        });
    }
}
