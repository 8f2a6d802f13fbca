//! Sets of messages in one call (request C-14), beside the same messages in
//! calls of their own. README.md has the goals.

use crate::cases::{plain, ranges, routing, words, FRAME, LAYOUTS, VOID};
use crate::hosts::{ByValue, Host, InPlace};
use crate::set_calls::{self, SetOutcome};
use crate::time::{self, Work};
use crate::{report, stack};
use decoder::receiver as second;
use decoder::set::SetReply;
use std::hint::black_box;

/// Every channel has one message.
const MESSAGES: u8 = 64;

struct Set {
    name: &'static str,
    /// Offered once, in order, before the measurement.
    opening: Vec<Vec<u8>>,
    /// Its messages, to be offered one by one.
    messages: Vec<Vec<u8>>,
    /// The same end to end.
    octets: Vec<u8>,
    /// The reply that is expected.
    reply: SetReply,
}

/// The columns before the ratios. A refused set has none of the first two: one
/// by one, the messages before the refused one would stay.
const COLUMNS: [&str; 6] = [
    "64 by value",
    "64 in place",
    "set by value",
    "set in place",
    "Rust set",
    "one copy",
];
const RATIOS: [&str; 3] = ["place/(64+copy)", "place/64 value", "value/64 value"];

/// Every set, in the order of the table.
fn all() -> Vec<Set> {
    let sparse: fn(u8) -> Vec<u8> = |channel| frame(channel, LAYOUTS[0].1);
    let full: fn(u8) -> Vec<u8> = |channel| frame(channel, LAYOUTS[2].1);
    let dimmer: fn(u8) -> Vec<u8> = |channel| routing(channel, 1, 4, &ranges());
    let by_turns = |channel: u8| [sparse, full, dimmer][usize::from(channel % 3)](channel);
    vec![
        accepted("64 routings, sparse", each(&sparse)),
        accepted("64 routings, full", each(&full)),
        accepted("64 routings, 32 ranges", each(&dimmer)),
        accepted("64 routings, mixed", each(&by_turns)),
        Set {
            opening: each(&sparse),
            ..accepted("64 keep-alives", each(&|channel| plain(channel, VOID, &[])))
        },
        last_refused(each(&sparse)),
    ]
}

fn each(message: &dyn Fn(u8) -> Vec<u8>) -> Vec<Vec<u8>> {
    (0..MESSAGES).map(message).collect()
}

/// A routing to mode 2: mode 1 can be open on one channel alone (check 15).
fn frame(channel: u8, tags: &[u16]) -> Vec<u8> {
    routing(channel, 1, FRAME, &words(FRAME, tags))
}

fn accepted(name: &'static str, messages: Vec<Vec<u8>>) -> Set {
    Set {
        name,
        opening: Vec::new(),
        octets: messages.concat(),
        reply: SetReply {
            place: messages.len(),
            number: 0,
        },
        messages,
    }
}

/// The last message has X and Y and no colour, so that its tags are walked to
/// the end; the record is put back after 63 routings.
fn last_refused(mut messages: Vec<Vec<u8>>) -> Set {
    messages.pop();
    messages.push(frame(MESSAGES - 1, &LAYOUTS[0].1[..4]));
    let reply = SetReply {
        place: messages.len() - 1,
        number: 12,
    };
    Set {
        reply,
        ..accepted("64 routings, last refused", messages)
    }
}

/// What is kept between sets by a host of each way.
struct Hosts {
    singly: ByValue,
    singly_in_place: InPlace,
    by_value: Box<SetOutcome>,
    in_place: Box<SetOutcome>,
    second: (second::Receiver, SetReply),
}

extern "C" {
    /// turns.c: a set, so many times, by a C host that keeps two outcomes by
    /// turns.
    fn patch_in_turns(kept: *mut SetOutcome, times: usize, octets: *const u8, length: usize);
}

impl Hosts {
    /// After the opening messages of a set.
    fn open(set: &Set) -> Hosts {
        let (mut singly, mut singly_in_place) = (ByValue::start(), InPlace::start());
        let (mut second, _) = second::Receiver::start(0, 0, 0);
        for octets in &set.opening {
            singly.offer(octets);
            singly_in_place.offer(octets);
            second.message(octets, &mut [], &mut [], &mut []);
        }
        // No set has this reply, so that one that is not written shows.
        let (place, number) = (usize::MAX, 0);
        let kept = Box::new(SetOutcome {
            receiver: singly.kept.receiver,
            reply: set_calls::SetReply { place, number },
        });
        Hosts {
            singly,
            singly_in_place,
            by_value: kept.clone(),
            in_place: kept,
            second: (second, SetReply { place, number: 0 }),
        }
    }

    /// Each way, in the order of the columns without the copy.
    fn ways<'a>(&'a mut self, set: &'a Set) -> [Work<'a>; 5] {
        let octets = &set.octets[..];
        [
            Box::new(|times| self.singly.repeat(&set.messages, times)),
            Box::new(|times| self.singly_in_place.repeat(&set.messages, times)),
            // SAFETY: the pointers and the length are those of what is borrowed.
            Box::new(|times| unsafe {
                patch_in_turns(&mut *self.by_value, times, octets.as_ptr(), octets.len());
            }),
            Box::new(|times| {
                for _ in 0..times {
                    patch_in_place(&mut self.in_place, black_box(octets));
                }
            }),
            Box::new(|times| {
                for _ in 0..times {
                    self.second.1 = self.second.0.patch(black_box(octets));
                }
            }),
        ]
    }

    /// True if the replies are the expected ones and the records are alike,
    /// octet for octet. Where no message was offered one by one, those are the
    /// records before the set.
    fn alike(&self, set: &Set) -> bool {
        let kept = [&self.by_value, &self.in_place];
        let singly = &self.singly.kept.receiver;
        kept.map(|kept| kept.reply.own()) == [set.reply; 2]
            && self.second.1 == set.reply
            && kept.map(|kept| &kept.receiver) == [singly; 2]
            && *self.singly_in_place.receiver == *singly
    }
}

fn patch_in_place(kept: &mut SetOutcome, octets: &[u8]) {
    kept.reply = set_calls::patch_on(kept.receiver.arrays(), octets);
}

/// True if every way does the same with a set, once and repeated.
fn agree(set: &Set) -> bool {
    let mut hosts = Hosts::open(set);
    [1, 2, 3].into_iter().all(|times| {
        let skipped = if set.reply.number != 0 { 2 } else { 0 };
        let ways = hosts.ways(set).into_iter().skip(skipped);
        ways.for_each(|mut way| way(times));
        hosts.alike(set)
    })
}

/// Prints the tables of the sets; false if the ways differ.
pub fn tables() -> bool {
    let sets = all();
    println!("ns a set, best of {} alternating runs", time::RUNS);
    print!("{:<25} {:>6}", "set", "octets");
    COLUMNS.iter().for_each(|column| print!(" {column}"));
    println!(" {}", RATIOS.join(" "));
    for set in &sets {
        if !agree(set) {
            println!("{}: the outputs differ", set.name);
            return false;
        }
        line(set);
    }
    println!();
    stacks(&sets);
    true
}

/// The times of a set and their ratios.
fn line(set: &Set) {
    let mut hosts = Hosts::open(set);
    let [singly, singly_in_place, by_value, in_place, second] = hosts.ways(set);
    let copies = time::copies();
    print!("{:<25} {:>6}", set.name, set.octets.len());
    if set.reply.number != 0 {
        let times = time::alternating([by_value, in_place, second, copies]);
        cells(&COLUMNS[..2], &["-"; 2].map(String::from));
        cells(&COLUMNS[2..], &times.map(|time| format!("{time:.0}")));
        cells(&RATIOS, &["-"; 3].map(String::from));
    } else {
        let ways = [singly, singly_in_place, by_value, in_place, second, copies];
        let times = time::alternating(ways);
        cells(&COLUMNS, &times.map(|time| format!("{time:.0}")));
        let [singly, singly_in_place, by_value, in_place, _, copy] = times;
        let beside_places = in_place / (singly_in_place + copy);
        let ratios = [beside_places, in_place / singly, by_value / singly];
        cells(&RATIOS, &ratios.map(|ratio| format!("{ratio:.2}")));
    }
    println!();
}

/// Prints texts as wide as the heads of their columns.
fn cells(heads: &[&str], texts: &[String]) {
    for (head, text) in heads.iter().zip(texts) {
        print!(" {text:>width$}", width = head.len());
    }
}

/// The deepest stack of any set; the outcome is kept in one place.
fn stacks(sets: &[Set]) {
    println!("octets of stack below the frame of the host, least and most of all sets");
    let by_value = sets.iter().map(|set| {
        let mut kept = Hosts::open(set).by_value;
        stack::depth(&mut || *kept = set_calls::patch(&kept.receiver, &set.octets))
    });
    report::least_and_most("set by value", by_value.collect());
    let in_place = sets.iter().map(|set| {
        let mut kept = Hosts::open(set).in_place;
        stack::depth(&mut || patch_in_place(&mut kept, &set.octets))
    });
    report::least_and_most("set in place", in_place.collect());
    println!("sizes: set outcome {}", size_of::<SetOutcome>());
}
