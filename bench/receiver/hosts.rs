//! A host of each receiver: what is kept between messages, and the slices.

use crate::calls::{self, Outcome};
use crate::card::Card;
use crate::cases::Case;
use decoder::receiver as second;
use std::hint::black_box;

/// The ways that are compared, in the order of the columns.
pub const WAYS: [&str; 4] = ["by value", "in place", "Rust", "C"];
pub const BY_VALUE: usize = 0;
pub const IN_PLACE: usize = 1;
pub const RUST: usize = 2;
pub const C: usize = 3;

/// What a host has after a message: all that is compared.
#[derive(PartialEq)]
pub struct Seen<'a> {
    pub reply: second::Reply,
    pub readings: [u64; 3],
    pub rows: &'a [i32],
    pub levels: &'a [u8],
    pub assembly: &'a [u8],
}

pub trait Host {
    fn offer(&mut self, octets: &[u8]);
    fn seen(&self) -> Seen<'_>;

    /// Offers messages in order so many times, each time to the receiver that
    /// the time before left. One message alone has a loop of its own, so that
    /// nothing else is measured with it.
    fn repeat(&mut self, messages: &[Vec<u8>], times: usize) {
        if let [octets] = messages {
            for _ in 0..times {
                self.offer(black_box(octets));
            }
            return;
        }
        for _ in 0..times {
            for octets in messages {
                self.offer(black_box(octets));
            }
        }
    }
}

/// A host after the opening messages of a case.
pub fn open(way: usize, case: &Case) -> Box<dyn Host> {
    let mut host: Box<dyn Host> = match way {
        BY_VALUE => Box::new(ByValue::start()),
        IN_PLACE => Box::new(InPlace::start()),
        RUST => Box::new(Second::start()),
        _ => Box::new(Card::start()),
    };
    case.opening.iter().for_each(|octets| host.offer(octets));
    host
}

/// True if all do the same with the messages of a case, offered one by one and
/// repeated, and the last of them gets the number that is expected.
pub fn agree(case: &Case) -> bool {
    let mut hosts = [0, 1, 2, 3].map(|way| open(way, case));
    let same = |hosts: &[Box<dyn Host>]| {
        let expected = hosts[RUST].seen();
        hosts.iter().all(|host| host.seen() == expected)
    };
    let opened = same(&hosts);
    let offered = case.messages.iter().all(|octets| {
        hosts.iter_mut().for_each(|host| host.offer(octets));
        same(&hosts)
    });
    let answered = hosts[RUST].seen().reply.number == case.number;
    let repeated = [2, 3].into_iter().all(|times| {
        for host in &mut hosts {
            host.repeat(&case.messages, times);
        }
        same(&hosts)
    });
    opened && offered && answered && repeated
}

/// "lends 12,000 numbers and 1,024 octets"; request C-12: "the listing lends
/// 65,536 octets".
pub struct Lent {
    pub rows: Vec<i32>,
    pub levels: Vec<u8>,
    pub assembly: Vec<u8>,
}

impl Lent {
    pub fn new() -> Lent {
        Lent {
            rows: vec![-7; 12_000],
            levels: vec![7; 1_024],
            assembly: vec![7; 65_536],
        }
    }

    pub fn seen(&self, reply: second::Reply, readings: [u64; 3]) -> Seen<'_> {
        Seen {
            reply,
            readings,
            rows: &self.rows,
            levels: &self.levels,
            assembly: &self.assembly,
        }
    }
}

/// The proved receiver, by value.
pub struct ByValue {
    pub kept: Box<Outcome>,
    lent: Lent,
}

impl ByValue {
    pub fn start() -> ByValue {
        ByValue {
            kept: Box::new(calls::start([0; 3])),
            lent: Lent::new(),
        }
    }
}

/// turn_message of turns.c.
#[repr(C)]
struct TurnMessage {
    octets: *const u8,
    length: usize,
}

/// turn_lent of turns.c.
#[repr(C)]
struct TurnLent {
    rows: *mut i32,
    rows_length: usize,
    levels: *mut u8,
    levels_length: usize,
    assembly: *mut u8,
    assembly_length: usize,
}

extern "C" {
    /// turns.c: messages in order, so many times, by a C host that keeps two
    /// outcomes by turns.
    fn offer_in_turns(
        kept: *mut Outcome,
        times: usize,
        messages: *const TurnMessage,
        count: usize,
        lent: *const TurnLent,
    );
}

impl Host for ByValue {
    fn repeat(&mut self, messages: &[Vec<u8>], times: usize) {
        let turns: Vec<TurnMessage> = messages
            .iter()
            .map(|octets| TurnMessage {
                octets: octets.as_ptr(),
                length: octets.len(),
            })
            .collect();
        let lent = &mut self.lent;
        let lent = TurnLent {
            rows: lent.rows.as_mut_ptr(),
            rows_length: lent.rows.len(),
            levels: lent.levels.as_mut_ptr(),
            levels_length: lent.levels.len(),
            assembly: lent.assembly.as_mut_ptr(),
            assembly_length: lent.assembly.len(),
        };
        // SAFETY: the pointers and lengths are those of slices, and what is
        // written is borrowed alone.
        unsafe { offer_in_turns(&mut *self.kept, times, turns.as_ptr(), turns.len(), &lent) }
    }

    /// The outcome is kept in one place, as a plain host does.
    fn offer(&mut self, octets: &[u8]) {
        let lent = &mut self.lent;
        let (rows, levels) = (&mut lent.rows, &mut lent.levels);
        *self.kept = calls::message(
            &self.kept.receiver,
            octets,
            rows,
            levels,
            &mut lent.assembly,
        );
        black_box((&self.lent.rows, &self.lent.levels, &self.kept));
    }

    fn seen(&self) -> Seen<'_> {
        let readings = calls::readings(&self.kept.receiver);
        self.lent.seen(self.kept.reply.own(), readings)
    }
}

/// The proved receiver, in place.
pub struct InPlace {
    pub receiver: Box<calls::Receiver>,
    reply: calls::Reply,
    lent: Lent,
}

impl InPlace {
    pub fn start() -> InPlace {
        let mut receiver = Box::new(calls::Receiver {
            meters: [7; 3],
            gathered: [7; 4],
            channels: [7; 6528],
        });
        let reply = calls::begin_on(receiver.arrays(), [0; 3]);
        InPlace {
            receiver,
            reply,
            lent: Lent::new(),
        }
    }
}

impl Host for InPlace {
    fn offer(&mut self, octets: &[u8]) {
        let lent = &mut self.lent;
        let (rows, levels) = (&mut lent.rows, &mut lent.levels);
        let record = self.receiver.arrays();
        self.reply = calls::offer_on(record, octets, rows, levels, &mut lent.assembly);
        black_box((&self.lent.rows, &self.lent.levels, &self.reply));
    }

    fn seen(&self) -> Seen<'_> {
        let readings = calls::readings_on(&self.receiver.meters);
        self.lent.seen(self.reply.own(), readings)
    }
}

/// The receiver of tests/decoder.
struct Second {
    receiver: second::Receiver,
    reply: second::Reply,
    lent: Lent,
}

impl Second {
    fn start() -> Second {
        let (receiver, reply) = second::Receiver::start(0, 0, 0);
        Second {
            receiver,
            reply,
            lent: Lent::new(),
        }
    }
}

impl Host for Second {
    fn offer(&mut self, octets: &[u8]) {
        let lent = &mut self.lent;
        let (rows, levels) = (&mut lent.rows, &mut lent.levels);
        self.reply = (self.receiver).message(octets, rows, levels, &mut lent.assembly);
        black_box((&self.lent.rows, &self.lent.levels, &self.reply));
    }

    fn seen(&self) -> Seen<'_> {
        self.lent.seen(self.reply, self.receiver.readings())
    }
}
