//! Datagrams put together from fragments, which may come in any order and mixed
//! with those of other datagrams.

use std::collections::{BTreeMap, HashMap};
use std::net::IpAddr;

use crate::counts::{Counts, Reason};
use crate::ip::Fragment;

/// How long a datagram is gathered, in nanoseconds of capture time. Hosts give
/// up after a time of this order, and identifications come again.
const LONGEST: u128 = 30_000_000_000;
/// How many datagrams are gathered at once.
const MOST: usize = 1024;

/// What the fragments of a datagram have in common. The addresses tell the
/// version of IP, too.
#[derive(Clone, Copy, Debug, PartialEq, Eq, Hash)]
pub struct Key {
    pub from: IpAddr,
    pub to: IpAddr,
    pub protocol: u8,
    pub identification: u32,
}

/// What fragments gave, and how many packets it took.
pub struct Whole {
    pub octets: Vec<u8>,
    pub packets: usize,
}

/// A datagram of which fragments are missing.
struct Part<'a> {
    /// A number that is higher for each part begun later.
    serial: u64,
    /// When the first fragment came.
    since: Option<u128>,
    /// The octets that are there, by place. No two pieces overlap.
    pieces: BTreeMap<usize, &'a [u8]>,
    /// How many octets are there.
    covered: usize,
    /// The length of the whole, once the last fragment is there.
    end: Option<usize>,
    /// How many packets it took so far.
    packets: usize,
}

/// All datagrams of which fragments are missing.
#[derive(Default)]
pub struct Gathering<'a> {
    parts: HashMap<Key, Part<'a>>,
    /// The keys of the parts by serial number, so the first is found at once.
    order: BTreeMap<u64, Key>,
    begun: u64,
    now: Option<u128>,
    /// No part is older than this.
    oldest: Option<u128>,
}

impl<'a> Gathering<'a> {
    /// Goes on to the time of a packet, and drops what is too old by then. A
    /// packet without a time has that of the one before.
    pub fn advance(&mut self, time: Option<u128>, counts: &mut Counts) {
        self.now = time.or(self.now);
        // Looking at each part for each packet would take long.
        if age(self.now, self.oldest) <= LONGEST {
            return;
        }
        let old = self.parts.iter();
        let old = old.filter(|(_, part)| age(self.now, part.since) > LONGEST);
        let old: Vec<Key> = old.map(|(key, _)| *key).collect();
        for key in old {
            self.drop(key, Reason::TooOld, counts);
        }
        self.oldest = self.parts.values().filter_map(|part| part.since).min();
    }

    /// Takes a fragment in, and gives the datagram if it was the last missing.
    pub fn add(&mut self, key: Key, fragment: &Fragment<'a>, counts: &mut Counts) -> Option<Whole> {
        if let Some(part) = self.parts.get_mut(&key) {
            if part.fits(fragment) {
                part.add(fragment);
            } else {
                self.drop(key, Reason::Contradicted, counts);
                self.begin(key, fragment);
            }
        } else {
            let first = self.order.first_key_value().map(|(_, key)| *key);
            if let (Some(first), MOST..) = (first, self.parts.len()) {
                self.drop(first, Reason::TooMany, counts);
            }
            self.begin(key, fragment);
        }
        let octets = self.parts.get(&key)?.whole()?;
        let packets = self.remove(key)?.packets;
        Some(Whole { octets, packets })
    }

    /// Begins a datagram with a fragment of it.
    fn begin(&mut self, key: Key, fragment: &Fragment<'a>) {
        let mut part = Part {
            serial: self.begun,
            since: self.now,
            pieces: BTreeMap::new(),
            covered: 0,
            end: None,
            packets: 0,
        };
        part.add(fragment);
        self.parts.insert(key, part);
        self.order.insert(self.begun, key);
        self.begun += 1;
        self.oldest = match (self.oldest, self.now) {
            (Some(oldest), Some(now)) => Some(oldest.min(now)),
            (oldest, now) => oldest.or(now),
        };
    }

    /// Takes a part out.
    fn remove(&mut self, key: Key) -> Option<Part<'a>> {
        let part = self.parts.remove(&key)?;
        self.order.remove(&part.serial);
        Some(part)
    }

    /// Takes a part out that will not be whole.
    fn drop(&mut self, key: Key, reason: Reason, counts: &mut Counts) {
        if let Some(part) = self.remove(key) {
            counts.datagram(reason, part.packets);
        }
    }

    /// Counts what is not whole at the end of the capture.
    pub fn finish(self, counts: &mut Counts) {
        for part in self.parts.values() {
            counts.datagram(Reason::Unfinished, part.packets);
        }
    }
}

/// How old something is, nothing where a time is not known. Times that go back
/// make nothing old.
fn age(now: Option<u128>, since: Option<u128>) -> u128 {
    match (now, since) {
        (Some(now), Some(since)) => now.saturating_sub(since),
        _ => 0,
    }
}

impl<'a> Part<'a> {
    /// Whether a fragment agrees with those that are there, on where the end is
    /// and on the octets that they share.
    fn fits(&self, fragment: &Fragment) -> bool {
        let start = fragment.start;
        let end = start + fragment.octets.len();
        let ends = match (self.end, fragment.last) {
            (Some(whole), true) => end == whole,
            (Some(whole), false) => end < whole,
            // None of those that are there is the last one.
            (None, true) => self.reach() < end,
            (None, false) => true,
        };
        ends && self.between(start, end).all(|(at, piece)| {
            let (from, to) = (start.max(at), end.min(at + piece.len()));
            let old = piece.get(from - at..to - at);
            let new = fragment.octets.get(from - start..to - start);
            old == new
        })
    }

    /// Adds what is new in a fragment that fits.
    fn add(&mut self, fragment: &Fragment<'a>) {
        let end = fragment.start + fragment.octets.len();
        let mut stretches = Vec::new();
        let mut place = fragment.start;
        for (at, piece) in self.between(fragment.start, end) {
            stretches.push((place, at));
            place = at + piece.len();
        }
        stretches.push((place, end));
        for (from, to) in stretches.into_iter().filter(|(from, to)| from < to) {
            let piece = fragment
                .octets
                .get(from - fragment.start..to - fragment.start);
            self.pieces.insert(from, piece.unwrap_or(&[]));
            self.covered += to - from;
        }
        if fragment.last {
            self.end = Some(end);
        }
        self.packets += 1;
    }

    /// The pieces that have octets between two places, in order.
    fn between(&self, start: usize, end: usize) -> impl Iterator<Item = (usize, &'a [u8])> + '_ {
        // The one that begins before may go on behind the start.
        let before = self.pieces.range(..start).next_back();
        let first = before.map_or(start, |(&at, _)| at);
        let pieces = self.pieces.range(first..end);
        let pieces = pieces.map(|(&at, &piece)| (at, piece));
        pieces.filter(move |(at, piece)| at + piece.len() > start)
    }

    /// The place behind the last octet that is there.
    fn reach(&self) -> usize {
        let last = self.pieces.last_key_value();
        last.map_or(0, |(at, piece)| at + piece.len())
    }

    /// The whole, if each octet of it is there.
    fn whole(&self) -> Option<Vec<u8>> {
        // Pieces neither overlap nor go past the end.
        if self.end? != self.covered {
            return None;
        }
        let mut octets = Vec::with_capacity(self.covered);
        for piece in self.pieces.values() {
            octets.extend_from_slice(piece);
        }
        Some(octets)
    }
}
