//! Frames on their way in fragments, as request C-12 has them, and the faults
//! that a fragment may have in every place of the sequence.

use crate::damage::size;
use crate::draft::Draft;
use crate::random::Random;
use decoder::message::{Channel, MOST, SEQUEL};

/// The most octets of data that a fragment is given; a configuration header
/// with its words may come before those of the first one.
const MOST_DATA: usize = MOST - 8 - 4 - 1_020;

#[derive(Clone, Copy)]
enum Fault {
    /// A timestamp that is so much off.
    Off(u32),
    FarOff,
    /// The first's own timestamp.
    AtFirst,
    /// It is left out, and the one behind it is sent.
    Missing,
    /// It is sent, and next time again.
    Repeated,
    Elsewhere,
    /// The mark of the last where it should not be, or not where it should.
    Mark,
    /// The first fragment once more, on its channel or another one.
    FirstAgain,
    FirstElsewhere,
    /// None of its octets.
    Empty,
}

/// What is rarest among its effects stands twice.
const FAULTS: [Fault; 13] = [
    Fault::Off(1),
    Fault::Off(u32::MAX),
    Fault::FarOff,
    Fault::AtFirst,
    Fault::AtFirst,
    Fault::Missing,
    Fault::Repeated,
    Fault::Elsewhere,
    Fault::Elsewhere,
    Fault::Mark,
    Fault::FirstAgain,
    Fault::FirstElsewhere,
    Fault::Empty,
];

/// A frame that is cut.
pub struct Split {
    /// With the data of the first fragment.
    first: Draft,
    /// The data of the sequels.
    sequels: Vec<Vec<u8>>,
    /// The number of the next fragment; the first is 0.
    next: usize,
    /// The sequels that come after the last.
    after: usize,
    /// The number of a fragment and the fault that it has.
    fault: Option<(usize, Fault)>,
}

impl Split {
    /// A message with a whole frame, cut into 1 to 40 fragments, or more where
    /// it needs them. One of the cuts may be where an assembly slice of the
    /// given length ends.
    pub fn new(random: &mut Random, mut whole: Draft, length: usize) -> Split {
        let mut sequels = Vec::new();
        let mut rest = std::mem::take(&mut whole.data);
        for cut in cuts(random, rest.len(), length).into_iter().rev() {
            sequels.push(rest.split_off(cut));
        }
        sequels.reverse();
        whole.data = rest;
        let near_the_wrap = u32::MAX - random.below(6) as u32;
        whole.timestamp = random.pick(&[whole.timestamp, whole.timestamp, near_the_wrap]);
        let any = random.between(0, sequels.len());
        let place = random.pick(&[1, any, any, sequels.len(), sequels.len()]);
        let fault = (place, random.pick(&FAULTS));
        Split {
            first: whole,
            sequels,
            next: 0,
            after: usize::from(random.chance(15)),
            fault: Some(fault).filter(|_| random.chance(40)),
        }
    }

    /// The octets so far after each fragment.
    pub fn sums(&self) -> Vec<usize> {
        let mut sums = vec![self.first.data.len()];
        for sequel in &self.sequels {
            sums.push(sums[sums.len() - 1] + sequel.len());
        }
        sums
    }

    pub fn channel(&self) -> Channel {
        self.first.channel
    }

    /// True where the first fragment was sent.
    pub fn begun(&self) -> bool {
        self.next > 0
    }

    /// True where no fragment is left to send.
    pub fn done(&self) -> bool {
        let behind = if self.sequels.is_empty() {
            0
        } else {
            self.after
        };
        self.next > self.sequels.len() + behind
    }

    /// The next fragment, with a fault or without.
    pub fn fragment(&mut self, random: &mut Random, channels: &[u8]) -> Vec<u8> {
        let due = self.fault.take_if(|(place, _)| *place == self.next);
        let fault = due.map(|(_, fault)| fault);
        match fault {
            Some(Fault::FirstAgain) => return self.first.octets(),
            Some(Fault::FirstElsewhere) => {
                let channel = Channel(random.pick(channels));
                let first = self.first.clone();
                return Draft { channel, ..first }.octets();
            }
            Some(Fault::Missing) if self.next < self.sequels.len() => self.next += 1,
            _ => {}
        }
        let mut octets = if self.next == 0 {
            self.first.octets()
        } else {
            self.sequel(random, fault)
        };
        if let Some(Fault::Elsewhere) = fault {
            octets[2] = octets[2] & 0xC0 | random.pick(channels);
        }
        if !matches!(fault, Some(Fault::Repeated)) {
            self.next += 1;
        }
        octets
    }

    fn sequel(&self, random: &mut Random, fault: Option<Fault>) -> Vec<u8> {
        let number = self.next as u32;
        let due = self.first.timestamp.wrapping_add(number);
        let timestamp = match fault {
            Some(Fault::Off(off)) => due.wrapping_add(off),
            Some(Fault::FarOff) => random.next() as u32,
            Some(Fault::AtFirst) => self.first.timestamp,
            _ => due,
        };
        let mut last = self.next >= self.sequels.len();
        if let Some(Fault::Mark) = fault {
            last = !last;
        }
        let data = match (fault, self.sequels.get(self.next - 1)) {
            (Some(Fault::Empty), _) => &[],
            (_, Some(data)) => data.as_slice(),
            (_, None) => &[1, 2, 3],
        };
        let mark = u8::from(last) << 6;
        let mut octets = vec![0, 0, 0x80 | mark | self.first.channel.0, SEQUEL];
        octets.extend(timestamp.to_be_bytes());
        octets.extend(data);
        size(&mut octets);
        octets
    }
}

/// The octets after which a frame of so many octets is cut, in order. Most
/// often the first fragment keeps the header whole.
fn cuts(random: &mut Random, octets: usize, length: usize) -> Vec<usize> {
    let few = random.between(3, 6);
    let many = random.between(6, 40);
    let count = random.pick(&[1, 2, 2, 2, 3, few, few, few, many, 40]);
    let behind = if random.chance(4) { 0 } else { 4.min(octets) };
    let mut cuts: Vec<usize> = (1..count).map(|_| random.between(behind, octets)).collect();
    let end = length + random.below(2);
    if let Some(cut) = cuts.first_mut() {
        if (behind..=octets).contains(&end) && random.chance(40) {
            *cut = end;
        }
    }
    cuts.extend((1..=octets / MOST_DATA).map(|part| part * MOST_DATA));
    cuts.sort_unstable();
    cuts
}
