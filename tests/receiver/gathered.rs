//! Records of which a host changed the numbers of the frame that is being
//! gathered. No value of them breaks the consistency rule (include/mewkoast.h),
//! so they are taken as they stand. What is expected is request C-12; a frame
//! that a last fragment completes is answered like one message of its octets.

use crate::calls::Receiver;
use crate::lent::{Record, Slices};
use crate::messages::{close, first_fragment, frame, keep_alive, sequel};
use crate::most::MOST;
use crate::record::{match_bits, shown, size, state, CHANNELS, FRAMES, VOID};
use crate::tally::Tally;
use decoder::chunk::Lent;
use decoder::message::{FRAME, SEQUEL};
use decoder::receiver::Reply;
use generate::random::Random;

/// What is lent to the changed records: rows of 20 points.
const LENT: Lent = Lent {
    rows: 480,
    levels: 1024,
    assembly: 64,
};

/// Sequels offered on each channel.
const TRIES: usize = 40;

/// Offers messages on eight open channels to copies of a record.
pub fn offer(record: &Receiver, tally: &mut Tally) {
    let mut copies = Copies {
        record: *record,
        random: Random::new(tally.gathered as u64),
        channel: 0,
        tally,
    };
    let open = (0..CHANNELS).filter(|number| state(record, *number) != 0);
    for channel in open.take(8) {
        copies.channel = channel;
        for _ in 0..TRIES {
            copies.sequel();
        }
        copies.others();
    }
}

/// A sequel, and what is expected of it.
struct Sequel {
    timestamp: u32,
    last: bool,
    data: Vec<u8>,
}

enum Expected {
    /// A number without effect but this on what is gathered.
    Number(u32, Option<[u32; 4]>),
    /// Accepted, its octets behind those before.
    Gathered([u32; 4]),
    /// The last one of a frame of so many octets.
    Whole(usize),
    /// No history comes to it, and no paper speaks of it.
    Unsaid,
}

/// "a refusal has 0 in all but the number".
fn refused(number: u32) -> Reply {
    Reply {
        number,
        ..Reply::default()
    }
}

/// What both ways gave.
struct Given {
    reply: Reply,
    record: Receiver,
    slices: Slices,
}

struct Copies<'a> {
    record: Receiver,
    random: Random,
    channel: usize,
    tally: &'a mut Tally,
}

impl Copies<'_> {
    fn own(&self) -> u32 {
        self.channel as u32 + 1
    }

    /// Numbers of which most say that a frame is gathered on the channel.
    fn numbers(&mut self) -> [u32; 4] {
        let (own, lent) = (self.own(), LENT.assembly as u32);
        let random = &mut self.random;
        let states = [own, own, own, own, own, 0, 65 - own, 256 + own, u32::MAX];
        let counts = [0, 3, 4, 10, 31, lent - 3, lent, lent + 1, MOST, u32::MAX];
        let sequels = [0, 1, 2, 39, u32::MAX];
        let any = random.next() as u32;
        [
            random.pick(&states),
            random.pick(&counts),
            random.pick(&[0, any, u32::MAX]),
            random.pick(&sequels),
        ]
    }

    /// How many octets a sequel has; in most cases samples are whole with it.
    fn octets(&mut self) -> usize {
        let most = self.random.pick(&[0, 3, 12]);
        let octets = self.random.between(0, most);
        let width = usize::from(size(&self.record, self.channel)).max(1);
        let samples = (self.record.gathered[1] as usize + octets).saturating_sub(4);
        match self.random.chance(70) {
            true => octets + samples.next_multiple_of(width) - samples,
            false => octets,
        }
    }

    fn sequel(&mut self) {
        self.record.gathered = self.numbers();
        let [_, _, first, number] = self.record.gathered;
        let due = first.wrapping_add(number);
        let octets = self.octets();
        let random = &mut self.random;
        let wrong = [due.wrapping_add(1), due.wrapping_sub(1), first, number];
        let sequel = Sequel {
            timestamp: match random.chance(80) {
                true => due,
                false => random.pick(&wrong),
            },
            last: random.chance(50),
            data: random.octets(octets),
        };
        let expected = self.expected(&sequel);
        let octets = self::sequel(self.channel, sequel.timestamp, sequel.last, &sequel.data);
        let before = Slices::new(LENT, self.random.next() as u32);
        let given = self.given(&octets, &before);
        self.compare(&sequel, expected, &before, given);
    }

    /// Request C-12, "Errors", and what is gathered after it.
    fn expected(&self, sequel: &Sequel) -> Expected {
        let [on, count, first, number] = self.record.gathered;
        let mode = state(&self.record, self.channel);
        // "in mode 0 they are accepted, past 24 to 26, and ignored".
        if mode == VOID {
            return Expected::Number(0, shown(&self.record.gathered));
        }
        if on != self.own() {
            return Expected::Number(24, shown(&self.record.gathered));
        }
        if sequel.timestamp != first.wrapping_add(number) {
            return Expected::Number(25, None);
        }
        // A routing drops what was gathered, so no other mode has a frame.
        if mode != FRAMES {
            return Expected::Unsaid;
        }
        let so_far = count as usize + sequel.data.len();
        match so_far {
            _ if so_far > LENT.assembly => Expected::Number(26, None),
            _ if !sequel.last => {
                Expected::Gathered([on, so_far as u32, first, number.wrapping_add(1)])
            }
            // A first fragment has the header of four octets.
            0..4 => Expected::Unsaid,
            _ => Expected::Whole(so_far),
        }
    }

    /// Offers a message to the copy in both ways, which must give the same.
    fn given(&mut self, octets: &[u8], before: &Slices) -> Given {
        let (mut first, mut second) = (before.clone(), before.clone());
        let next = first.message(&self.record, octets);
        let mut lent = Record::of(&self.record);
        let replies = [next.reply.own(), lent.offer(octets, &mut second)];
        let same = replies[0] == replies[1] && lent.holds(&next.receiver) && first == second;
        let numbers = self.record.gathered;
        self.tally.gathered += 1;
        self.tally
            .same(same, || format!("gathered {numbers:?}: {replies:?}"));
        Given {
            reply: replies[0],
            record: next.receiver,
            slices: first,
        }
    }

    fn compare(&mut self, sequel: &Sequel, expected: Expected, before: &Slices, given: Given) {
        let mut slices = before.clone();
        let mut record = self.record;
        let (wanted, gathered) = match expected {
            Expected::Unsaid => return,
            Expected::Number(0, gathered) => (self.accepted(sequel), gathered),
            Expected::Number(number, gathered) => (refused(number), gathered),
            Expected::Gathered(gathered) => {
                self.append(sequel, &mut slices);
                (self.accepted(sequel), Some(gathered))
            }
            Expected::Whole(octets) => {
                self.append(sequel, &mut slices);
                (self.whole(octets, sequel, &mut slices, &mut record), None)
            }
        };
        let (numbers, reply) = (self.record.gathered, given.reply);
        let after = shown(&given.record.gathered);
        let same = reply == wanted
            && after == gathered
            && given.slices == slices
            && (given.record.channels, given.record.meters) == (record.channels, record.meters);
        self.tally.same(same, || {
            format!("gathered {numbers:?}: {reply:?}, {after:?}, expected {wanted:?}, {gathered:?}")
        });
    }

    /// The octets of a sequel behind those before.
    fn append(&self, sequel: &Sequel, slices: &mut Slices) {
        let place = self.record.gathered[1] as usize;
        let octets = &mut slices.assembly.slice()[place..];
        octets[..sequel.data.len()].copy_from_slice(&sequel.data);
    }

    /// The reply to a sequel that is accepted and not the last: its own type
    /// and timestamp, and the rest like that of a Void chunk.
    fn accepted(&self, sequel: &Sequel) -> Reply {
        let alive = Slices::new(LENT, 0).message(&self.record, &keep_alive(self.channel));
        Reply {
            kind: SEQUEL,
            timestamp: sequel.timestamp,
            ..alive.reply.own()
        }
    }

    /// "the whole is checked by 20 to 23 and drawn as 0x02": the frame in one
    /// message to a record without a frame. SCM was compared at the first
    /// fragment and is not looked at again.
    fn whole(
        &self,
        octets: usize,
        last: &Sequel,
        slices: &mut Slices,
        record: &mut Receiver,
    ) -> Reply {
        let frame = &slices.assembly.read()[..octets];
        let mut message = sequel(self.channel, last.timestamp, false, frame);
        message[3] = FRAME;
        message[8] = message[8] & 0xCF | match_bits(record, self.channel) << 4;
        record.gathered = [0; 4];
        let next = slices.message(record, &message);
        *record = next.receiver;
        match next.reply.own() {
            reply if reply.number == 0 => Reply {
                kind: SEQUEL,
                ..reply
            },
            reply => reply,
        }
    }

    /// Messages that are no sequels get what they get where no frame is
    /// gathered, and begin, drop or leave the one that is.
    fn others(&mut self) {
        let channel = self.channel;
        let (routing, first) = (frame(channel), first_fragment(channel));
        let (alive, closing) = (keep_alive(channel), close(channel));
        let messages: [(&[u8], bool); 5] = [
            (&alive, false),
            (&routing[..30], false),
            (&routing, true),
            (&closing, true),
            (&first, false),
        ];
        for (octets, decides) in messages {
            for _ in 0..4 {
                self.other(octets, decides);
            }
        }
    }

    fn other(&mut self, octets: &[u8], decides: bool) {
        let slices = Slices::new(LENT, 7);
        self.record.gathered = [0; 4];
        let expected = self.given(octets, &slices);
        self.record.gathered = self.numbers();
        let given = self.given(octets, &slices);
        let number = given.reply.number;
        let begins = number == 0 && expected.record.gathered[0] != 0;
        let drops = number == 19 || (number == 0 && decides);
        let numbers = self.record.gathered;
        let gathered = match begins {
            true => shown(&expected.record.gathered),
            false => shown(&numbers).filter(|held| !(drops && held[0] == self.own())),
        };
        let (after, wanted) = (&given.record, &expected.record);
        let same = given.reply == expected.reply
            && given.slices == expected.slices
            && (after.channels, after.meters) == (wanted.channels, wanted.meters)
            && shown(&after.gathered) == gathered;
        let reply = given.reply;
        self.tally.same(same, || {
            format!("gathered {numbers:?}, no sequel: {reply:?}")
        });
    }
}
