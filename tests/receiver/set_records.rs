//! Sets on records that a host changed. A broken record: "Check 1 comes first,
//! at place 0", also where the list is empty or malformed, and the record is
//! handed back as it came. One that keeps the consistency rule: the set does
//! what its messages one by one do.

use crate::calls::{self, Receiver};
use crate::messages::{close, keep_alive, FRAME, ROUTINGS};
use crate::patched::{self, both, hexadecimal, without_slices};
use crate::record::{shown, state, CHANNELS};
use crate::tally::Tally;
use decoder::set::SetReply;
use generate::random::Random;

/// The empty list, a lone octet, a size past the slice, a size below 8, a
/// message of another type, and routings that are accepted.
fn lists() -> [Vec<u8>; 6] {
    [
        Vec::new(),
        vec![0],
        FRAME[..3].to_vec(),
        vec![0, 7, 0x85, 0, 0, 0, 0, 0],
        FRAME.to_vec(),
        ROUTINGS.concat(),
    ]
}

/// The reply to each of them where the record is sound; the last one depends on
/// the record.
const SOUND: [(usize, u32); 5] = [(0, 0), (0, 2), (0, 2), (0, 2), (0, 4)];

/// Offers one of the lists, in turn, to a record that breaks the rule.
pub fn broken(record: &Receiver, way: &str, tally: &mut Tally) {
    let lists = lists();
    let octets = &lists[tally.sets.broken % lists.len()];
    let given = both(record, octets, way, tally);
    tally.sets.broken += 1;
    let first = SetReply {
        place: 0,
        number: 1,
    };
    // `both` compares the record after any refusal; 1 must not be another.
    let same = given.reply == first && given.record == *record;
    tally.same(same, || {
        let (reply, octets) = (given.reply, hexadecimal(octets));
        format!("{way}, a set: {reply:?}, or another record: {octets}")
    });
}

/// The same of a record that just keeps the rule.
pub fn sound(record: &Receiver, way: &str, tally: &mut Tally) {
    let turn = tally.sets.changed % SOUND.len();
    let octets = &lists()[turn];
    let given = both(record, octets, way, tally);
    tally.sets.changed += 1;
    let (place, number) = SOUND[turn];
    tally.same(given.reply == SetReply { place, number }, || {
        let (reply, octets) = (given.reply, hexadecimal(octets));
        format!("{way}, a set: {reply:?}: {octets}")
    });
}

/// Offers sets on eight open channels and a closed one to copies of a record
/// with any numbers of what is gathered.
pub fn gathered(record: &Receiver, tally: &mut Tally) {
    let mut random = Random::new(tally.sets.changed as u64);
    let of = |open: bool| (0..CHANNELS).filter(move |number| (state(record, *number) != 0) == open);
    for channel in of(true).take(8).chain(of(false).take(1)) {
        for octets in on_channel(channel) {
            let mut copy = *record;
            let own = channel as u32 + 1;
            let on = [own, own, own, 0, 65 - own, 256 + own, u32::MAX];
            let any = [(); 3].map(|()| random.next() as u32);
            copy.gathered = [random.pick(&on), any[0] & 63, any[1], any[2]];
            one_by_one(&copy, &octets, channel, tally);
        }
    }
}

/// Sets that leave, route, close or refuse a channel.
pub fn on_channel(channel: usize) -> [Vec<u8>; 6] {
    let (alive, closing) = (keep_alive(channel), close(channel));
    let mut routing = ROUTINGS[1];
    routing[2] = 0xC0 | channel as u8;
    [
        alive.to_vec(),
        [&routing[..], &alive].concat(),
        [&alive[..], &closing].concat(),
        [&routing[..], &closing, &alive].concat(),
        [&routing[..], &[0]].concat(),
        [&closing[..], &routing, &routing].concat(),
    ]
}

/// The set gives what its messages one by one give, and a record that answers a
/// keep-alive message and a frame like theirs.
pub fn one_by_one(copy: &Receiver, octets: &[u8], channel: usize, tally: &mut Tally) {
    let name = "a changed record, a set";
    let given = both(copy, octets, name, tally);
    let own = patched::one_by_one(copy, octets);
    let shows = |record: &Receiver| {
        let alive = without_slices(record, &keep_alive(channel));
        let frame = without_slices(&alive.receiver, &FRAME);
        let replies = [alive.reply.own(), frame.reply.own()];
        let gathered = [record.gathered, frame.receiver.gathered];
        let gathered = gathered.map(|numbers| shown(&numbers));
        (replies, gathered, calls::readings(record))
    };
    tally.sets.changed += 1;
    let same = given.reply == own.reply && shows(&given.record) == shows(&own.record);
    tally.same(same, || {
        let (replies, octets) = ([given.reply, own.reply], hexadecimal(octets));
        let numbers = copy.gathered;
        format!("{name}, gathered {numbers:?}: {replies:?}, or what it shows: {octets}")
    });
}
