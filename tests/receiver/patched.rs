//! A set offered by value and in place, and its messages offered one by one:
//! request C-14, "All are accepted or none is, with the channels that offering
//! them one by one would leave."

use crate::calls::{self, Receiver};
use crate::lent::{Record, Slices};
use crate::record::shown;
use crate::set_calls;
use crate::tally::Tally;
use decoder::calls::NONE;
use decoder::end_to_end::end_to_end;
use decoder::message::VOID;
use decoder::set::SetReply;
use generate::stream::Offer;

/// How many octets of a set are printed with a difference.
const PRINTED: usize = 600;

/// The octets of a set, to offer it again.
pub fn hexadecimal(octets: &[u8]) -> String {
    let first = octets.iter().take(PRINTED);
    let digits: String = first.map(|octet| format!("{octet:02X}")).collect();
    match octets.len() > PRINTED {
        true => format!("{digits}... of {} octets", octets.len()),
        false => digits,
    }
}

/// The reply and the record after it.
#[derive(Clone, Copy)]
pub struct Patched {
    pub reply: SetReply,
    pub record: Receiver,
}

/// Both calls, which must give the same. "On refusal the record is as before",
/// octet for octet.
pub fn both(record: &Receiver, octets: &[u8], name: &str, tally: &mut Tally) -> Patched {
    let next = set_calls::patch(record, octets);
    let mut lent = Record::of(record);
    let in_place = set_calls::patch_on(lent.arrays(), octets).own();
    let reply = next.reply.own();
    tally.sets.number(reply.number);
    tally.same(reply == in_place && lent.holds(&next.receiver), || {
        let octets = hexadecimal(octets);
        format!("{name}: {reply:?} by value, {in_place:?} in place, or the records: {octets}")
    });
    let kept = reply.number == 0 || next.receiver == *record;
    tally.same(kept, || {
        format!(
            "{name}: a refusal changed the record: {}",
            hexadecimal(octets)
        )
    });
    Patched {
        reply,
        record: next.receiver,
    }
}

/// What the message calls say of the messages of a set, up to the first that is
/// refused, and what they leave. They know nothing of "A message of another type
/// is refused by 4", which comes behind their checks 2 and 3.
pub fn one_by_one(record: &Receiver, octets: &[u8]) -> Patched {
    let mut now = *record;
    let mut place = 0;
    for message in end_to_end(octets) {
        let number = message.map_or(2, |octets| {
            let arrays = now.arrays();
            let reply = calls::offer_on(arrays, octets, &mut [], &mut [], &mut []);
            match u32::from(reply.number) {
                number @ (2 | 3) => number,
                _ if octets[3] != VOID => 4,
                number => number,
            }
        });
        if number != 0 {
            let reply = SetReply { place, number };
            return Patched {
                reply,
                record: *record,
            };
        }
        place += 1;
    }
    Patched {
        reply: SetReply { place, number: 0 },
        record: now,
    }
}

/// True if two records answer the same messages alike: replies, slices,
/// readings and what is gathered.
pub fn alike(records: [&Receiver; 2], probes: &[Offer], name: &str, tally: &mut Tally) -> bool {
    let mut records = records.map(|record| *record);
    for (place, probe) in probes.iter().enumerate() {
        let slices = Slices::new(probe.lent, place as u32);
        let mut lent = [slices.clone(), slices];
        let mut replies = [Default::default(); 2];
        for which in 0..2 {
            let next = lent[which].message(&records[which], &probe.octets);
            records[which] = next.receiver;
            replies[which] = next.reply.own();
        }
        let [first, second] = &records;
        let same = replies[0] == replies[1]
            && lent[0] == lent[1]
            && calls::readings(first) == calls::readings(second)
            && shown(&first.gathered) == shown(&second.gathered);
        let told = tally.same(same, || {
            let octets = hexadecimal(&probe.octets);
            format!("{name}, message {place} behind, {octets}: {replies:?}, or the slices")
        });
        if !told {
            return false;
        }
    }
    true
}

/// Offers one message to a record without slices and gives what comes of it.
pub fn without_slices(record: &Receiver, octets: &[u8]) -> calls::Outcome {
    Slices::new(NONE, 0).message(record, octets)
}
