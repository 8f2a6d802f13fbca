//! Request C-12, check 26: "or over 1,000,000,000 of them". A record of which a
//! host changed the octets so far stands for that many messages.

use crate::calls::{self, Receiver};
use crate::lent::Record;
use crate::messages::sequel;
use crate::record::{state, CHANNELS, FRAMES};
use crate::tally::Tally;

pub const MOST: u32 = 1_000_000_000;

/// The slice is that long, but only where octets are written does it take memory.
pub fn offer(record: &Receiver, tally: &mut Tally) {
    let channel = (0..CHANNELS).find(|number| state(record, *number) == FRAMES);
    let channel = channel.unwrap();
    let mut assembly = vec![0; MOST as usize + 4];
    let mut now = *record;
    now.gathered = [channel as u32 + 1, MOST - 5, 7, 2];
    for (data, number) in [(&[1, 2, 3, 4, 5][..], 0), (&[], 0), (&[6], 26)] {
        let timestamp = 7u32.wrapping_add(now.gathered[3]);
        let octets = sequel(channel, timestamp, false, data);
        let mut lent = Record::of(&now);
        let next = calls::message(&now, &octets, &mut [], &mut [], &mut assembly);
        let reply = lent.offer_assembly(&octets, &mut assembly);
        now = next.receiver;
        tally.gathered += 1;
        tally.same(
            [next.reply.own(), reply].map(|reply| reply.number) == [number; 2] && lent.holds(&now),
            || format!("{MOST} octets, {data:?} more: {reply:?}"),
        );
    }
    let end = &assembly[MOST as usize - 6..];
    tally.same(end == [0, 1, 2, 3, 4, 5, 0, 0, 0, 0], || {
        format!("{MOST} octets end with {end:?}")
    });
}
