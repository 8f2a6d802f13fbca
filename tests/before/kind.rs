//! In what the two builds differ on one start or message.

use crate::builds::Given;
use crate::lent::Lent;
use crate::seen::named;
use decoder::message::SEQUEL;
use decoder::receiver::Reply;

/// Differences that are counted together.
#[derive(Clone, PartialEq, Eq, PartialOrd, Ord)]
pub struct Kind {
    /// The numbers of the replies: of the earlier build, of the present one.
    pub numbers: [u32; 2],
    /// "start", or the chunk type of the message and whether it routes, or is
    /// marked as the last.
    pub offered: String,
    /// Where both accepted: by how much the lit points grew.
    pub lit: Option<i64>,
    /// The names of all that differs.
    pub parts: Vec<&'static str>,
}

impl Kind {
    /// None where nothing differs. Without octets it is a start.
    pub fn of(before: &Given, now: &Given, octets: Option<&[u8]>) -> Option<Kind> {
        let parts = parts(before, now, octets);
        if parts.is_empty() {
            return None;
        }
        let numbers = [before.reply.number, now.reply.number];
        let [earlier, present] = [before, now].map(|given| i64::from(given.reply.lit_points));
        Some(Kind {
            numbers,
            offered: octets.map_or("start".to_string(), offered),
            lit: (numbers == [0, 0]).then_some(present - earlier),
            parts,
        })
    }
}

/// The names of what differs: fields of the reply, the slices, the arrays of the
/// record and the data section. The margins of slices and arrays count as a part
/// of them.
fn parts(before: &Given, now: &Given, octets: Option<&[u8]>) -> Vec<&'static str> {
    let mut parts = of_reply(&before.reply, &now.reply);
    let (old, new) = (&before.slices, &now.slices);
    let (record, after) = (&before.record, &now.record);
    let (meters, risen) = (record.meters.read(), after.meters.read());
    parts.extend(named([
        ("rows", old.rows != new.rows),
        ("levels slice", old.levels != new.levels),
        ("assembly slice", old.assembly != new.assembly),
        ("meter lit_time", meters[0] != risen[0]),
        ("meter points", meters[1] != risen[1]),
        ("meter lit_points", meters[2] != risen[2]),
        ("gathered", record.gathered != after.gathered),
        ("data section", before.section != now.section),
    ]));
    if record.channels != after.channels {
        let alone =
            octets.is_some_and(|octets| only_state(&record.channels, &after.channels, octets));
        parts.push(if alone {
            "state of its channel"
        } else {
            "channel octets"
        });
    }
    parts
}

/// Whether the channels differ in the state of the message's own channel and in
/// nothing else: the states of all channels stand first.
fn only_state(old: &Lent<u8>, new: &Lent<u8>, octets: &[u8]) -> bool {
    let Some(own) = octets.get(2).map(|octet| usize::from(octet % 64)) else {
        return false;
    };
    let mut closed = old.clone();
    closed.slice()[own] = new.read()[own];
    closed == *new
}

/// Fields of the reply under their names in include/mewkoast.h. Where the
/// numbers differ the number alone: one of the two refuses, with 0 in the rest.
fn of_reply(old: &Reply, new: &Reply) -> Vec<&'static str> {
    if old.number != new.number {
        return vec!["number"];
    }
    named([
        ("channel", old.channel != new.channel),
        ("chunk_type", old.kind != new.kind),
        ("timestamp", old.timestamp != new.timestamp),
        ("space", old.space != new.space),
        ("points", old.points != new.points),
        ("lit_points", old.lit_points != new.lit_points),
        ("levels", old.levels != new.levels),
    ])
}

/// Document 01, "One message": octet 3 is the type, CCLF is in octet 2, and
/// Routing is the last bit of octet 9. Request C-12: a sequel never routes, and
/// its CCLF marks the last. The octets are read as they stand, since a message
/// that is refused has them too.
fn offered(octets: &[u8]) -> String {
    let bit = |place: usize, mask: u8| octets.get(place).is_some_and(|octet| octet & mask != 0);
    match octets.get(3) {
        Some(&SEQUEL) if bit(2, 0x40) => "type C0, last".to_string(),
        Some(&SEQUEL) => "type C0".to_string(),
        Some(kind) if bit(2, 0x40) && bit(9, 0x01) => format!("type {kind:02X}, routes"),
        Some(kind) => format!("type {kind:02X}"),
        None => "no type".to_string(),
    }
}
