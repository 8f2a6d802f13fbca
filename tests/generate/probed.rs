//! Whether the messages of probes.rs tell receivers apart: those before and
//! after an accepted set.

use crate::mixed::{mixed, Call};
use crate::probes::probes;
use crate::random::Random;
use crate::stream::Offer;
use decoder::message::Channel;
use decoder::receiver::{Receiver, Reply};

/// What a receiver gives for a message: reply, rows, levels and assembly slice.
type Given = (Reply, Vec<i32>, Vec<u8>, Vec<u8>);

fn shown(receiver: &Receiver, probes: &[Offer]) -> Vec<Given> {
    let mut receiver = receiver.clone();
    let offer = |probe: &Offer| {
        let mut rows = vec![-1; probe.lent.rows];
        let mut levels = vec![1; probe.lent.levels];
        let mut assembly = vec![1; probe.lent.assembly];
        let reply = receiver.message(&probe.octets, &mut rows, &mut levels, &mut assembly);
        (reply, rows, levels, assembly)
    };
    probes.iter().map(offer).collect()
}

/// True if the receivers have come to the same, but for services, which no
/// later call shows.
fn same(first: &Receiver, second: &Receiver) -> bool {
    let of = |receiver: &Receiver, channel: Channel| {
        let own = receiver.governing(channel);
        own.map(|own| (own.mode, own.sdm, own.tags.clone()))
    };
    let mut channels = (0..64).map(Channel);
    channels.all(|channel| of(first, channel) == of(second, channel))
        && first.gathering() == second.gathering()
}

/// The receivers before and after each accepted set of a list.
fn accepted(calls: &[Call], start: [u64; 3]) -> Vec<[Receiver; 2]> {
    let (mut receiver, _) = Receiver::start(start[0], start[1], start[2]);
    let mut list = Vec::new();
    for call in calls {
        let before = receiver.clone();
        match call {
            Call::Set(octets) if receiver.patch(octets).number == 0 => {
                list.push([before, receiver.clone()]);
            }
            Call::Set(_) => {}
            Call::Message(offer) => {
                let mut rows = vec![0; offer.lent.rows];
                let mut levels = vec![0; offer.lent.levels];
                let mut assembly = vec![0; offer.lent.assembly];
                receiver.message(&offer.octets, &mut rows, &mut levels, &mut assembly);
            }
        }
    }
    list
}

/// Tags that differ may still give the same row for an octet at random, so a
/// few differences may go unseen.
#[test]
fn sets_are_shown() {
    let mut random = Random::new(8);
    let (mut alike, mut told, mut untold) = (0, 0, 0);
    for _ in 0..150 {
        let list = mixed(&mut random, 60);
        for [before, after] in accepted(&list.calls, list.start) {
            let probes = probes(&mut random, &after);
            let differs = shown(&before, &probes) != shown(&after, &probes);
            match (same(&before, &after), differs) {
                (true, differs) => {
                    assert!(!differs);
                    alike += 1;
                }
                (false, true) => told += 1,
                (false, false) => untold += 1,
            }
        }
    }
    println!("{alike} sets left the same, {told} are told, {untold} are not");
    assert!(alike >= 40 && told >= 300, "{alike} {told}");
    assert!(untold * 50 <= told, "{told} {untold}");
}
