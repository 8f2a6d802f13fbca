//! Which situations of document 01 and of requests C-11 to C-13 and C-16 the
//! generated streams reach, and how often. Each of them must occur.

use crate::assembly::LONGEST;
use crate::random::Random;
use crate::stream::{stream, Offer, Stream};
use crate::{first_point, newer_tags, split_frames, split_table, two_checks};
use decoder::message::{self, Message, FRAME, LEVELS, SEQUEL, VOID, WAVE};
use decoder::receiver::{added, Receiver, Reply, LIMIT};
use decoder::route::{self, Governing, Tags};
use std::collections::BTreeMap;

type Counts = BTreeMap<String, u64>;

/// One message with what stood before it and what came of it.
pub struct Case<'a> {
    pub offer: &'a Offer,
    pub message: Message<'a>,
    /// The octets of a split frame, with the last fragment.
    pub whole: Option<Vec<u8>>,
    /// What governed the channel before the message.
    open: Option<Governing>,
    /// What governs the message, as far as it can be read.
    pub governing: Governing,
    pub reply: Reply,
    /// The readings before the message.
    pub meters: [u64; 3],
}

impl Case<'_> {
    fn note(&self, counts: &mut Counts) {
        let routed = self.message.routing.is_some();
        let was = if self.open.is_some() {
            "open"
        } else {
            "closed"
        };
        match self.reply.number {
            0 => self.accepted(counts, routed, was),
            19 => count(counts, format!("19, routing {routed}, {was}")),
            20 => self.samples(counts),
            22 => count(counts, format!("22, type {}", self.message.kind)),
            23 => self.limits(counts),
            _ => {}
        }
        for situation in first_point::situations(self) {
            count(counts, situation);
        }
    }

    fn accepted(&self, counts: &mut Counts, routed: bool, was: &str) {
        let mode = self.governing.mode;
        let kind = self.message.kind;
        let service = self.governing.service.0;
        count(counts, format!("accepted, mode {mode}, type {kind}"));
        if routed {
            count(
                counts,
                format!("routed, mode {mode}, service {service}, {was}"),
            );
        }
        if self.message.close {
            count(counts, format!("closed, routing {routed}"));
        }
        let header = self.offer.octets[2] & 0x40 != 0 && kind != SEQUEL;
        if !routed && header && self.offer.octets[8] != 0 {
            count(counts, format!("SCWC without Routing, type {kind}"));
        }
        if kind == VOID && self.reply.space != 0 {
            count(counts, "space modifier with a Void chunk".into());
        }
        if kind == LEVELS && self.offer.lent.levels > 1_024 {
            count(counts, "more than 1,024 levels lent".into());
        }
        let points = self.reply.points as usize;
        if points > 0 && self.offer.lent.rows == 24 * points {
            count(counts, "rows exactly enough".into());
        }
        if matches!((mode, kind), (1, WAVE) | (2, FRAME))
            && matches!(points, 0 | 2 | 20 | 100 | 500)
        {
            count(counts, format!("{points} points, mode {mode}"));
        }
        if points > 0 && self.reply.lit_points == 0 {
            count(counts, format!("dark, mode {mode}"));
        }
        if kind == FRAME && mode == 2 && points == 0 && self.passes_lit_time() {
            count(counts, "frame of 0 points, longer than is left".into());
        }
    }

    /// Its Duration is more than is left of the lit microseconds.
    fn passes_lit_time(&self) -> bool {
        let header = self.message.data;
        let duration = u32::from_be_bytes([0, header[1], header[2], header[3]]);
        self.meters[0] + u64::from(duration) > LIMIT
    }

    fn samples(&self, counts: &mut Counts) {
        if let Tags::Graphic(layout) = &self.governing.tags {
            let data = self.whole.as_deref().unwrap_or(self.message.data);
            let octets = data.len() - 4;
            let points = octets / layout.width();
            if octets % layout.width() != 0 {
                count(counts, "samples not whole".into());
            } else if points == 1 || points == 19 {
                count(counts, format!("20, {points} points"));
            }
        }
    }

    /// Which meter alone would pass its limit.
    fn limits(&self, counts: &mut Counts) {
        let bound = 1 << 25;
        for meter in 0..3 {
            if (0..3).all(|other| (other == meter) == (self.meters[other] > LIMIT - bound)) {
                count(counts, format!("23, meter {meter} alone"));
            }
        }
        assert_eq!(added(self.meters, [bound; 3]), None);
    }
}

fn count(counts: &mut Counts, situation: String) {
    *counts.entry(situation).or_default() += 1;
}

/// Offers a stream to the decoder's receiver and hands on each message that
/// can be read and is governed by something. Gives the number of start.
pub fn follow(stream: &Stream, mut note: impl FnMut(&Case)) -> u32 {
    let [lit_time, points, lit_points] = stream.start;
    let (mut receiver, started) = Receiver::start(lit_time, points, lit_points);
    let mut assembly = vec![0; LONGEST];
    for offer in &stream.offers {
        let read = message::read(&offer.octets);
        let open = read
            .ok()
            .and_then(|message| receiver.governing(message.channel).cloned());
        let own = read.ok().and_then(|message| match message.routing {
            Some(routing) => route::check(&routing).ok(),
            None => open.clone(),
        });
        let meters = receiver.readings();
        let held = receiver.gathering();
        let mut rows = vec![0; offer.lent.rows];
        let mut levels = vec![0; offer.lent.levels];
        let lent = &mut assembly[..offer.lent.assembly];
        let reply = receiver.message(&offer.octets, &mut rows, &mut levels, lent);
        if let (Ok(message), Some(governing)) = (read, own) {
            note(&Case {
                offer,
                message,
                whole: held
                    .filter(|held| message.last && held.is_on(message.channel))
                    .filter(|_| matches!(reply.number, 0 | 20..=23))
                    .map(|held| lent[..held.octets + message.data.len()].to_vec()),
                open,
                governing,
                reply,
                meters,
            });
        }
    }
    started.number
}

/// Situations that do not depend on a mode or type.
const SITUATIONS: [&str; 16] = [
    "19, routing false, open",
    "19, routing true, closed",
    "19, routing true, open",
    "20, 1 points",
    "20, 19 points",
    "closed, routing false",
    "closed, routing true",
    "dark, mode 1",
    "dark, mode 2",
    "frame of 0 points, longer than is left",
    "more than 1,024 levels lent",
    "rows exactly enough",
    "samples not whole",
    "space modifier with a Void chunk",
    "start 0",
    "start 23",
];

/// The situations that must occur.
fn situations() -> Vec<String> {
    let mut list: Vec<String> = SITUATIONS.map(String::from).to_vec();
    for kind in [VOID, WAVE, FRAME, LEVELS] {
        list.push(format!("accepted, mode 0, type {kind}"));
        list.push(format!("SCWC without Routing, type {kind}"));
    }
    for (mode, kind) in [(1, WAVE), (2, FRAME), (4, LEVELS), (6, LEVELS)] {
        list.push(format!("accepted, mode {mode}, type {kind}"));
        list.push(format!("accepted, mode {mode}, type {VOID}"));
        list.push(format!("22, type {kind}"));
        for was in ["open", "closed"] {
            let own = if mode == 6 { 2 } else { 1 };
            list.push(format!("routed, mode {mode}, service 0, {was}"));
            list.push(format!("routed, mode {mode}, service {own}, {was}"));
        }
    }
    for (points, mode) in [
        (20, 1),
        (100, 1),
        (500, 1),
        (0, 2),
        (2, 2),
        (100, 2),
        (500, 2),
    ] {
        list.push(format!("{points} points, mode {mode}"));
    }
    list.extend((0..3).map(|meter| format!("23, meter {meter} alone")));
    list.extend((0..3).map(|service| format!("routed, mode 0, service {service}, open")));
    list
}

#[test]
fn situations_of_generated_streams() {
    let mut random = Random::new(2);
    let mut counts = Counts::new();
    for _ in 0..1_000 {
        let stream = stream(&mut random, 200);
        let number = follow(&stream, |case| case.note(&mut counts));
        count(&mut counts, format!("start {number}"));
        split_frames::follow(&stream, |situation| count(&mut counts, situation));
        two_checks::follow(&stream, |situation| count(&mut counts, situation));
        newer_tags::follow(&stream, |situation| count(&mut counts, situation));
    }
    let often = first_point::SITUATIONS
        .iter()
        .chain(&split_table::SITUATIONS)
        .chain(&two_checks::SITUATIONS)
        .chain(&newer_tags::SITUATIONS);
    let often = often.map(|(situation, least, _)| (situation.to_string(), *least));
    let any = situations().into_iter().map(|situation| (situation, 5));
    for (situation, least) in any.chain(often) {
        let count = counts.get(&situation).copied().unwrap_or(0);
        println!("{count} {situation}");
        assert!(count >= least, "{situation}: {count}");
    }
}
