//! What was alike, and in what kinds the rest differs.

use crate::builds::Ways;
use crate::kind::Kind;
use crate::seen::Kinds;

/// A kind, and the way of calling in which it was seen.
type Row = (Kind, &'static str);

#[derive(Default)]
pub struct Table {
    rows: Kinds<Row>,
    pub messages: usize,
    starts: usize,
    /// Messages that both accepted, or both refused, without a difference.
    accepted: usize,
    refused: usize,
    starts_alike: usize,
}

impl Table {
    pub fn start(&mut self, ways: &[Ways; 2], stream: usize) {
        let alike = self.compare(ways, None, || format!("stream {stream}"));
        self.starts += 1;
        self.starts_alike += usize::from(alike);
    }

    pub fn message(&mut self, ways: &[Ways; 2], octets: &[u8], stream: usize, place: usize) {
        let first = || format!("stream {stream} message {place}");
        let alike = self.compare(ways, Some(octets), first);
        let accepted = ways[1].in_place.reply.number == 0;
        self.messages += 1;
        self.accepted += usize::from(alike && accepted);
        self.refused += usize::from(alike && !accepted);
    }

    /// True if nothing differs. A difference that is the same in both ways is
    /// counted once.
    fn compare(
        &mut self,
        [before, now]: &[Ways; 2],
        octets: Option<&[u8]>,
        first: impl Fn() -> String,
    ) -> bool {
        let in_place = Kind::of(&before.in_place, &now.in_place, octets);
        let by_value = Kind::of(&before.by_value, &now.by_value, octets);
        let alike = in_place.is_none() && by_value.is_none();
        let rows = if in_place == by_value {
            [in_place.map(|kind| (kind, "both")), None]
        } else {
            [
                in_place.map(|kind| (kind, "in place")),
                by_value.map(|kind| (kind, "by value")),
            ]
        };
        for row in rows.into_iter().flatten() {
            self.rows.add(row, &first);
        }
        alike
    }

    /// The kinds, the most frequent first, then the totals.
    pub fn print(&self) {
        let rows = self.rows.sorted();
        if !rows.is_empty() {
            println!(
                "{:>9}  {:8}  {:8}  {:15}  {:>10}  {:27}  what differs",
                "count", "numbers", "way", "offered", "lit change", "first at"
            );
        }
        for ((kind, way), seen) in &rows {
            let [before, now] = kind.numbers;
            println!(
                "{:>9}  {:8}  {:8}  {:15}  {:>10}  {:27}  {}",
                seen.count,
                format!("{before} -> {now}"),
                way,
                kind.offered,
                kind.lit.map_or("-".to_string(), |more| format!("{more:+}")),
                seen.first,
                kind.parts.join(", ")
            );
        }
        let alike = self.accepted + self.refused;
        println!(
            "before: {} messages in place and by value, {} alike ({} accepted, {} refused), {} differ; {} starts, {} differ; {} kinds",
            self.messages,
            alike,
            self.accepted,
            self.refused,
            self.messages - alike,
            self.starts,
            self.starts - self.starts_alike,
            rows.len()
        );
    }
}
