//! What was not passed on, and why: each packet of a capture that is in no
//! message is in one count here.

use std::collections::BTreeMap;

/// Why something was skipped. The order is the order in which it is told.
#[derive(Clone, Copy, Debug, PartialEq, Eq, PartialOrd, Ord)]
pub enum Reason {
    /// A record or block whose length goes past the end of the file.
    PastEnd,
    /// A record or block that cannot be right.
    BadRecord,
    /// A section header that cannot be right: the octet order is not known.
    BadSection,
    /// A pcapng block whose lengths at its start and end are not the same.
    TwoLengths,
    /// A packet of an interface that the section does not describe.
    NoInterface,
    /// A packet of which more was captured than there was.
    MoreThanSent,
    /// A packet that the capture holds only the start of.
    Cut,
    /// A packet that is not cut, but contradicts its own headers.
    Damaged,
    /// A link type that is not read.
    Link(u32),
    /// Neither IPv4 nor IPv6.
    NotIp,
    /// Another protocol than UDP.
    NotUdp,
    /// Another destination port.
    OtherPort,
    /// Fewer octets than a hello header has.
    NoHello,
    /// A command that carries no channel message.
    Command(u8),
    /// The command for a channel message, but no message.
    NoMessage,
    /// A message shorter than its fixed header.
    ShortMessage,
    /// A message of another Total Size than the datagram has octets for it.
    TotalSize,
    /// A datagram gathered in part that a new fragment contradicts.
    Contradicted,
    /// A datagram gathered in part for too long.
    TooOld,
    /// A datagram gathered in part that had to make room.
    TooMany,
    /// A datagram gathered in part at the end of the capture.
    Unfinished,
    /// A datagram put together that has a wrong checksum.
    WrongGathered,
    /// A message of a client that was not chosen.
    OtherClient,
    /// A message to a destination that was not chosen.
    OtherDestination,
    /// A message used though its datagram has a wrong checksum.
    WrongChecksum,
    /// A message used though the same one came shortly before.
    Repeated,
}

impl Reason {
    /// Why, in words that go with one and with more.
    fn sentence(self) -> String {
        let sentence = match self {
            Reason::PastEnd => "from a record that runs past the end of the file",
            Reason::BadRecord => "from a record that cannot be right to the end of the file",
            Reason::BadSection => {
                "from a section header that cannot be right to the end of the file"
            }
            Reason::TwoLengths => "the lengths at the start and the end differ",
            Reason::NoInterface => "the capture does not describe the interface",
            Reason::MoreThanSent => "more octets captured than sent",
            Reason::Cut => "cut by the snap length of the capture",
            Reason::Damaged => "shorter than the headers say, or damaged",
            Reason::Link(number) => return format!("link type {number} is not read"),
            Reason::NotIp => "neither IPv4 nor IPv6",
            Reason::NotUdp => "another protocol than UDP",
            Reason::OtherPort => "UDP to another port",
            Reason::NoHello => "UDP with less than a hello header",
            Reason::Command(command) => {
                return format!("hello command 0x{command:02X} carries no channel message");
            }
            Reason::NoMessage => "hello command 0x40 without a channel message",
            Reason::ShortMessage => "channel message of less than 8 octets",
            Reason::TotalSize => "Total Size is not the size of the message in the datagram",
            Reason::Contradicted => "fragments contradict each other",
            Reason::TooOld => "fragments missing after 30 seconds",
            Reason::TooMany => "fragments missing, more than 1,024 datagrams at once",
            Reason::Unfinished => "fragments missing at the end of the capture",
            Reason::WrongGathered => "wrong UDP checksum of what the fragments give",
            Reason::OtherClient => "from another client",
            Reason::OtherDestination => "to another destination",
            Reason::WrongChecksum => "wrong UDP checksum, used all the same",
            Reason::Repeated => "the same came shortly before, used all the same",
        };
        sentence.to_string()
    }
}

/// What is counted.
#[derive(Clone, Copy, Debug, PartialEq, Eq, PartialOrd, Ord)]
enum Unit {
    Octet,
    Block,
    Packet,
    Datagram,
    Message,
}

/// How often a reason was given, and how many packets of the file it took up.
#[derive(Clone, Copy, Debug, Default)]
struct Count {
    number: usize,
    packets: usize,
}

/// The counts by reason.
#[derive(Clone, Debug, Default)]
pub struct Counts(BTreeMap<(Reason, Unit), Count>);

impl Counts {
    /// Octets up to the end of the file.
    pub fn octets(&mut self, reason: Reason, octets: usize) {
        self.add(reason, Unit::Octet, octets, 0);
    }

    /// A block that is skipped. Whether it has a packet is not known.
    pub fn block(&mut self, reason: Reason) {
        self.add(reason, Unit::Block, 1, 0);
    }

    /// A packet that is skipped.
    pub fn packet(&mut self, reason: Reason) {
        self.add(reason, Unit::Packet, 1, 1);
    }

    /// Messages that are used, but worth telling of.
    pub fn noted(&mut self, reason: Reason, messages: usize) {
        self.add(reason, Unit::Message, messages, 0);
    }

    /// A datagram in fragments that is skipped, and its packets with it.
    pub fn datagram(&mut self, reason: Reason, packets: usize) {
        self.add(reason, Unit::Datagram, 1, packets);
    }

    /// A message that is skipped, and its packets with it.
    pub fn message(&mut self, reason: Reason, packets: usize) {
        self.add(reason, Unit::Message, 1, packets);
    }

    fn add(&mut self, reason: Reason, unit: Unit, number: usize, packets: usize) {
        let count = self.0.entry((reason, unit)).or_default();
        count.number += number;
        count.packets += packets;
    }

    /// All packets of the file that were skipped.
    pub fn skipped_packets(&self) -> usize {
        self.0.values().map(|count| count.packets).sum()
    }

    /// A line for each reason that was given.
    pub fn lines(&self) -> Vec<String> {
        let given = self.0.iter().filter(|(_, count)| count.number > 0);
        let line = |(&(reason, unit), count): (&_, &Count)| line(reason, unit, count.number);
        given.map(line).collect()
    }
}

/// The line of a count.
fn line(reason: Reason, unit: Unit, number: usize) -> String {
    let what = match reason {
        Reason::WrongChecksum | Reason::Repeated => "noted",
        _ => "skipped",
    };
    let unit = match unit {
        Unit::Octet => "octet",
        Unit::Block => "block",
        Unit::Packet => "packet",
        Unit::Datagram => "datagram",
        Unit::Message => "message",
    };
    let plural = if number == 1 { "" } else { "s" };
    format!("{what} {number} {unit}{plural}: {}", reason.sentence())
}

#[cfg(test)]
mod tests {
    use super::*;

    #[test]
    fn one_and_more() {
        let mut counts = Counts::default();
        counts.packet(Reason::OtherPort);
        counts.datagram(Reason::OtherPort, 4);
        counts.datagram(Reason::TooOld, 2);
        counts.datagram(Reason::TooOld, 3);
        counts.noted(Reason::WrongChecksum, 4);
        let lines = [
            "skipped 1 packet: UDP to another port",
            "skipped 1 datagram: UDP to another port",
            "skipped 2 datagrams: fragments missing after 30 seconds",
            "noted 4 messages: wrong UDP checksum, used all the same",
        ];
        assert_eq!(counts.lines(), lines);
        assert_eq!(counts.skipped_packets(), 10);
    }
}
