//! What is known of a channel from the octets of its messages, and why the
//! dissector of tshark 4.0 may show another number of points of a message than
//! IDN-Stream gives. The numbers in brackets are sections of IDN-Stream.

const FRAGMENT: &str =
    "a fragment (03, C0): the dissector shows each by itself and puts none together (2.1)";
const UNROUTED: &str = "a configuration header without Routing: the dissector takes its fields, which a consumer ignores (2.2)";
const VOID: &str =
    "service mode 00: the dissector shows samples, but a consumer ignores the data (2.2)";
const RESERVED: &str =
    "the two bits before SDM or SCM: the dissector compares them as well (2.2, 5.6)";
const WORDS: &str =
    "a category 0 tag with words to skip: the dissector starts the samples late (3.4.1)";
const UNKNOWN: &str =
    "an unknown tag of category 0 or 1: the dissector gives it an octet of the sample (3.4.1)";
const SHIFTED: &str = "a tag without an octet before a Precision tag: the dissector reads the last point past the end (3.4.1)";
const TAKEN: &str = "a configuration that the listing refused: the dissector has taken it over";

/// What is known of a channel from the messages before.
#[derive(Clone, Default)]
pub struct Channel {
    mode: u8,
    tags: Vec<u16>,
    reserved: bool,
    unrouted: bool,
    taken: bool,
    pub routed_and_closed: bool,
}

/// The configuration header: flags, mode and words, where the message has one.
struct Header {
    routing: bool,
    close: bool,
    reserved: bool,
    mode: u8,
    tags: Vec<u16>,
    length: usize,
}

fn header(message: &[u8]) -> Option<Header> {
    if message[2] & 0x40 == 0 || message[3] >= 0xC0 || message.len() < 12 {
        return None;
    }
    let routing = message[9] & 1 != 0;
    let words = if routing { usize::from(message[8]) } else { 0 };
    let length = (4 + 4 * words).min(message.len() - 8);
    let tags = message[12..8 + length].chunks_exact(2);
    Some(Header {
        routing,
        close: message[9] & 2 != 0,
        reserved: message[9] & 0xC0 != 0,
        mode: message[11],
        tags: tags.map(|t| u16::from_be_bytes([t[0], t[1]])).collect(),
        length,
    })
}

impl Channel {
    pub fn after(&self, message: &[u8], accepted: bool) -> Channel {
        let mut next = self.clone();
        match header(message) {
            Some(_) if !accepted => next.taken = true,
            Some(header) if header.routing => {
                next = Channel {
                    mode: header.mode,
                    tags: header.tags,
                    reserved: header.reserved,
                    routed_and_closed: header.close,
                    ..Channel::default()
                }
            }
            Some(_) => next.unrouted = true,
            None => {}
        }
        next
    }

    /// The tags that are read as such, and whether one has words to skip.
    fn walk(&self) -> (Vec<u16>, bool) {
        let (mut tags, mut words, mut at) = (Vec::new(), false, 0);
        while at < self.tags.len() {
            let tag = self.tags[at];
            tags.push(tag);
            at += 1;
            if tag >> 12 == 0 {
                words |= tag & 0xF != 0;
                at += usize::from(tag & 0xF);
            }
        }
        (tags, words)
    }

    /// Why the dissector shows another number of points of this message than is
    /// right; the channel is as the message left it.
    pub fn kind(&self, message: &[u8], right: usize, shown: usize) -> Option<&'static str> {
        if matches!(message[3], 0x03 | 0xC0) {
            return Some(FRAGMENT);
        }
        if self.unrouted {
            return Some(UNROUTED);
        }
        if self.mode == 0 && right == 0 {
            return Some(VOID);
        }
        let flags = 8 + header(message).map_or(0, |h| h.length);
        let reserved = message.get(flags).is_some_and(|octet| octet & 0xC0 != 0);
        // It shows no points at all where it finds that the bits differ.
        if shown == 0 && (self.reserved || reserved) {
            return Some(RESERVED);
        }
        let (tags, words) = self.walk();
        if words {
            return Some(WORDS);
        }
        // Void, Break and the space modifier are known.
        let known = |t: &u16| t >> 12 > 1 || t >> 4 == 0 || t >> 4 == 0x100 || t >> 8 == 0x11;
        if !tags.iter().all(known) {
            return Some(UNKNOWN);
        }
        if self.taken {
            return Some(TAKEN);
        }
        let modifier = tags.iter().position(|t| t >> 12 < 2);
        let shifted = modifier.is_some_and(|at| tags[at..].contains(&0x4010));
        (shown + 1 == right && shifted).then_some(SHIFTED)
    }
}
