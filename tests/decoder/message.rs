//! The parts of a message: document 01, "One message" and checks 2 to 5, and
//! requests C-12 and C-14.

pub use crate::rows::{FRAME, WAVE};

/// Document 01, "Chunks": the other chunk types.
pub const VOID: u8 = 0x00;
pub const LEVELS: u8 = 0x18;

/// Request C-12: "Large frames come as type 0x03 and then 0xC0".
pub const FIRST: u8 = 0x03;
pub const SEQUEL: u8 = 0xC0;

/// Check 2: the most octets of a message.
pub const MOST: usize = 65_280;

/// Six bits of octet 2.
#[derive(Clone, Copy, Debug, PartialEq, Eq)]
pub struct Channel(pub u8);

/// The third octet of the configuration header.
#[derive(Clone, Copy, Debug, PartialEq, Eq)]
pub struct Service(pub u8);

/// What a message with Routing brings.
#[derive(Clone, Copy, Debug)]
pub struct Routing<'a> {
    pub service: Service,
    pub mode: u8,
    pub sdm: u8,
    /// The octets of the SCWC words.
    pub words: &'a [u8],
}

/// A message that passed checks 2 to 5.
#[derive(Clone, Copy, Debug)]
pub struct Message<'a> {
    pub channel: Channel,
    pub kind: u8,
    pub timestamp: u32,
    pub close: bool,
    pub routing: Option<Routing<'a>>,
    /// A sequel with the mark of the last; no other message has it.
    pub last: bool,
    pub data: &'a [u8],
}

/// Check 4: "The type is not 0x00, 0x01, 0x02 or 0x18"; request C-12: "Check 4
/// lets both types in".
const LET_IN: [u8; 6] = [VOID, WAVE, FRAME, LEVELS, FIRST, SEQUEL];

/// Checks 2 to 5.
pub fn read(octets: &[u8]) -> Result<Message<'_>, u32> {
    read_among(octets, &LET_IN)
}

/// The same where check 4 lets these types in. Request C-14 has sets of
/// messages of one type.
pub fn read_among<'a>(octets: &'a [u8], let_in: &[u8]) -> Result<Message<'a>, u32> {
    // "The length is below 8, above 65,280, or not Total Size."
    let length = octets.len();
    if length < 8 || length > MOST || total_size(octets) != length {
        return Err(2);
    }
    // "The top bit of octet 2 is 0."
    if octets[2] & 0x80 == 0 {
        return Err(3);
    }
    if !let_in.contains(&octets[3]) {
        return Err(4);
    }
    let mut message = Message {
        channel: Channel(octets[2] & 0x3F),
        kind: octets[3],
        timestamp: u32::from_be_bytes([octets[4], octets[5], octets[6], octets[7]]),
        close: false,
        routing: None,
        last: false,
        data: &octets[8..],
    };
    let cclf = octets[2] & 0x40 != 0;
    if message.kind == SEQUEL {
        // "Sequels carry bare octets from octet 8, [...] and CCLF as the mark
        // of the last. A sequel never routes or closes, and checks 5 [...]
        // pass it by."
        message.last = cclf;
    } else if cclf {
        // "octet 2: top bit 1, then CCLF (configuration present)"; "without
        // CCLF it starts at octet 8".
        configure(&mut message, octets)?;
    }
    Ok(message)
}

/// "Octets 0-1 Total Size", of a message of two octets or more.
fn total_size(octets: &[u8]) -> usize {
    usize::from(u16::from_be_bytes([octets[0], octets[1]]))
}

/// The configuration header and check 5: "The configuration header, or with
/// Routing its words, pass the end."
fn configure<'a>(message: &mut Message<'a>, octets: &'a [u8]) -> Result<(), u32> {
    let header = octets.get(8..12).ok_or(5u32)?;
    let [scwc, cfl, service, mode] = [header[0], header[1], header[2], header[3]];
    // "CFL bits 2-3 are SDM, bit 6 Close, bit 7 Routing; other bits are
    // ignored"; bit 0 is the most significant.
    message.close = cfl & 0x02 != 0;
    if cfl & 0x01 == 0 {
        // "Without Routing, SCWC, SDM, service and mode are ignored and the
        // data section starts at octet 12".
        message.data = &octets[12..];
        return Ok(());
    }
    // "With Routing set, SCWC words follow, then the data section."
    let end = 12 + 4 * usize::from(scwc);
    message.data = octets.get(end..).ok_or(5u32)?;
    message.routing = Some(Routing {
        service: Service(service),
        mode,
        sdm: cfl >> 4 & 3,
        words: &octets[12..end],
    });
    Ok(())
}
