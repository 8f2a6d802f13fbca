//! IDN-Hello: the channel message of a datagram.

use crate::counts::Reason;
use crate::octets::u16_at;

/// The port of IDN-Hello, where no other is asked for.
pub const PORT: u16 = 7255;
/// The command that a real-time channel message follows.
pub const CHANNEL_MESSAGE: u8 = 0x40;
/// The least octets of a channel message.
const LEAST: usize = 8;

/// The sequence number and the channel message of a datagram. The message has
/// the size that it says it has, so messages can be laid end to end and be split
/// again.
pub fn message(datagram: &[u8]) -> Result<(u16, &[u8]), Reason> {
    let (header, message) = datagram.split_first_chunk::<4>().ok_or(Reason::NoHello)?;
    let [command, _flags, sequence @ ..] = *header;
    if command != CHANNEL_MESSAGE {
        return Err(Reason::Command(command));
    }
    if message.is_empty() {
        return Err(Reason::NoMessage);
    }
    if message.len() < LEAST {
        return Err(Reason::ShortMessage);
    }
    if u16_at(message, 0).map(usize::from) != Some(message.len()) {
        return Err(Reason::TotalSize);
    }
    Ok((u16::from_be_bytes(sequence), message))
}
