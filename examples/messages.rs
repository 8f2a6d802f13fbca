//! Messages laid end to end, as the listing reads them (document 01, "Calls and
//! layers"): two octets say how long each one is.

/// The messages of a stream in order, and how many octets at its end are no
/// whole message: from a size below 8 or past the end, or from a lone octet.
pub fn split(stream: &[u8]) -> (Vec<&[u8]>, usize) {
    let mut messages = Vec::new();
    let mut rest = stream;
    while let [high, low, ..] = *rest {
        let size = usize::from(u16::from_be_bytes([high, low]));
        if size < 8 || size > rest.len() {
            break;
        }
        let (message, after) = rest.split_at(size);
        messages.push(message);
        rest = after;
    }
    (messages, rest.len())
}
