//! The data section of a message: document 01, "Calls and layers", "One call
//! returns the data section as a part of the host's message, the empty part if
//! 2, 3 or 5 applies", and request C-12.

use crate::calls::{self, Span};
use crate::tally::Tally;
use decoder::message::{self, VOID};

const EMPTY: Span = Span {
    start: 0,
    length: 0,
};

/// True if the call gives what the second decoder does.
pub fn same(octets: &[u8], name: &str, tally: &mut Tally) -> bool {
    let (given, expected) = (calls::data_section(octets), expected(octets));
    tally.same(given == expected, || {
        format!("{name}: data section {given:?}, expected {expected:?}")
    })
}

fn expected(octets: &[u8]) -> Span {
    match message::read(octets) {
        Ok(message) => Span {
            start: octets.len() - message.data.len(),
            length: message.data.len(),
        },
        // An unknown type has a data section like that of a known one.
        Err(4) => {
            let mut known = octets.to_vec();
            known[3] = VOID;
            expected(&known)
        }
        Err(_) => EMPTY,
    }
}
