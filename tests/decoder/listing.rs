//! The listing program's text: document 01, "Calls and layers", "The listing
//! program reads messages end to end from standard input", and request C-12.

use crate::end_to_end::{end_to_end, Cut};
use crate::receiver::{Receiver, Reply};

/// "lends 12,000 numbers and 1,024 octets".
const NUMBERS: usize = 12_000;
const OCTETS: usize = 1_024;

/// Request C-12: "the listing lends 65,536 octets".
const ASSEMBLY: usize = 65_536;

/// What the program prints for an input.
pub fn listing(input: &[u8]) -> String {
    // "starts at 0 0 0".
    let (mut receiver, _) = Receiver::start(0, 0, 0);
    let mut rows = vec![0; NUMBERS];
    let mut levels = vec![0; OCTETS];
    let mut assembly = vec![0; ASSEMBLY];
    let mut text = String::new();
    for message in end_to_end(input) {
        text += &match message {
            Ok(octets) => line(&receiver.message(octets, &mut rows, &mut levels, &mut assembly)),
            // "prints "cut" and the count of octets from there to the end of
            // the input instead; then only the meters line follows."
            Err(Cut(rest)) => format!("cut {}\n", rest.len()),
        };
    }
    // "then "meters" and the readings".
    let [lit_time, points, lit_points] = receiver.readings();
    text + &format!("meters {lit_time} {points} {lit_points}\n")
}

/// "channel type number points lit", all five from the reply.
fn line(reply: &Reply) -> String {
    format!(
        "{} {} {} {} {}\n",
        reply.channel, reply.kind, reply.number, reply.points, reply.lit_points
    )
}
