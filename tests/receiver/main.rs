//! Compares the proved receiver, by value and in place, with the second one on
//! generated streams, on sets and on lists of messages and sets, and the two
//! ways with each other on records that a host changed.
//!
//! usage: receiver_compare [COUNT]
//!        receiver_compare --write OCTETS LISTING [COUNT [SEED]]
//!        receiver_compare --list OCTETS
//!
//! The first form offers COUNT messages (200,000 if not given), and sets and
//! messages around them in proportion. The second
//! one writes about COUNT generated messages (5,000 if not given) end to end
//! to the file OCTETS and what the listing program prints for them to the
//! file LISTING. The third prints the other decoder's listing of a file.

mod broken;
mod compare;
mod forged;
mod gathered;
mod kept;
mod lengths;
mod messages;
mod mixed;
mod most;
mod patched;
mod record;
mod section;
mod set_calls;
mod set_places;
mod set_records;
mod set_tally;
mod sets;
mod tally;

// tests/before uses it too, and each a part of it.
#[allow(dead_code)]
mod lent;

#[path = "../calls.rs"]
mod calls;

use decoder::listing::listing;
use generate::end_to_end::end_to_end;
use generate::random::Random;
use generate::stream::stream;
use std::process::ExitCode;
use tally::Tally;

/// The most messages of one stream.
const LONGEST: usize = 200;

/// Changed records are offered after every so many streams.
const BETWEEN: usize = 16;

/// One list of messages and sets is offered for so many messages, and one more
/// round of sets with the wrong message in each place.
const LISTS: usize = 200;
const ROUNDS: usize = 1_000_000;

/// One of so many streams is offered once more, by a host that alters the
/// assembly slice.
const ALTERED: usize = 4;

fn main() -> ExitCode {
    let arguments: Vec<String> = std::env::args().skip(1).collect();
    let words: Vec<&str> = arguments.iter().map(String::as_str).collect();
    let done = match words[..] {
        [] => Some(run(200_000)),
        ["--write", octets, text] => Some(write(octets, text, 5_000, 1)),
        ["--write", octets, text, count] => {
            number(count).map(|count| write(octets, text, count, 1))
        }
        ["--write", octets, text, count, seed] => number(count)
            .zip(number(seed))
            .map(|(count, seed)| write(octets, text, count, seed as u64)),
        ["--list", octets] => Some(list(octets)),
        [count] => number(count).map(run),
        _ => None,
    };
    match done {
        Some(true) => ExitCode::SUCCESS,
        Some(false) => ExitCode::FAILURE,
        None => {
            eprintln!("usage: receiver_compare [COUNT]");
            eprintln!("       receiver_compare --write OCTETS LISTING [COUNT [SEED]]");
            eprintln!("       receiver_compare --list OCTETS");
            ExitCode::from(2)
        }
    }
}

fn number(word: &str) -> Option<usize> {
    word.parse().ok()
}

/// Offers messages of generated streams; true if nothing differed and every
/// number occurred.
fn run(count: usize) -> bool {
    let mut tally = Tally::default();
    let opened = broken::opened(&mut tally);
    changed(&opened, &mut tally);
    most::offer(&opened, &mut tally);
    let mut streams = 0;
    while tally.messages < count {
        let mut random = Random::new(streams as u64);
        let mut next = stream(&mut random, LONGEST);
        next.offers.truncate(count - tally.messages);
        let last = compare::stream(&next, &format!("stream {streams}"), &mut tally);
        if streams % ALTERED == 0 {
            let name = format!("stream {streams}");
            compare::altered(&next, &name, &mut random, &mut tally);
        }
        if streams % BETWEEN == 0 {
            changed(&last, &mut tally);
        }
        streams += 1;
        // The streams that differ are left out after the first message that
        // does, so the count is no bound by itself.
        if streams > count {
            break;
        }
    }
    set_places::compare(1 + count / ROUNDS, &mut tally);
    mixed::compare(count.div_ceil(LISTS), &mut tally);
    tally.finish()
}

/// Offers messages to copies of a record that a host changed.
fn changed(record: &calls::Receiver, tally: &mut Tally) {
    broken::offer(record, tally);
    forged::offer(record, tally);
    gathered::offer(record, tally);
    lengths::offer(record, tally);
    set_records::gathered(record, tally);
}

/// Writes a stream and its listing.
fn write(octets: &str, text: &str, count: usize, seed: u64) -> bool {
    let stream = end_to_end(&mut Random::new(seed), count);
    let written =
        std::fs::write(octets, &stream).and_then(|()| std::fs::write(text, listing(&stream)));
    if let Err(error) = &written {
        eprintln!("{error}");
    }
    written.is_ok()
}

/// Prints the other decoder's listing of a file of messages.
fn list(octets: &str) -> bool {
    match std::fs::read(octets) {
        Ok(stream) => print!("{}", listing(&stream)),
        Err(error) => {
            eprintln!("{error}");
            return false;
        }
    }
    true
}
