//! The landing before beside this one: offers the same generated streams to the
//! receiver of an earlier commit and to the present one, and counts every
//! difference by kind. tests/before/run links the two.
//!
//! usage: before_compare [COUNT]
//!
//! COUNT messages are offered, 200,000 if not given. Each goes to copies of the
//! record and the assembly slice that the present receiver left, so that one
//! difference does not make the next. The exit status is 0 where the run was
//! made, whatever differed.

mod builds;
mod earlier;
mod kind;
mod seen;
mod table;

#[path = "../calls.rs"]
mod calls;

// This program uses a part of it.
#[allow(dead_code)]
#[path = "../receiver/lent.rs"]
mod lent;

use generate::assembly::LONGEST as BUFFER;
use generate::random::Random;
use generate::stream::{stream, Stream};
use lent::Slices;
use std::process::ExitCode;
use table::Table;

/// The most messages of one stream, as in tests/receiver: the streams are the
/// same.
const LONGEST: usize = 200;

fn main() -> ExitCode {
    let arguments: Vec<String> = std::env::args().skip(1).collect();
    let count = match &arguments[..] {
        [] => Some(200_000),
        [count] => count.parse().ok(),
        _ => None,
    };
    let Some(count) = count else {
        eprintln!("usage: before_compare [COUNT]");
        return ExitCode::from(2);
    };
    if !builds::are_two() {
        eprintln!("the two archives share a call, so nothing would be compared");
        return ExitCode::FAILURE;
    }
    if !builds::records_alike() {
        eprintln!("the earlier build takes no record of the present lengths, or has other calls");
        return ExitCode::FAILURE;
    }
    run(count).print();
    ExitCode::SUCCESS
}

fn run(count: usize) -> Table {
    let mut table = Table::default();
    let mut number = 0;
    while table.messages < count {
        let mut next = stream(&mut Random::new(number as u64), LONGEST);
        next.offers.truncate(count - table.messages);
        compare(&next, number, &mut table);
        number += 1;
    }
    table
}

/// One stream, from the start on. The assembly slice is a part of one buffer.
fn compare(stream: &Stream, number: usize, table: &mut Table) {
    let mut record = calls::start(stream.start).receiver;
    let mut buffer = vec![0x5A; BUFFER];
    table.start(&builds::start(stream.start), number);
    for (place, offer) in stream.offers.iter().enumerate() {
        let salt = 0x9E37_79B1u32.wrapping_mul(table.messages as u32 | 1);
        let assembly = &mut buffer[..offer.lent.assembly];
        let lent = Slices::assembling(offer.lent, salt, assembly);
        let ways = builds::offer(&record, &offer.octets, &lent);
        table.message(&ways, &offer.octets, number, place);
        ways[1].hand_on(&mut record, assembly);
    }
}
