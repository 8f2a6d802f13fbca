//! Compares the dictionary check that a C host calls with the second decoder.
//! `part` runs a fixed part of the cases, `whole` runs all of them.

mod cases;
mod extent;
mod tally;

use std::process::ExitCode;
use tally::Tally;

fn main() -> ExitCode {
    let Some(whole) = extent::whole("dictionary") else {
        return ExitCode::from(2);
    };
    let mut tally = Tally::default();
    cases::all(whole, &mut |mode, tags| tally.compare(mode, tags));
    println!("{}", tally.line());
    if tally.passed() {
        ExitCode::SUCCESS
    } else {
        ExitCode::FAILURE
    }
}
