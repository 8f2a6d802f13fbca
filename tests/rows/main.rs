//! Compares samples drawn as rows, and levels put to places, with the second
//! decoder. `part` runs a fixed part of the cases, `whole` runs more of them.

mod dimmer;
mod graphic;
mod levels;
mod made;
mod samples;
mod tags;
mod tally;

#[path = "../tag_calls.rs"]
mod calls;
// The word of the command is that of the dictionary comparison.
#[path = "../dictionary/extent.rs"]
mod extent;

use generate::dictionaries;
use std::process::ExitCode;
use tally::Tally;

/// Hints before, between and after colours and intensity, both formats, and
/// between octets that are ignored.
const HINTS: &[&str] = &[
    "4200 4210 527E 4010 4100",
    "4101 4200 4210 527E 4010 5C10 4010",
    "5C10 4010 4200 4010 5C00 4010 5000 4010 4101 4210 5C20 4010 5214",
    "4200 4210 4220 5C20 5C10 4100 527E 5214 51CC",
    "4200 4202 4010 4210 5C30 4100 40F0 4010 527E 4010 5C21 5C10",
];

fn main() -> ExitCode {
    let Some(whole) = extent::whole("rows") else {
        return ExitCode::from(2);
    };
    let mut tally = Tally::default();
    let hints: Vec<Vec<u8>> = HINTS
        .iter()
        .map(|text| dictionaries::octets(text))
        .collect();
    samples::hand_made(
        &mut tally,
        &[dictionaries::all(), hints.clone()].concat(),
        whole,
    );
    samples::hints(&mut tally, &hints);
    samples::random_dictionaries(&mut tally, if whole { 1_500_000 } else { 150_000 });
    levels::hand_made(&mut tally);
    levels::ranges(&mut tally, whole);
    levels::random_tags(&mut tally, if whole { 4_000_000 } else { 400_000 });
    made::layouts(&mut tally);
    made::mappings(&mut tally);
    println!("{}", tally.line());
    if tally.passed() {
        ExitCode::SUCCESS
    } else {
        ExitCode::FAILURE
    }
}
