//! Measures the proved receiver, by value and in place, through its C calls,
//! beside the receiver of tests/decoder and the one of card.h, and sets of
//! messages beside the same messages one by one. The exit status is not 0 only
//! if they differ, a file cannot be written or the usage is wrong; no time is
//! judged.
//!
//! usage: receiver_bench [FILE]
//!        receiver_bench --names
//!        receiver_bench --repeat WAY CASE TIMES
//!
//! The first form prints the tables, and writes the times to FILE in the form
//! that bench/picture.rs reads. The second one prints the names of the cases in
//! order. The third one offers the messages of the case with this place, from
//! 0, so many times inside `repeated_messages`, for a counter of instructions;
//! WAY is the place of the way from 0.

mod card;
mod cases;
mod hosts;
mod report;
mod sets;
mod stack;
mod time;

#[path = "../../tests/calls.rs"]
mod calls;
#[path = "../../tests/receiver/set_calls.rs"]
mod set_calls;

use cases::Case;
use hosts::{Host, WAYS};
use std::process::ExitCode;

fn main() -> ExitCode {
    let arguments: Vec<String> = std::env::args().skip(1).collect();
    let words: Vec<&str> = arguments.iter().map(String::as_str).collect();
    let cases = cases::all();
    let done = match words[..] {
        [] => Some(tables(&cases, None)),
        ["--names"] => {
            cases.iter().for_each(|case| println!("{}", case.name));
            Some(true)
        }
        ["--repeat", way, place, times] => repeat(&cases, way, place, times),
        [file] if !file.starts_with('-') => Some(tables(&cases, Some(file))),
        _ => None,
    };
    match done {
        Some(true) => ExitCode::SUCCESS,
        Some(false) => ExitCode::FAILURE,
        None => {
            eprintln!("usage: receiver_bench [FILE | --names | --repeat WAY CASE TIMES]");
            ExitCode::from(2)
        }
    }
}

/// Prints every table; false if the receivers differ.
fn tables(cases: &[Case], file: Option<&str>) -> bool {
    report::head();
    let mut bests = Vec::new();
    for case in cases {
        if !hosts::agree(case) {
            println!("{}: the outputs differ", case.name);
            return false;
        }
        bests.push(time::best(case));
        report::line(case, &bests[bests.len() - 1]);
    }
    println!();
    report::shares(cases, &bests);
    report::growth(cases, &bests);
    report::fragments(cases, &bests);
    report::copies(cases);
    println!();
    report::stacks(cases);
    println!();
    if !sets::tables() {
        return false;
    }
    let written = file.map_or(Ok(()), |file| {
        std::fs::write(file, report::tabs(cases, &bests))
    });
    if let Err(error) = &written {
        eprintln!("{error}");
    }
    written.is_ok()
}

fn repeat(cases: &[Case], way: &str, place: &str, times: &str) -> Option<bool> {
    let way = way.parse().ok().filter(|way| *way < WAYS.len())?;
    let case = cases.get(place.parse::<usize>().ok()?)?;
    repeated_messages(
        &mut *hosts::open(way, case),
        &case.messages,
        times.parse().ok()?,
    );
    Some(true)
}

/// A name that stays in the program, so that a tool can count inside it alone.
#[inline(never)]
fn repeated_messages(host: &mut dyn Host, messages: &[Vec<u8>], times: usize) {
    host.repeat(messages, times);
}
