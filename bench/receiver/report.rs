//! What is printed of the measurement.

use crate::calls;
use crate::cases::Case;
use crate::hosts::{C, IN_PLACE, RUST, WAYS};
use crate::stack;
use crate::time::{self, Best};

pub fn head() {
    println!(
        "ns a message or split frame, best of {} alternating runs",
        time::RUNS
    );
    print!("{:<31} {:>6}", "message", "octets");
    WAYS.iter().for_each(|way| print!(" {way:>8}"));
    println!("  place/Rust  place/C");
}

pub fn line(case: &Case, best: &Best) {
    let octets: usize = case.messages.iter().map(Vec::len).sum();
    print!("{:<31} {octets:>6}", case.name);
    best.iter().for_each(|time| print!(" {time:>8.0}"));
    println!(
        " {:>11.2} {:>8.2}",
        best[IN_PLACE] / best[RUST],
        best[IN_PLACE] / best[C]
    );
}

fn place(cases: &[Case], name: &str) -> usize {
    cases.iter().position(|case| case.name == name).unwrap()
}

/// A line with a share for each way.
fn share(what: &str, part: &Best, whole: &Best) {
    let shares: Vec<String> = (0..WAYS.len())
        .map(|way| format!("{} {:.0} %", WAYS[way], 100.0 * part[way] / whole[way]))
        .collect();
    println!("{what}: {}", shares.join(", "));
}

/// What the cost of every message is of a wave of 100 points.
pub fn shares(cases: &[Case], bests: &[Best]) {
    let fixed = bests[place(cases, "keep-alive")];
    for layout in ["sparse", "usual", "full"] {
        let name = format!("wave, 100 points, {layout}");
        let wave = bests[place(cases, &name)];
        share(&format!("keep-alive as a share of {name}"), &fixed, &wave);
    }
}

/// What a message takes with every channel open, of what it takes with one.
pub fn growth(cases: &[Case], bests: &[Best]) {
    for what in ["wave", "keep-alive"] {
        let one = bests[place(cases, &format!("{what}, 1 open"))];
        for others in ["frames", "dimmers"] {
            let name = format!("{what}, 64 open, {others}");
            share(
                &format!("{name} of 1 open"),
                &bests[place(cases, &name)],
                &one,
            );
        }
    }
}

/// What a frame takes in fragments, of what it takes in one message.
pub fn fragments(cases: &[Case], bests: &[Best]) {
    for layout in ["sparse", "usual", "full"] {
        let whole = format!("frame, 480 points, {layout}");
        let split = place(cases, &format!("{whole}, in 4"));
        let whole = place(cases, &whole);
        share(
            &format!("{} of whole", cases[split].name),
            &bests[split],
            &bests[whole],
        );
    }
}

pub fn copies(cases: &[Case]) {
    println!(
        "keep-alive by value, the outcome kept in one variable: {:.0} ns",
        time::best_in_one_variable(&cases[place(cases, "keep-alive")])
    );
    println!("one copy of a record: {:.0} ns", time::best_copy());
}

/// The deepest stack of any case, and the sizes of what is handed over.
pub fn stacks(cases: &[Case]) {
    println!("octets of stack below the frame of the host, least and most of all cases");
    for (way, name) in WAYS.iter().enumerate() {
        let depths: Option<Vec<usize>> = cases.iter().map(|case| stack::of(way, case)).collect();
        least_and_most(name, depths);
    }
    println!(
        "sizes: receiver {}, outcome {}",
        size_of::<calls::Receiver>(),
        size_of::<calls::Outcome>()
    );
}

/// A line with the least and the most of depths; none if no thread started.
pub fn least_and_most(name: &str, depths: Option<Vec<usize>>) {
    match depths
        .as_deref()
        .map(|all| (all.iter().min(), all.iter().max()))
    {
        Some((Some(least), Some(most))) => println!("{name:<8} {least:>6} {most:>6}"),
        _ => println!("{name:<8} not measured, no thread started"),
    }
}

/// The times in the form that bench/picture.rs reads.
pub fn tabs(cases: &[Case], bests: &[Best]) -> String {
    let ways = [
        "proved, by value",
        "proved, in place",
        "Rust decoder",
        "C receiver",
    ];
    let mut text = format!("ways\t{}\n", ways.join("\t"));
    let mut panel = "";
    for (case, best) in cases.iter().zip(bests) {
        if case.panel != panel {
            panel = case.panel;
            text += &format!("panel\t{panel}\n");
        }
        let times = best.map(|time| format!("{time:.1}"));
        text += &format!("case\t{}\t{}\n", case.name, times.join("\t"));
    }
    text
}
