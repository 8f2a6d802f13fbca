//! Tests from_capture and to_capture on captures that are built here.
//!
//! usage: capture_test FROM TO STREAM...

mod ages;
mod bench;
mod checksums;
mod clients;
mod damage;
mod files;
mod fragments;
mod kinds_of_file;
mod other;
mod overlaps;
mod packets;
mod round;
mod usage;

use bench::Bench;
use std::path::PathBuf;
use std::process::exit;

fn main() {
    let arguments: Vec<String> = std::env::args().skip(1).collect();
    if arguments.len() < 3 {
        eprintln!("usage: capture_test FROM TO STREAM...");
        exit(2);
    }
    let scratch = PathBuf::from("target/tests/capture");
    std::fs::create_dir_all(&scratch).expect("scratch directory");
    let mut bench = Bench {
        from: arguments[0].clone(),
        to: arguments[1].clone(),
        scratch,
        cases: 0,
        failed: 0,
    };
    usage::run(&mut bench);
    round::run(&mut bench, &arguments[2..]);
    kinds_of_file::run(&mut bench);
    other::run(&mut bench);
    fragments::run(&mut bench);
    ages::run(&mut bench);
    overlaps::run(&mut bench);
    checksums::run(&mut bench);
    clients::run(&mut bench);
    damage::run(&mut bench);
    println!("capture: {} cases, {} failed", bench.cases, bench.failed);
    exit(i32::from(bench.failed != 0));
}
