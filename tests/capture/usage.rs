//! Exit statuses: files that are no capture, output that cannot be written,
//! and arguments that the programs do not have.

use crate::bench::Bench;
use crate::files::{file, packets, PCAP};
use crate::packets::{linked, message, sent, usual};
use std::fs::File;
use std::io::Write;
use std::process::{Command, Stdio};

fn small() -> Vec<u8> {
    let frame = linked(1, &[], &sent(usual(4), &message(40, 1)));
    file(PCAP, 1, &packets(&[frame])).octets
}

fn no_captures(bench: &mut Bench) {
    let capture = small();
    let mut swapped = capture.clone();
    swapped[0] ^= 0x10;
    let files: [(&str, &[u8]); 6] = [
        ("an empty file", &[]),
        ("one octet", &capture[..1]),
        ("three octets", &capture[..3]),
        ("text", b"no capture at all, and some more text behind it\n"),
        ("another magic", &swapped),
        ("a message", &message(100, 1)),
    ];
    for (name, octets) in files {
        let answer = bench.read(&[], octets);
        let right = answer.status == Some(1) && answer.out.is_empty() && !answer.err.is_empty();
        let fault = (!right).then(|| format!("status {:?}: {}", answer.status, answer.err));
        bench.check(name, fault);
    }
    for path in ["/nonexistent/file", "/"] {
        let answer = bench.run(&bench.from, &[path], &[]);
        let right = answer.status == Some(1) && answer.out.is_empty() && !answer.err.is_empty();
        let fault = (!right).then(|| format!("status {:?}: {}", answer.status, answer.err));
        bench.check(&format!("FILE {path}"), fault);
    }
    let answer = bench.run(&bench.from, &["-"], &capture);
    let fault = (answer.out != message(40, 1)).then_some(answer.err);
    bench.check("FILE -", fault);
}

/// A program with its input from a file, ready to be started.
fn ready(bench: &Bench, program: &str, arguments: &[&str], input: &[u8]) -> Command {
    let path = bench.scratch.join("full");
    std::fs::write(&path, input).expect("scratch file");
    let mut command = Command::new(program);
    command
        .args(arguments)
        .stdin(Stdio::from(File::open(&path).expect("scratch file")));
    command
}

/// A device on which nothing can be written.
fn full_device() -> Stdio {
    let device = File::options().write(true).open("/dev/full");
    Stdio::from(device.expect("/dev/full"))
}

/// A program whose output goes to a full device.
fn full(bench: &mut Bench, program: &str, arguments: &[&str], input: &[u8]) {
    let output = ready(bench, program, arguments, input)
        .stdout(full_device())
        .output()
        .expect("a program that can be started");
    let told = String::from_utf8_lossy(&output.stderr);
    let right = output.status.code() == Some(1) && !told.contains("panicked") && !told.is_empty();
    let fault = (!right).then(|| format!("status {:?}: {told}", output.status));
    bench.check(&format!("{arguments:?} to a full device"), fault);
}

/// A program that cannot tell anything still does its work.
fn untold(
    bench: &mut Bench,
    program: &str,
    arguments: &[&str],
    input: &[u8],
    expected: Option<&[u8]>,
) {
    let output = ready(bench, program, arguments, input)
        .stderr(full_device())
        .output()
        .expect("a program that can be started");
    let right = match expected {
        Some(octets) => output.stdout == octets && output.status.code().is_some_and(|s| s < 2),
        None => output.status.code() == Some(2),
    };
    let fault = (!right).then(|| format!("{}, {} octets", output.status, output.stdout.len()));
    bench.check(
        &format!("{arguments:?} with a full device for standard error"),
        fault,
    );
}

/// Output that nobody reads: the program may end before or after it is told.
fn unread(bench: &mut Bench, program: &str, arguments: &[&str], input: &[u8]) {
    let mut child = ready(bench, program, arguments, input)
        .stdout(Stdio::piped())
        .stderr(Stdio::null())
        .spawn()
        .expect("a program that can be started");
    drop(child.stdout.take());
    let status = child.wait().expect("the status of a program");
    let fault = (!matches!(status.code(), Some(0 | 1))).then(|| status.to_string());
    bench.check(
        &format!("{arguments:?} with output that nobody reads"),
        fault,
    );
}

/// Input by a pipe, a few octets at a time.
fn piped(bench: &mut Bench, program: &str, arguments: &[&str], input: &[u8], expected: &[u8]) {
    let mut child = Command::new(program)
        .args(arguments)
        .stdin(Stdio::piped())
        .stdout(Stdio::piped())
        .stderr(Stdio::null())
        .spawn()
        .expect("a program that can be started");
    let mut pipe = child.stdin.take().expect("a pipe");
    for part in input.chunks(7) {
        // A program that ends early closes the pipe, and its output then differs.
        let _ = pipe.write_all(part);
        std::thread::yield_now();
    }
    drop(pipe);
    let output = child.wait_with_output().expect("the output of a program");
    let right = output.status.code() == Some(0) && output.stdout == expected;
    let fault = (!right).then(|| format!("{}, {} octets", output.status, output.stdout.len()));
    bench.check(&format!("{arguments:?} by a pipe"), fault);
}

fn arguments(bench: &mut Bench) {
    let wrong: [&[&str]; 18] = [
        &[],
        &["-", "-"],
        &["--other", "-"],
        &["--port", "-"],
        &["--port"],
        &["--port", "x", "-"],
        &["--port", "65536", "-"],
        &["--port", "-1", "-"],
        &["--client", "-"],
        &["--client", "192.0.2.1", "-"],
        &["--client", "192.0.2.1:65536", "-"],
        &["--client", "nobody:1", "-"],
        &["--to", "x", "-"],
        &["--to", "192.0.2.1:7255", "-"],
        &["--all", "--clients", "-"],
        &["--all", "--client", "192.0.2.1:1", "-"],
        &["--clients", "--client", "192.0.2.1:1", "-"],
        &["--all"],
    ];
    let from = bench.from.clone();
    for arguments in wrong {
        usage(bench, &from, arguments, &small());
    }
    let to = bench.to.clone();
    for mtu in ["67", "65536", "0", "-1", "x", "", "1500.0"] {
        usage(bench, &to, &["--mtu", mtu], &message(20, 1));
    }
    for arguments in [
        &["--mtu"][..],
        &["file"],
        &["--other"],
        &["--mtu", "1500", "more"],
    ] {
        usage(bench, &to, arguments, &message(20, 1));
    }
}

fn usage(bench: &mut Bench, program: &str, arguments: &[&str], input: &[u8]) {
    let answer = bench.run(program, arguments, input);
    let right = answer.status == Some(2) && answer.out.is_empty() && answer.err.contains("usage");
    let fault = (!right).then(|| {
        format!(
            "status {:?}, {} octets: {}",
            answer.status,
            answer.out.len(),
            answer.err
        )
    });
    bench.check(&format!("usage {arguments:?}"), fault);
}

pub fn run(bench: &mut Bench) {
    no_captures(bench);
    arguments(bench);
    let (from, to) = (bench.from.clone(), bench.to.clone());
    let (capture, wanted) = (small(), message(40, 1));
    full(bench, &from, &["-"], &capture);
    full(bench, &from, &["--all", "-"], &capture);
    full(bench, &from, &["--clients", "-"], &capture);
    full(bench, &to, &[], &wanted);
    full(bench, &to, &["--mtu", "68"], &message(4000, 1));
    untold(bench, &from, &["-"], &capture, Some(&wanted));
    untold(bench, &from, &["-"], &capture[..90], Some(&[]));
    untold(bench, &from, &["--other"], &capture, None);
    untold(bench, &to, &["--other"], &wanted, None);
    unread(bench, &from, &["-"], &capture);
    unread(bench, &from, &["--clients", "-"], &capture);
    unread(bench, &to, &["--mtu", "68"], &message(65000, 1));
    piped(bench, &from, &["-"], &capture, &wanted);
    let made = bench.run(&to, &[], &wanted).out;
    piped(bench, &to, &[], &wanted, &made);
}
