//! Writes a stream of IDN channel messages, end to end on standard input, as a
//! capture file (pcap) to standard output: each message in a UDP datagram.

use std::env;
use std::ffi::OsString;
use std::io::{self, BufWriter, Read, Write};
use std::process::ExitCode;

use capture::write::{self, Writer, LEAST_MTU};

#[path = "messages.rs"]
mod messages;

const USAGE: &str = "usage: to_capture [--mtu N] < STREAM > CAPTURE   (N from 68 to 65535)";
/// The MTU of Ethernet.
const MTU: u16 = 1500;

/// The MTU of the command line, or nothing where it is not as the usage says.
fn arguments(words: &[OsString]) -> Option<u16> {
    match words {
        [] => Some(MTU),
        [option, value] if option == "--mtu" => {
            let mtu = value.to_str()?.parse().ok()?;
            (mtu >= LEAST_MTU).then_some(mtu)
        }
        _ => None,
    }
}

/// Writes the capture and tells how many messages are too long for it.
fn write(messages: &[&[u8]], mtu: u16) -> io::Result<usize> {
    let mut output = BufWriter::new(io::stdout().lock());
    output.write_all(&write::file_header())?;
    let mut writer = Writer::new(mtu);
    let mut long = 0;
    for message in messages {
        match writer.records(message) {
            Some(records) => output.write_all(&records)?,
            None => long += 1,
        }
    }
    output.flush()?;
    Ok(long)
}

/// Tells something on standard error. Where that cannot be written, the work
/// still counts.
fn tell(line: &str) {
    let _ = writeln!(io::stderr(), "{line}");
}

/// Turns the stream into a capture, or says why it cannot be done.
fn run(mtu: u16) -> Result<(), String> {
    let mut stream = Vec::new();
    let read = io::stdin().lock().read_to_end(&mut stream);
    read.map_err(|error| format!("standard input: {error}"))?;
    let (messages, rest) = messages::split(&stream);
    let long = write(&messages, mtu).map_err(|error| format!("standard output: {error}"))?;
    if long > 0 {
        let plural = if long == 1 { "" } else { "s" };
        tell(&format!(
            "to_capture: skipped {long} message{plural}: above 65,503 octets, too long for IPv4"
        ));
    }
    if rest > 0 {
        let plural = if rest == 1 { "" } else { "s" };
        tell(&format!("to_capture: cut {rest} octet{plural} at the end"));
    }
    Ok(())
}

fn main() -> ExitCode {
    let words: Vec<OsString> = env::args_os().skip(1).collect();
    let Some(mtu) = arguments(&words) else {
        tell(USAGE);
        return ExitCode::from(2);
    };
    match run(mtu) {
        Ok(()) => ExitCode::SUCCESS,
        Err(error) => {
            tell(&format!("to_capture: {error}"));
            ExitCode::FAILURE
        }
    }
}
