//! Takes the IDN channel messages out of a capture file (pcap or pcapng) and
//! writes them end to end to standard output. What is not passed on is counted
//! on standard error. The whole file is read into memory.

use std::env;
use std::ffi::OsString;
use std::fs;
use std::io::{self, BufWriter, Read, Write};
use std::net::{IpAddr, SocketAddr};
use std::path::Path;
use std::process::ExitCode;
use std::str::FromStr;

use capture::clients::{self, Who};
use capture::messages::{self, Message};

const USAGE: &str = "usage: from_capture [--clients | --all | --client ADDRESS:PORT] \
                     [--to ADDRESS] [--port N] FILE";

/// What the command line gives.
#[derive(Default)]
struct Arguments {
    clients: bool,
    who: Option<Who>,
    to: Option<IpAddr>,
    port: Option<u16>,
    file: OsString,
}

/// The command line, or nothing where it is not as the usage says.
fn arguments(mut words: impl Iterator<Item = OsString>) -> Option<Arguments> {
    let mut given = Arguments::default();
    let mut file = None;
    while let Some(word) = words.next() {
        match word.to_str() {
            Some("--clients") if given.who.is_none() => {
                given.clients = true;
                given.who = Some(Who::All);
            }
            Some("--all") if given.who.is_none() => given.who = Some(Who::All),
            Some("--client") if given.who.is_none() => {
                given.who = Some(Who::Client(value::<SocketAddr>(words.next())?));
            }
            Some("--to") if given.to.is_none() => given.to = Some(value(words.next())?),
            Some("--port") if given.port.is_none() => given.port = Some(value(words.next())?),
            Some(option) if option.starts_with("--") => return None,
            _ if file.is_none() => file = Some(word),
            _ => return None,
        }
    }
    given.file = file?;
    Some(given)
}

/// The value of an option.
fn value<T: FromStr>(word: Option<OsString>) -> Option<T> {
    word?.to_str()?.parse().ok()
}

/// The whole file. It stays in memory, because messages are taken from it in
/// place and the client with the most messages is known only at the end.
fn read(file: &Path) -> io::Result<Vec<u8>> {
    if file != Path::new("-") {
        return fs::read(file);
    }
    let mut octets = Vec::new();
    io::stdin().lock().read_to_end(&mut octets)?;
    Ok(octets)
}

/// Writes the list of clients, or the messages.
fn write(messages: &[Message], clients: bool) -> io::Result<()> {
    let mut output = BufWriter::new(io::stdout().lock());
    if clients {
        for line in clients::list(messages) {
            writeln!(output, "{line}")?;
        }
    } else {
        for message in messages {
            output.write_all(&message.octets)?;
        }
    }
    output.flush()
}

/// Tells something on standard error. Where that cannot be written, the work
/// still counts.
fn tell(line: &str) {
    let _ = writeln!(io::stderr(), "{line}");
}

/// Does what the command line asks for, or says why it cannot be done.
fn run(given: &Arguments) -> Result<(), String> {
    let file = Path::new(&given.file);
    let octets = read(file).map_err(|error| format!("{}: {error}", file.display()))?;
    let port = given.port.unwrap_or(messages::PORT);
    let reading = messages::read(&octets, port)
        .ok_or_else(|| format!("{}: neither a pcap nor a pcapng file", file.display()))?;
    let mut counts = reading.counts;
    let who = given.who.unwrap_or(Who::Most);
    let messages = clients::choose(reading.messages, who, given.to, &mut counts);
    write(&messages, given.clients).map_err(|error| format!("standard output: {error}"))?;
    tell(&format!("from_capture: {}", clients::summary(&messages)));
    // Each packet is in one of the two numbers: none is lost on the way.
    let used: usize = messages.iter().map(|message| message.packets).sum();
    let skipped = counts.skipped_packets();
    let plural = if reading.packets == 1 { "" } else { "s" };
    tell(&format!(
        "from_capture: {} packet{plural} in the file: {used} in these messages, {skipped} skipped",
        reading.packets
    ));
    for line in counts.lines() {
        tell(&format!("from_capture: {line}"));
    }
    Ok(())
}

fn main() -> ExitCode {
    let Some(given) = arguments(env::args_os().skip(1)) else {
        tell(USAGE);
        return ExitCode::from(2);
    };
    match run(&given) {
        Ok(()) => ExitCode::SUCCESS,
        Err(error) => {
            tell(&format!("from_capture: {error}"));
            ExitCode::FAILURE
        }
    }
}
