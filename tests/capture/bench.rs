//! Runs the programs on a capture and keeps count of what differed.

use std::fs::{self, File};
use std::path::PathBuf;
use std::process::{Command, Stdio};

pub struct Bench {
    pub from: String,
    pub to: String,
    pub scratch: PathBuf,
    pub cases: usize,
    pub failed: usize,
}

/// What a program did. A program ended by a signal has no status.
pub struct Answer {
    pub status: Option<i32>,
    pub out: Vec<u8>,
    pub err: String,
}

impl Answer {
    /// The sum over the lines on standard error that tell of things skipped.
    pub fn skipped(&self) -> usize {
        self.told("from_capture: skipped ")
    }

    /// The same of things that are noted and used.
    pub fn noted(&self) -> usize {
        self.told("from_capture: noted ")
    }

    fn told(&self, how: &str) -> usize {
        let count = |line: &str| -> Option<usize> {
            let rest = line.strip_prefix(how)?;
            rest.split(' ').next()?.parse().ok()
        };
        self.err.lines().filter_map(count).sum()
    }

    /// Whether one line has the packets of the file, and each of them is in a
    /// message or skipped.
    fn accounts(&self) -> bool {
        let lines = self
            .err
            .lines()
            .filter(|line| line.contains(" in the file: "));
        let numbers = |line: &str| -> Vec<usize> {
            let words = line.split([' ', ',']);
            words.filter_map(|word| word.parse().ok()).collect()
        };
        let told: Vec<Vec<usize>> = lines.map(numbers).collect();
        matches!(&told[..], [of_file] if matches!(of_file[..], [all, used, skipped] if all == used + skipped))
    }

    /// Why this is no answer that any capture may give, if it is none.
    pub fn broken(&self) -> Option<String> {
        if !matches!(self.status, Some(0) | Some(1)) || self.err.contains("panicked") {
            return Some(format!("status {:?}: {}", self.status, self.err));
        }
        if self.err.is_empty() || !self.err.lines().all(well_told) {
            return Some(format!("not told as lines are: {}", self.err));
        }
        if self.status == Some(0) && !self.accounts() {
            return Some(format!("packets are not accounted for: {}", self.err));
        }
        if split(&self.out).is_none() {
            return Some(format!("no whole messages: {}", hex(&self.out)));
        }
        None
    }
}

/// Whether a line has the program's name and, where it tells of things skipped or
/// noted, their number, what they are, and a sentence.
fn well_told(line: &str) -> bool {
    let Some(rest) = line.strip_prefix("from_capture: ") else {
        return false;
    };
    let mut words = rest.splitn(4, ' ');
    if !matches!(words.next(), Some("skipped" | "noted")) {
        return true;
    }
    let (Some(number), Some(things), Some(sentence)) = (words.next(), words.next(), words.next())
    else {
        return false;
    };
    let ending = if number == "1" { ":" } else { "s:" };
    let one = number != "1" || !things.ends_with("s:");
    number.parse() != Ok(0) && things.ends_with(ending) && one && !sentence.is_empty()
}

/// The messages that are end to end in these octets, or none where the last one
/// is not whole.
pub fn split(mut octets: &[u8]) -> Option<Vec<Vec<u8>>> {
    let mut all = Vec::new();
    while !octets.is_empty() {
        let size = usize::from(u16::from_be_bytes([octets[0], *octets.get(1)?]));
        if size < 8 || size > octets.len() {
            return None;
        }
        all.push(octets[..size].to_vec());
        octets = &octets[size..];
    }
    Some(all)
}

/// The first octets in hexadecimal digits.
pub fn hex(octets: &[u8]) -> String {
    let text: String = octets
        .iter()
        .take(900)
        .map(|o| format!("{o:02X}"))
        .collect();
    format!("{} octets {text}", octets.len())
}

impl Bench {
    pub fn check(&mut self, name: &str, fault: Option<String>) {
        self.cases += 1;
        if let Some(fault) = fault {
            self.failed += 1;
            println!("capture, {name}: {}", fault.trim_end().replace('\n', " | "));
        }
    }

    pub fn run(&self, program: &str, arguments: &[&str], input: &[u8]) -> Answer {
        let path = self.scratch.join("input");
        fs::write(&path, input).expect("scratch directory");
        let output = Command::new(program)
            .args(arguments)
            .stdin(Stdio::from(File::open(&path).expect("scratch file")))
            .output()
            .expect("a program that can be started");
        Answer {
            status: output.status.code(),
            out: output.stdout,
            err: String::from_utf8_lossy(&output.stderr).into_owned(),
        }
    }

    /// from_capture on a file with this capture.
    pub fn read(&self, options: &[&str], capture: &[u8]) -> Answer {
        let path = self.scratch.join("input");
        let name = path.to_str().expect("a path in UTF-8");
        self.run(&self.from, &[options, &[name]].concat(), capture)
    }

    /// The capture must give these messages and no other, and status 0.
    pub fn gives(&mut self, name: &str, options: &[&str], capture: &[u8], expected: &[Vec<u8>]) {
        let answer = self.read(options, capture);
        self.check(name, differs(&answer, capture, expected));
    }

    /// The same, and so many things must be told as skipped.
    pub fn skips(&mut self, name: &str, capture: &[u8], expected: &[Vec<u8>], count: usize) {
        let answer = self.read(&[], capture);
        let mut fault = differs(&answer, capture, expected);
        if fault.is_none() && answer.skipped() != count {
            fault = Some(format!(
                "expected {count} skipped, got {} of {}",
                answer.err,
                hex(capture)
            ));
        }
        self.check(name, fault);
    }
}

/// Why an answer is not status 0 with these messages.
pub fn differs(answer: &Answer, capture: &[u8], expected: &[Vec<u8>]) -> Option<String> {
    let broken = answer.broken();
    if broken.is_none() && answer.status == Some(0) && answer.out == expected.concat() {
        return None;
    }
    Some(format!(
        "status {:?}, expected {}, got {}, told {}, capture {}",
        answer.status,
        hex(&expected.concat()),
        hex(&answer.out),
        answer.err,
        hex(capture)
    ))
}
