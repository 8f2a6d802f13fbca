//! Runs the program and checks its picture.

use crate::picture::{Asked, Pictures};
use crate::tally::{same, short, Tally};
use crate::told::{Told, POINTS};
use std::io::Write;
use std::process::{Command, Stdio};

pub struct Plot {
    pub path: String,
    pub pictures: Pictures,
    pub tally: Tally,
}

pub struct Outcome {
    /// None where a signal ended it.
    pub status: Option<i32>,
    pub svg: Vec<u8>,
    pub errors: String,
}

/// Runs the program on a stream; `output` is where standard output goes.
pub fn run(path: &str, arguments: &[String], stream: &[u8], output: Stdio) -> Outcome {
    let mut child = Command::new(path)
        .args(arguments)
        .stdin(Stdio::piped())
        .stdout(output)
        .stderr(Stdio::piped())
        .spawn()
        .unwrap_or_else(|error| panic!("{path}: {error}"));
    let mut input = child.stdin.take().unwrap();
    let output = std::thread::scope(|scope| {
        // A program that refuses its arguments need not read, and then the
        // rest cannot be written.
        scope.spawn(move || input.write_all(stream).ok());
        child.wait_with_output().unwrap()
    });
    Outcome {
        status: output.status.code(),
        svg: output.stdout,
        errors: String::from_utf8_lossy(&output.stderr).into_owned(),
    }
}

/// A stream and what the other decoder says of it.
pub struct Stream {
    pub name: String,
    pub octets: Vec<u8>,
    pub points: usize,
    pub told: Told,
}

impl Stream {
    pub fn new(name: &str, octets: Vec<u8>) -> Stream {
        Stream::lent(name, octets, POINTS)
    }

    /// With rows for so many points.
    pub fn lent(name: &str, octets: Vec<u8>, points: usize) -> Stream {
        Stream {
            name: name.into(),
            told: Told::of(&octets, points),
            octets,
            points,
        }
    }

    /// The arguments for a picture of this stream.
    pub fn arguments(&self, asked: Asked, channel: u8) -> Vec<String> {
        let mut words = asked.arguments();
        if self.points != POINTS {
            words.extend(["--points".into(), self.points.to_string()]);
        }
        words.push(channel.to_string());
        words
    }
}

impl Plot {
    /// One picture of a stream, which is one case, and its octets.
    pub fn picture(&mut self, stream: &Stream, channel: u8, asked: Asked) -> Vec<u8> {
        let arguments = stream.arguments(asked, channel);
        let outcome = run(&self.path, &arguments, &stream.octets, Stdio::piped());
        let found = told_cut(&outcome, stream.told.cut)
            .and_then(|()| same("status", &Some(0), &outcome.status))
            .and_then(|()| {
                self.pictures
                    .check(&stream.told, channel, asked, &outcome.svg)
            });
        let name = format!("{}, {}", stream.name, arguments.join(" "));
        self.tally.case(&name, found);
        outcome.svg
    }

    /// The one picture, the sheet and the meters of a channel.
    pub fn pictures(&mut self, stream: &Stream, channel: u8) {
        for asked in [Asked::Either, Asked::Sheet, Asked::Meters] {
            self.picture(stream, channel, asked);
        }
    }
}

/// The octets that are no whole message are told, and nothing else.
fn told_cut(outcome: &Outcome, cut: usize) -> Result<(), String> {
    let errors = &outcome.errors;
    let mut numbers = errors.split(|c: char| !c.is_ascii_digit());
    let told = match cut {
        0 => errors.is_empty(),
        _ => numbers.any(|number| number == cut.to_string()),
    };
    if told {
        return Ok(());
    }
    Err(format!("{cut} octets are cut: {:?}", short(errors)))
}
