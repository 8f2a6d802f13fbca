//! Arguments and status.

use crate::made::{self, chunk, plain, small, FRAME, SMALL};
use crate::program::{run, Outcome, Plot};
use std::ffi::OsStr;
use std::os::unix::ffi::OsStrExt;
use std::process::{Command, Stdio};

/// Arguments that are refused, each word after the one before.
const WRONG: [&[&str]; 44] = [
    &[],
    &[""],
    &["64"],
    &["255"],
    &["256"],
    &["261"],
    &["99999999999999999999"],
    &["-1"],
    &["x"],
    &["5x"],
    &["5.0"],
    &["0x5"],
    &[" 5"],
    &["5", "6"],
    &["5", "5"],
    &["--frame"],
    &["--frame", "1"],
    &["--frame", "x", "5"],
    &["--frame", "-1", "5"],
    &["--frame", "--sheet", "5"],
    &["--frame", "1", "--frame", "1", "5"],
    &["--waves", "5"],
    &["--waves", "1", "5"],
    &["--waves", "1", "x", "5"],
    &["--waves", "x", "1", "5"],
    &["--waves", "1", "2", "--waves", "1", "2", "5"],
    &["--sheet"],
    &["--sheet", "--sheet", "5"],
    &["--meters"],
    &["--meters", "--meters", "5"],
    &["--frame", "1", "--sheet", "5"],
    &["--frame", "1", "--waves", "1", "2", "5"],
    &["--waves", "1", "2", "--meters", "5"],
    &["--sheet", "--meters", "5"],
    &["--points", "5"],
    &["--points", "x", "5"],
    &["--points", "1", "--points", "1", "5"],
    &["--other", "5"],
    &["--messages", "1", "2", "5"],
    &["--messages", "1", "2", "--meters", "5"],
    &["--messages", "1", "2", "--frame", "1", "5"],
    &["--sheet", "--messages", "1", "5"],
    &["--sheet", "--messages", "1", "x", "5"],
    &[
        "--sheet",
        "--messages",
        "1",
        "2",
        "--messages",
        "1",
        "2",
        "5",
    ],
];

const USAGE: &str = "usage: plot [--frame N | --waves FROM TO | --meters | \
     --sheet [--messages FROM TO]] [--points N] CHANNEL < STREAM > SVG";

/// A frame of 5 points on channel 5, and a message that is refused.
fn stream() -> Vec<u8> {
    [
        made::frames(5, SMALL),
        plain(5, FRAME, 0, &chunk(&small(5, 1))),
        plain(5, FRAME, 0, &[]),
    ]
    .concat()
}

fn words(arguments: &[&str]) -> Vec<String> {
    arguments.iter().map(|word| word.to_string()).collect()
}

/// It ended by itself with this status and did not panic.
fn ended(outcome: &Outcome, status: i32) -> Result<(), String> {
    let Outcome { errors, .. } = outcome;
    if outcome.status == Some(status) && !errors.contains("panicked") {
        return Ok(());
    }
    Err(format!("status {:?}, {errors:?}", outcome.status))
}

pub fn check(plot: &mut Plot) {
    plot.no_text();
    plot.refused_arguments();
    plot.taken_arguments();
    plot.no_frame();
    plot.full();
}

impl Plot {
    fn run(&self, arguments: &[&str]) -> Outcome {
        run(&self.path, &words(arguments), &stream(), Stdio::piped())
    }

    /// An argument need not be text.
    fn no_text(&mut self) {
        let output = Command::new(&self.path)
            .arg(OsStr::from_bytes(b"\xFF"))
            .stdin(Stdio::null())
            .output();
        let output = output.expect("a program that can be started");
        let told = String::from_utf8_lossy(&output.stderr).contains(USAGE);
        let ends = told && output.status.code() == Some(2);
        self.tally.truth("an argument that is no text", ends);
    }

    fn refused_arguments(&mut self) {
        for arguments in WRONG {
            let outcome = self.run(arguments);
            let usage = outcome.errors.contains(USAGE) && outcome.svg.is_empty();
            let found = ended(&outcome, 2).and(match usage {
                true => Ok(()),
                false => Err(format!("no usage: {:?}", outcome.errors)),
            });
            self.tally.case(&format!("arguments {arguments:?}"), found);
        }
    }

    /// The edges of what is allowed; where the octets differ is not asked here.
    fn taken_arguments(&mut self) {
        let taken: [&[&str]; 10] = [
            &["--messages", "1", "2", "--sheet", "5"],
            &["--sheet", "--messages", "3", "2", "5"],
            &["0"],
            &["63"],
            &["--frame", "1", "5"],
            &["--waves", "4294967295", "0", "5"],
            &["--points", "5", "5"],
            &["--points", "0", "--sheet", "5"],
            &["--sheet", "--points", "5", "5"],
            &["--meters", "--points", "500", "63"],
        ];
        for arguments in taken {
            let found = ended(&self.run(arguments), 0);
            self.tally.case(&format!("arguments {arguments:?}"), found);
        }
        // However many points are asked for, it does not panic.
        for points in ["9999999999", "18446744073709551615", "18446744073709551616"] {
            let outcome = self.run(&["--points", points, "5"]);
            let ends =
                matches!(outcome.status, Some(0..=2)) && !outcome.errors.contains("panicked");
            self.tally.truth(&format!("{points} points"), ends);
        }
    }

    /// A frame that is not there is told, and nothing is drawn.
    fn no_frame(&mut self) {
        let missing: [&[&str]; 4] = [
            &["--frame", "2", "5"],
            &["--frame", "1", "6"],
            &["--frame", "1", "--points", "4", "5"],
            &["--frame", "4294967295", "5"],
        ];
        for arguments in missing {
            let outcome = self.run(arguments);
            let told = !outcome.errors.trim().is_empty() && outcome.svg.is_empty();
            let found = ended(&outcome, 1).and(match told {
                true => Ok(()),
                false => Err("no sentence, or a picture".into()),
            });
            self.tally.case(&format!("missing {arguments:?}"), found);
        }
    }

    /// An output that cannot be written.
    fn full(&mut self) {
        for asked in [
            "--sheet 5",
            "--meters 5",
            "--frame 1 5",
            "--waves 1 2 5",
            "5",
            "9",
        ] {
            for octets in [stream(), Vec::new()] {
                // Without a stream there is no frame to write.
                if octets.is_empty() && asked.starts_with("--frame") {
                    continue;
                }
                let full = std::fs::File::options().write(true).open("/dev/full");
                let output = Stdio::from(full.expect("/dev/full"));
                let arguments: Vec<&str> = asked.split(' ').collect();
                let outcome = run(&self.path, &words(&arguments), &octets, output);
                let told = !outcome.errors.trim().is_empty();
                self.tally.truth("a full output is told", told);
                let name = format!("a full output, {asked}");
                self.tally.case(&name, ended(&outcome, 1));
            }
        }
    }
}
