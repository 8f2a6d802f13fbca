//! Draws what the receiver decodes from a stream of messages, as SVG.
//!
//! usage: plot [--frame N | --waves FROM TO | --meters | --sheet [--messages FROM TO]]
//!             [--points N] CHANNEL < STREAM > SVG
//!
//! One frame of a channel (`--frame`, counted from 1), or its waves with
//! timestamps FROM to TO; `--sheet` has every frame small on one page, or those
//! of the messages FROM to TO, and `--meters` the three meters and the refusals
//! over the messages of the whole stream. With none of these: the first frame, or
//! where there is none all waves. Beside each picture stand the messages that
//! were refused.
//!
//! Every message is offered to the receiver through its C calls, from a start
//! at 0 0 0. `--points` says for how many points rows are lent, 65,536 if it is
//! not given; with 500 the replies are those of the listing.

mod arguments;
mod colour;
mod one;
mod page;
mod readings;
mod refusals;
mod run;
mod sentences;
mod sheet;
mod strokes;

#[path = "../../include/mewkoast.rs"]
mod mewkoast;

#[path = "../messages.rs"]
mod messages;

use arguments::{Arguments, Picture};
use run::{Kind, Run};
use std::io::{Read, Write};
use std::process::ExitCode;

fn main() -> ExitCode {
    // An argument that is no text is none that the usage has.
    let given = std::env::args_os().skip(1).map(|word| word.into_string());
    let given: Result<Vec<String>, _> = given.collect();
    let Some(arguments) = given.ok().and_then(|given| arguments::parse(&given)) else {
        eprintln!("{}", arguments::USAGE);
        return ExitCode::from(2);
    };
    let mut stream = Vec::new();
    if let Err(error) = std::io::stdin().read_to_end(&mut stream) {
        eprintln!("plot: standard input cannot be read: {error}");
        return ExitCode::FAILURE;
    }
    let run = run::over(&stream, arguments.channel, arguments.points);
    if run.cut > 0 {
        eprintln!("plot: {} octets at the end are no whole message", run.cut);
    }
    let picture = match draw(&run, &arguments) {
        Ok(picture) => picture,
        Err(reason) => {
            eprintln!("plot: {reason}");
            return ExitCode::FAILURE;
        }
    };
    if let Err(error) = std::io::stdout().write_all(picture.as_bytes()) {
        eprintln!("plot: standard output cannot be written: {error}");
        return ExitCode::FAILURE;
    }
    ExitCode::SUCCESS
}

/// The picture that was asked for, or why there is none.
fn draw(run: &Run, arguments: &Arguments) -> Result<String, String> {
    match arguments.picture {
        Picture::Meters => Ok(readings::draw(run)),
        Picture::Sheet(between) => Ok(sheet::draw(run, between)),
        Picture::Waves(from, to) => Ok(one::waves(run, Some((from, to)))),
        Picture::Frame(number) => {
            let frames = run.of_kind(Kind::Frame);
            match number.checked_sub(1).and_then(|at| frames.get(at)) {
                Some(frame) => Ok(one::frame(run, number, frame)),
                None => Err(format!(
                    "channel {} has {} frames with points, so there is no frame {number}",
                    run.channel,
                    frames.len()
                )),
            }
        }
        Picture::First => Ok(match run.of_kind(Kind::Frame).first() {
            Some(frame) => one::frame(run, 1, frame),
            None => one::waves(run, None),
        }),
    }
}
