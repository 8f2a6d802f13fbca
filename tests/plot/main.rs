//! Tests of the program `plot`. What its pictures must show is worked out by
//! the other decoder (tests/decoder) and from what its usage promises.
//!
//! usage: plot_test PLOT STREAM...

mod altered;
mod by_hand;
mod colours;
mod documents;
mod field;
mod files;
mod lists;
mod made;
mod meters;
mod picture;
mod program;
mod refused;
mod tally;
mod told;
mod usage;
mod waves;
mod xml;

use picture::Pictures;
use program::Plot;
use std::process::ExitCode;
use tally::Tally;

fn main() -> ExitCode {
    let arguments: Vec<String> = std::env::args().skip(1).collect();
    let [path, streams @ ..] = &arguments[..] else {
        eprintln!("usage: plot_test PLOT STREAM...");
        return ExitCode::from(2);
    };
    match test(path, streams) {
        Ok(tally) => {
            println!("{} {}", tally.cases, tally.failed);
            ExitCode::from(u8::from(tally.failed > 0))
        }
        Err(error) => {
            eprintln!("plot_test: {error}");
            ExitCode::from(2)
        }
    }
}

fn test(path: &str, streams: &[String]) -> Result<Tally, String> {
    let header = "include/mewkoast.h";
    let header = std::fs::read_to_string(header).map_err(|error| format!("{header}: {error}"))?;
    let mut plot = Plot {
        path: path.into(),
        pictures: Pictures::new(&header)?,
        tally: Tally::default(),
    };
    documents::check(&mut plot.tally);
    altered::check(&mut plot, &header)?;
    usage::check(&mut plot);
    by_hand::check(&mut plot);
    waves::check(&mut plot);
    lists::check(&mut plot);
    colours::check(&mut plot);
    for stream in streams {
        let octets = std::fs::read(stream).map_err(|error| format!("{stream}: {error}"))?;
        files::check(&mut plot, stream, octets);
    }
    Ok(plot.tally)
}
