//! Streams from files: every channel, and a selection of frames and waves.

use crate::picture::Asked;
use crate::program::{run, Plot, Stream};
use crate::tally::same;
use crate::told::Kind;
use std::process::Stdio;

/// The points of the listing program.
const LISTING: usize = 500;

pub fn check(plot: &mut Plot, name: &str, octets: Vec<u8>) {
    let stream = Stream::new(name, octets.clone());
    for channel in 0..64 {
        plot.picture(&stream, channel, Asked::Sheet);
        if channel % 4 == 1 {
            plot.picture(&stream, channel, Asked::Meters);
            let messages = stream.told.messages.len();
            plot.picture(&stream, channel, Asked::SheetOf(2, messages / 2));
        }
        if !stream.told.drawings(channel).is_empty() {
            plot.picture(&stream, channel, Asked::Either);
        }
        plot.some_frames(&stream, channel);
        plot.some_waves(&stream, channel);
    }
    // The replies of the listing: with rows for fewer points.
    let stream = Stream::lent(name, octets, LISTING);
    for channel in [0, 5, 63] {
        plot.pictures(&stream, channel);
    }
}

impl Plot {
    /// The first frames, one in the middle and the last; and none after it.
    fn some_frames(&mut self, stream: &Stream, channel: u8) {
        let drawings = stream.told.drawings(channel);
        let frames = drawings.iter().filter(|one| one.kind == Kind::Frame);
        let frames = frames.count();
        let mut some = vec![1, 2, frames / 2, frames];
        some.sort();
        some.dedup();
        for number in some
            .into_iter()
            .filter(|number| (1..=frames).contains(number))
        {
            self.picture(stream, channel, Asked::Frame(number));
        }
        if frames > 0 {
            let arguments = stream.arguments(Asked::Frame(frames + 1), channel);
            let outcome = run(&self.path, &arguments, &stream.octets, Stdio::piped());
            let found = same("status", &Some(1), &outcome.status);
            let name = format!("{}, {}", stream.name, arguments.join(" "));
            self.tally.case(&name, found);
        }
    }

    /// From the first wave to the last, from one to the next, and the other
    /// way round.
    fn some_waves(&mut self, stream: &Stream, channel: u8) {
        let drawings = stream.told.drawings(channel);
        let waves = drawings.iter().filter(|one| one.kind == Kind::Wave);
        let times: Vec<u32> = waves.map(|one| one.timestamp).collect();
        let (Some(first), Some(last)) = (times.first(), times.last()) else {
            return;
        };
        let middle = times[times.len() / 2];
        for (from, to) in [
            (*first, *last),
            (middle, middle),
            (*last, *first),
            (*first, middle),
        ] {
            self.picture(stream, channel, Asked::Waves(from, to));
        }
    }
}
