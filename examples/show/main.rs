//! show
//!
//! Writes two seconds of a small laser show to standard output: IDN channel
//! messages end to end, made from document 003 alone, all on channel 1.

mod letters;
mod message;
mod shapes;

use message::{Setting, BLUE, FRAMES, GREEN, HINT, POWER, PRECISION, RED, VISUAL, WAVES, X, Y};
use shapes::{Path, Sample};
use std::io::Write;

/// 25 frames a second.
const FRAME: u32 = 40_000;

/// A wave takes 20 ms: 400 samples at 20 kHz.
const WAVE: u32 = 20_000;
const WAVE_SAMPLES: u32 = 400;

/// On unreliable connections the configuration is present every 200 ms (2.2).
const REPEAT: u32 = 200_000;

/// The tags of 3.4.11, with the space modifier it asks for.
const SQUARE: Setting = Setting {
    mode: FRAMES,
    matching: 1,
    tags: &[X, PRECISION, Y, PRECISION, RED, GREEN, BLUE, VISUAL],
};

/// One octet each, and the hint (3.4.6). The samples have another structure
/// than those before, so the match bits change (2.2), as they do each time.
const STARS: Setting = Setting {
    mode: FRAMES,
    matching: 2,
    tags: &[X, Y, RED, GREEN, BLUE, HINT, POWER],
};

/// Continuous mode (3.2), with the colours in front as in 3.4.10.
const ROSE: Setting = Setting {
    mode: WAVES,
    matching: 3,
    tags: &[RED, GREEN, BLUE, X, PRECISION, Y, PRECISION, VISUAL],
};

/// The tags of the first part again, under the match bits that are left.
const TEXT: Setting = Setting {
    mode: FRAMES,
    matching: 0,
    tags: SQUARE.tags,
};

struct Show {
    stream: Vec<u8>,
    /// Microseconds since the beginning, for the timestamps (2.1).
    time: u32,
}

impl Show {
    /// `count` chunks of this setting, one after the other without a gap. The
    /// first message routes the channel, and the configuration is repeated.
    fn part(
        &mut self,
        setting: &Setting,
        duration: u32,
        count: u32,
        picture: fn(u32) -> Vec<Sample>,
    ) {
        for number in 0..count {
            let routed = number * duration % REPEAT == 0;
            let samples = picture(number);
            let octets = message::samples(setting, routed, self.time, duration, &samples);
            self.stream.extend(octets);
            self.time += duration;
        }
    }

    /// A frame of the first part that comes late, while the stars' setting is
    /// in force. Its match bits tell that it does not belong there: the
    /// projector refuses it and waits for a new configuration (5.6), which the
    /// next message has to bring. Its timestamp is the time it is sent, since
    /// timestamps never go back (2.1).
    fn late(&mut self) {
        let samples = square_and_text(0);
        let time = self.time - FRAME / 2;
        self.stream
            .extend(message::samples(&SQUARE, false, time, FRAME, &samples));
    }
}

/// A turning square with the text inside. The text is within the circle that
/// touches the sides, so the two never meet. The step keeps the message, with
/// its configuration, short enough for one IP packet on Ethernet.
fn square_and_text(frame: u32) -> Vec<Sample> {
    let mut path = Path::new(1_900.0);
    shapes::square(&mut path, 21_000.0, f64::from(frame) * 0.08);
    letters::text(&mut path, 35_000.0, 6_600.0, &[shapes::WHITE]);
    path.samples
}

/// Four stars, one in the other. Each fades in steps and comes back, one step
/// after its neighbour, so the first frame shows all four colour scales.
fn stars(frame: u32) -> Vec<Sample> {
    let fade = [0, 1, 2, 3, 2, 1];
    // With these radii and this step every sample is a multiple of 256, so it
    // loses nothing in a single octet, and the lines stay straight.
    let mut path = Path::new(2_500.0);
    let radii = [30_720.0, 24_576.0, 18_432.0, 12_288.0];
    for (number, radius) in radii.into_iter().enumerate() {
        let scale = fade[(frame as usize + number) % fade.len()];
        shapes::star(&mut path, radius, scale);
    }
    path.samples
}

fn rose(wave: u32) -> Vec<Sample> {
    shapes::rose(wave, WAVE_SAMPLES, 29_000.0)
}

/// The text alone, its letters in turn in the three colours, which move on by
/// one letter with every second frame.
fn text_alone(frame: u32) -> Vec<Sample> {
    let mut path = Path::new(2_000.0);
    let mut colours = [shapes::RED, shapes::GREEN, shapes::BLUE];
    colours.rotate_right(frame as usize / 2 % 3);
    letters::text(&mut path, 60_000.0, 11_500.0, &colours);
    path.samples
}

fn main() -> std::io::Result<()> {
    let mut show = Show {
        stream: Vec::new(),
        time: 0,
    };
    show.part(&SQUARE, FRAME, 23, square_and_text);
    show.part(&STARS, FRAME, 9, stars);
    show.late();
    show.part(&ROSE, WAVE, 24, rose);
    show.part(&TEXT, FRAME, 6, text_alone);
    show.stream.extend(message::close(show.time));
    let mut output = std::io::stdout();
    output.write_all(&show.stream)?;
    output.flush()
}
