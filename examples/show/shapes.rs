//! Samples, the path that a frame is drawn along, and the show's shapes.

use std::f64::consts::{PI, SQRT_2, TAU};

pub type Colour = [u8; 3];

/// Red, green, blue (003, 3.4.11). Blanking is all colours at 0.
pub const DARK: Colour = [0, 0, 0];
pub const RED: Colour = [255, 0, 0];
pub const GREEN: Colour = [0, 255, 0];
pub const BLUE: Colour = [0, 0, 255];
pub const YELLOW: Colour = [255, 255, 0];
pub const AMBER: Colour = [255, 150, 0];
pub const WHITE: Colour = [255, 255, 255];

#[derive(Clone, Copy)]
pub struct Sample {
    pub x: i16,
    pub y: i16,
    pub colour: Colour,
    /// The colour scale of the hint (3.4.6), for dictionaries that have one.
    pub scale: u8,
}

pub type Place = (f64, f64);

/// The samples of one frame. A sample's colour is that of the segment which
/// ends at it (5.2), so a dark sample moves and a coloured one draws.
pub struct Path {
    pub samples: Vec<Sample>,
    /// The longest segment that is drawn. Longer lines are divided evenly.
    step: f64,
    at: Place,
}

impl Path {
    pub fn new(step: f64) -> Path {
        Path {
            samples: Vec::new(),
            step,
            at: (0.0, 0.0),
        }
    }

    /// A stroke along the corners: a dark move to the first one, then lines.
    /// As a path begins with a stroke, its first sample is invisible (5.2).
    pub fn stroke(&mut self, corners: &[Place], colour: Colour, scale: u8) {
        for (number, &corner) in corners.iter().enumerate() {
            if number == 0 {
                self.put(corner, DARK, 0);
            } else {
                self.line(corner, colour, scale);
            }
        }
    }

    /// A line from where the path stands.
    pub fn line(&mut self, to: Place, colour: Colour, scale: u8) {
        let from = self.at;
        let (dx, dy) = (to.0 - from.0, to.1 - from.1);
        let pieces = (dx.hypot(dy) / self.step).ceil().max(1.0) as u32;
        for piece in 1..=pieces {
            let part = f64::from(piece) / f64::from(pieces);
            self.put((from.0 + dx * part, from.1 + dy * part), colour, scale);
        }
    }

    fn put(&mut self, at: Place, colour: Colour, scale: u8) {
        self.samples.push(sample(at, colour, scale));
        self.at = at;
    }
}

fn sample(at: Place, colour: Colour, scale: u8) -> Sample {
    Sample {
        x: at.0.round() as i16,
        y: at.1.round() as i16,
        colour,
        scale,
    }
}

/// The place at this distance from the middle; angle 0 is to the right.
fn polar(radius: f64, angle: f64) -> Place {
    (radius * angle.cos(), radius * angle.sin())
}

/// A square about the middle, each side in its own colour.
pub fn square(path: &mut Path, half_side: f64, angle: f64) {
    let radius = half_side * SQRT_2;
    let corner = |number: u32| polar(radius, angle + PI / 4.0 + TAU * f64::from(number) / 4.0);
    path.stroke(&[corner(0)], DARK, 0);
    for (number, colour) in (1..).zip([RED, GREEN, BLUE, YELLOW]) {
        path.line(corner(number), colour, 0);
        // A second sample gives the scanners time to reach the corner.
        path.line(corner(number), colour, 0);
    }
}

/// A star of four points about the middle.
pub fn star(path: &mut Path, radius: f64, scale: u8) {
    let near = radius / 4.0;
    let corners = [
        (0.0, radius),
        (near, near),
        (radius, 0.0),
        (near, -near),
        (0.0, -radius),
        (-near, -near),
        (-radius, 0.0),
        (-near, near),
        (0.0, radius),
    ];
    path.stroke(&corners, AMBER, scale);
}

/// One wave of a rose of five petals. The curve passes the middle at the start
/// and the end of each wave, in the same direction, and turns a little with
/// each sample: so the waveform has no gap between waves (003, 5.1).
pub fn rose(wave: u32, count: u32, radius: f64) -> Vec<Sample> {
    let turn = 0.03;
    (0..count)
        .map(|number| {
            let part = f64::from(number) / f64::from(count);
            let waves = f64::from(wave) + part;
            let at = polar(radius * (5.0 * PI * part).sin(), PI * part + turn * waves);
            // The first sample of the waveform is dark and at the origin (3.2).
            let colour = if wave == 0 && number == 0 {
                DARK
            } else {
                hue(part + waves / 24.0)
            };
            sample(at, colour, 0)
        })
        .collect()
}

/// The colour circle: red at 0, green at 1/3, blue at 2/3, red again at 1.
/// One of the three is always at its full value.
fn hue(turn: f64) -> Colour {
    [0.0, 1.0, 2.0].map(|line| {
        let away = (turn - line / 3.0).rem_euclid(1.0);
        let away = away.min(1.0 - away);
        ((2.0 - 6.0 * away).clamp(0.0, 1.0) * 255.0).round() as u8
    })
}
