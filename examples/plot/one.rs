//! One picture: a frame, or waves one after the other.

use crate::page::{self, counted, head, text, HEAD, MARGIN, NOTE};
use crate::refusals;
use crate::run::{Drawing, Kind, Run};
use crate::strokes::{self, Field, Stroke};
use std::fmt::Write;

const SIDE: f64 = 640.0;
const FOOT: f64 = 44.0;

/// A frame of the channel.
pub fn frame(run: &Run, number: usize, frame: &Drawing) -> String {
    let title = format!("Channel {}, frame {number}", run.channel);
    let below = format!(
        "message {}, timestamp {}: {}, {} lit",
        frame.message,
        frame.timestamp,
        counted(frame.points.len(), "point"),
        frame.lit_points
    );
    picture(run, &title, &below, &strokes::of_frame(frame))
}

/// Waves of the channel one after the other: all, or those with timestamps from
/// one to another. Timestamps begin again at 0, so a second one that is below
/// the first lies behind that.
pub fn waves(run: &Run, between: Option<(u32, u32)>) -> String {
    let mut waves = run.of_kind(Kind::Wave);
    if let Some((from, to)) = between {
        waves.retain(|wave| wave.timestamp.wrapping_sub(from) <= to.wrapping_sub(from));
    }
    let strokes = strokes::of_waves(&waves);
    let lit: u32 = waves.iter().map(|wave| wave.lit_points).sum();
    let title = match between {
        Some((from, to)) => format!("Channel {}, waves from {from} to {to}", run.channel),
        None => format!("Channel {}, all waves", run.channel),
    };
    let below = match (waves.first(), waves.last()) {
        (Some(first), Some(last)) => format!(
            "{}, messages {} to {}: {}, {lit} lit",
            counted(waves.len(), "wave"),
            first.message,
            last.message,
            counted(strokes.len(), "point"),
        ),
        _ => "nothing is drawn".to_string(),
    };
    picture(run, &title, &below, &strokes)
}

fn picture(run: &Run, title: &str, below: &str, strokes: &[Stroke]) -> String {
    let mut body = String::new();
    head(&mut body, title, below);
    let field = Field {
        left: MARGIN,
        top: HEAD,
        side: SIDE,
        lit: 2.5,
        dark: 0.8,
    };
    strokes::draw(&mut body, &field, strokes);
    names_of_axes(&mut body);
    legend(&mut body, HEAD + SIDE + 24.0);
    let end = refusals::list_of_channel(&mut body, run, MARGIN * 2.0 + SIDE, HEAD);
    let height = (HEAD + SIDE + FOOT).max(end + MARGIN);
    page::page(refusals::width_with(SIDE), height, &body)
}

/// Which way the axes point.
fn names_of_axes(body: &mut String) {
    let middle = SIDE / 2.0;
    text(
        body,
        "axis",
        MARGIN + SIDE - 26.0,
        HEAD + middle - 6.0,
        NOTE,
        "X +",
    );
    text(
        body,
        "axis",
        MARGIN + middle + 6.0,
        HEAD + 16.0,
        NOTE,
        "Y +",
    );
}

/// What the kinds of strokes mean.
fn legend(body: &mut String, y: f64) {
    let _ = writeln!(
        body,
        concat!(
            r##"<g fill="none" stroke-linecap="round"><path d="M20 {y}h30" stroke="#4c4" stroke-width="2.5"/>"##,
            r##"<path d="M110 {y}h30" stroke="#777" stroke-width="0.8"/>"##,
            r##"<path d="M250 {y}h30" stroke="#4c4" stroke-width="2.5" stroke-dasharray="0 5"/>"##,
            r##"<circle cx="440" cy="{y}" r="4.8" stroke="#fff" stroke-width="1.2"/></g>"##
        ),
        y = y
    );
    for (x, words) in [
        (58.0, "lit"),
        (148.0, "unlit move"),
        (288.0, "lit, shutter closed"),
        (452.0, "first point"),
    ] {
        text(body, "legend", x, y + 4.0, NOTE, words);
    }
}
