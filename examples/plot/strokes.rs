//! Points as strokes: one to each point, from the point before it, in the
//! point's own colour (003, 5.2: samples have the "draw attributes of the
//! segments").

use crate::colour::Beam;
use crate::run::{Drawing, Point};
use std::fmt::Write;

/// The coordinates of a field are octets with precision, -32768 to 32767.
const SIDE: f64 = 65_535.0;

/// A place in the field: x to the right and y down, both from 0, as SVG has
/// them. 003, 3.4.7: X "SHALL deflect to the right", Y "to the top".
fn place(point: &Point) -> (i32, i32) {
    (point.x + 32_768, 32_767 - point.y)
}

/// Where a field stands on the page, and the widths of its strokes there.
pub struct Field {
    pub left: f64,
    pub top: f64,
    pub side: f64,
    pub lit: f64,
    pub dark: f64,
}

/// From where to where the beam goes; the colours are those of the second.
pub type Stroke<'a> = (&'a Point, &'a Point);

/// A frame as it is drawn over and over: a hidden move leads from its last point
/// back to the first (003, 5.2).
pub fn of_frame(frame: &Drawing) -> Vec<Stroke<'_>> {
    from(frame.points.last(), frame)
}

/// Waves one after the other. One that follows the wave before it goes on where
/// that ends; any other begins where it is, since what the beam did in between
/// is not in the stream.
pub fn of_waves<'a>(waves: &[&'a Drawing]) -> Vec<Stroke<'a>> {
    let mut strokes = Vec::new();
    let mut before: Option<&Drawing> = None;
    for wave in waves {
        let start = match before {
            Some(before) if wave.follows(before) => before.points.last(),
            _ => wave.points.first(),
        };
        strokes.extend(from(start, wave));
        before = Some(wave);
    }
    strokes
}

fn from<'a>(start: Option<&'a Point>, drawing: &'a Drawing) -> Vec<Stroke<'a>> {
    let before = start.into_iter().chain(&drawing.points);
    before.zip(&drawing.points).collect()
}

/// Draws strokes as a laser does, and marks the first point.
pub fn draw(page: &mut String, field: &Field, strokes: &[Stroke]) {
    let Field {
        left, top, side, ..
    } = *field;
    let scale = side / SIDE;
    let _ = writeln!(
        page,
        r##"<rect x="{left}" y="{top}" width="{side}" height="{side}" fill="#000" stroke="#444"/>"##
    );
    let _ = writeln!(
        page,
        r##"<g class="field" transform="translate({left} {top}) scale({scale:.7})" stroke-linecap="round" fill="none">"##
    );
    axes(page, field.dark / scale);
    // Unlit moves lie below what is lit, whichever came first.
    let _ = writeln!(
        page,
        r##"<g stroke="#777" stroke-width="{:.0}">"##,
        field.dark / scale
    );
    for (from, to) in strokes.iter().filter(|(_, to)| to.beam == Beam::Dark) {
        stroke(page, "dark", from, to, "");
    }
    let _ = writeln!(page, r#"</g><g stroke-width="{:.0}">"#, field.lit / scale);
    for (from, to) in strokes {
        match to.beam {
            Beam::Dark => {}
            Beam::Lit(colour) => stroke(page, "lit", from, to, &format!(r#" stroke="{colour}""#)),
            Beam::Closed(colour) => {
                let dash = field.lit / scale * 2.0;
                let how = format!(r#" stroke="{colour}" stroke-dasharray="0 {dash:.0}""#);
                stroke(page, "closed", from, to, &how);
            }
        }
    }
    page.push_str("</g>");
    if let Some((_, first)) = strokes.first() {
        mark(page, first, field.dark / scale);
    }
    page.push_str("</g>\n");
}

fn stroke(page: &mut String, class: &str, from: &Point, to: &Point, how: &str) {
    let ((x1, y1), (x2, y2)) = (place(from), place(to));
    let _ = writeln!(
        page,
        r#"<line class="{class}" x1="{x1}" y1="{y1}" x2="{x2}" y2="{y2}"{how}/>"#
    );
}

/// A ring around the first point.
fn mark(page: &mut String, first: &Point, width: f64) {
    let (x, y) = place(first);
    let radius = width * 6.0;
    let _ = write!(
        page,
        r##"<circle class="first" cx="{x}" cy="{y}" r="{radius:.0}" stroke="#fff" stroke-width="{:.0}"/>"##,
        width * 1.5
    );
}

/// The lines X = 0 and Y = 0.
fn axes(page: &mut String, width: f64) {
    let _ = writeln!(
        page,
        r##"<path d="M0 32767H65535M32768 0V65535" stroke="#2a2a2a" stroke-width="{width:.0}"/>"##
    );
}
