//! The three meters and the refusals over the messages of a stream.

use crate::page::{self, counted, head, text, HEAD, MARGIN, NOTE};
use crate::refusals::{self, Group};
use crate::run::Run;
use std::collections::BTreeSet;
use std::fmt::Write;

const WIDTH: f64 = 760.0;
const PANEL: f64 = 110.0;
const BETWEEN: f64 = 34.0;
const LANE: f64 = 18.0;

/// Room on the left for the numbers of the lanes.
const LABELS: f64 = 40.0;

const METERS: [(&str, &str, &str); 3] = [
    ("lit time", "µs", "#ffb000"),
    ("points", "", "#64b5f6"),
    ("lit points", "", "#81c784"),
];

/// Refusals on the channel of the picture, and on the others.
const OWN: &str = "#ff5050";
const OTHER: &str = "#8a8a92";

pub fn draw(run: &Run) -> String {
    let mut body = String::new();
    let title = format!(
        "Meters and refusals over {}",
        counted(run.messages(), "message")
    );
    let below = format!(
        "refused: on channel {} red, on other channels grey",
        run.channel
    );
    head(&mut body, &title, &below);
    let mut top = HEAD + 20.0;
    for (meter, look) in METERS.iter().enumerate() {
        panel(&mut body, run, meter, *look, top);
        top += PANEL + BETWEEN;
    }
    let end = lanes(&mut body, run, top);
    let axis = axis(&mut body, run, end);
    let list = refusals::list_of_all(&mut body, run, MARGIN * 2.0 + LABELS + WIDTH, HEAD);
    let height = (axis + MARGIN).max(list + MARGIN);
    page::page(refusals::width_with(LABELS + WIDTH), height, &body)
}

/// Where a message stands from left to right; message N has the room from N - 1
/// to N.
fn across(run: &Run, messages: usize) -> f64 {
    let all = run.messages().max(1) as f64;
    MARGIN + LABELS + messages as f64 / all * WIDTH
}

/// One meter as steps from 0 to its last reading.
fn panel(
    body: &mut String,
    run: &Run,
    meter: usize,
    (name, unit, look): (&str, &str, &str),
    top: f64,
) {
    let last = run.readings[run.messages()][meter];
    text(
        body,
        "meter",
        MARGIN + LABELS,
        top - 6.0,
        NOTE,
        format!("{name} {last} {unit}").trim_end(),
    );
    let (left, floor) = (MARGIN + LABELS, top + PANEL);
    let _ = writeln!(
        body,
        r##"<path d="M{left} {top}V{floor}H{}" stroke="#555" fill="none"/>"##,
        left + WIDTH
    );
    let height = |reading: u64| floor - reading as f64 / last.max(1) as f64 * PANEL;
    let mut steps = format!("M{left} {floor}");
    let mut before = run.readings[0][meter];
    for at in 1..=run.messages() {
        let reading = run.readings[at][meter];
        if reading != before {
            let _ = write!(steps, "H{:.2}V{:.2}", across(run, at), height(reading));
            before = reading;
        }
    }
    let _ = writeln!(
        body,
        r#"<path class="reading" d="{steps}H{:.2}" stroke="{look}" stroke-width="1.6" fill="none"/>"#,
        left + WIDTH
    );
}

/// A lane for each number that occurs, with a bar for each group of refused
/// messages. Gives the height below the last.
fn lanes(body: &mut String, run: &Run, top: f64) -> f64 {
    let groups = refusals::groups(run.refusals.iter());
    let numbers: BTreeSet<u8> = groups.iter().map(|group| group.number).collect();
    let words = if numbers.is_empty() {
        "no message was refused"
    } else {
        "refused by number"
    };
    text(body, "lanes", MARGIN + LABELS, top - 6.0, NOTE, words);
    for (lane, number) in numbers.iter().enumerate() {
        let y = top + lane as f64 * LANE;
        text(
            body,
            "lane",
            MARGIN + 14.0,
            y + LANE - 5.0,
            NOTE,
            &number.to_string(),
        );
        let _ = writeln!(
            body,
            r##"<rect x="{}" y="{}" width="{WIDTH}" height="{}" fill="#222228"/>"##,
            MARGIN + LABELS,
            y + 1.0,
            LANE - 2.0
        );
        // Marks of the channel itself lie above: they must not be hidden.
        for own in [false, true] {
            let marks = groups.iter().filter(|group| group.number == *number);
            for group in marks.filter(|group| (group.channel == run.channel) == own) {
                bar(body, run, group, y);
            }
        }
    }
    top + numbers.len() as f64 * LANE
}

/// At least a line wide, so that one of many messages is seen.
fn bar(body: &mut String, run: &Run, group: &Group, y: f64) {
    let left = across(run, group.first - 1);
    let width = (across(run, group.last) - left).max(1.5);
    let look = if group.channel == run.channel {
        OWN
    } else {
        OTHER
    };
    let _ = writeln!(
        body,
        r#"<rect class="refusal" x="{left:.2}" y="{}" width="{width:.2}" height="{}" fill="{look}"/>"#,
        y + 2.0,
        LANE - 4.0
    );
}

/// The numbers of the messages at the ends and between. Gives the height below.
fn axis(body: &mut String, run: &Run, top: f64) -> f64 {
    for part in 0..=4 {
        let messages = run.messages() * part / 4;
        let x = across(run, messages);
        text(
            body,
            "axis",
            x - 8.0,
            top + 16.0,
            NOTE,
            &messages.to_string(),
        );
    }
    text(
        body,
        "axis",
        MARGIN + LABELS,
        top + 32.0,
        NOTE,
        "messages of the stream",
    );
    top + 40.0
}
