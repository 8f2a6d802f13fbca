//! The chart of the meters and of the refusals of all channels.

use crate::refused::{groups, Group};
use crate::tally::same;
use crate::told::Told;
use crate::xml::Element;

/// A path of steps: where it begins, its steps, and where it ends.
struct Steps {
    begin: [f64; 2],
    /// For each step how far right it is, and how far down it goes on.
    steps: Vec<[f64; 2]>,
    /// The right edge.
    end: f64,
}

/// Where messages stand: the first of `messages` begins at the left, and the
/// last ends at the right.
#[derive(Clone, Copy)]
struct Across {
    left: f64,
    right: f64,
    messages: usize,
}

impl Across {
    /// The end of a message, counted from 1.
    fn end_of(&self, message: usize) -> f64 {
        let share = message as f64 / self.messages.max(1) as f64;
        self.left + share * (self.right - self.left)
    }
}

/// Coordinates have few digits, so they may differ by so much.
const NEAR: f64 = 0.03;

fn near(a: f64, b: f64) -> bool {
    (a - b).abs() <= NEAR
}

fn number(text: &str) -> Result<f64, String> {
    text.parse().map_err(|_| format!("{text:?} is no number"))
}

/// Reads "Mx y", pairs of "Hx" and "Vy", and an "Hx" at the end.
fn steps(path: &str) -> Result<Steps, String> {
    let wrong = || format!("a path {:?}", path.get(..40).unwrap_or(path));
    let (begin, rest) = path.split_once('H').ok_or_else(wrong)?;
    let begin = begin.strip_prefix('M').ok_or_else(wrong)?;
    let (x, y) = begin.split_once(' ').ok_or_else(wrong)?;
    let mut pairs: Vec<&str> = rest.split('H').collect();
    // Nothing but the way to the right edge follows the last step.
    let end = number(pairs.pop().ok_or_else(wrong)?)?;
    let step = |pair: &str| {
        let (x, y) = pair.split_once('V').ok_or_else(wrong)?;
        Ok([number(x)?, number(y)?])
    };
    Ok(Steps {
        begin: [number(x)?, number(y)?],
        steps: pairs.into_iter().map(step).collect::<Result<_, String>>()?,
        end,
    })
}

/// The messages that changed a meter, from 1, with its reading after each.
fn changes(told: &Told, meter: usize) -> Vec<(usize, u64)> {
    let mut before = 0;
    let mut changes = Vec::new();
    for (place, message) in told.messages.iter().enumerate() {
        let reading = message.readings[meter];
        if reading != before {
            changes.push((place + 1, reading));
        }
        before = reading;
    }
    changes
}

/// Each change has its step, at the end of its message, as high as its reading
/// is beside the last one. Gives where the messages stand.
fn check_path(path: &str, changes: &[(usize, u64)], messages: usize) -> Result<Across, String> {
    let Steps { begin, steps, end } = steps(path)?;
    let across = Across {
        left: begin[0],
        right: end,
        messages,
    };
    same("steps:", &changes.len(), &steps.len())?;
    let (Some(last), Some((_, top))) = (steps.last(), changes.last()) else {
        return Ok(across);
    };
    let height = begin[1] - last[1];
    if end <= begin[0] || height <= 0.0 {
        return Err("the last step is not above the beginning".into());
    }
    for ([x, y], (message, reading)) in steps.iter().zip(changes) {
        let right = across.end_of(*message);
        let down = begin[1] - height * (*reading as f64 / *top as f64);
        if !near(*x, right) || !near(*y, down) {
            return Err(format!(
                "the step of message {message} to {reading} is at {x} {y}, not {right} {down}"
            ));
        }
    }
    Ok(across)
}

fn texts<'a>(elements: &'a [Element], class: &str) -> Vec<&'a str> {
    let found = elements.iter().filter(|element| element.is("text", class));
    found.map(|element| element.text.as_str()).collect()
}

fn coordinate(element: &Element, name: &str) -> Result<f64, String> {
    number(element.get(name).unwrap_or(""))
}

/// The marks of refusals: those of one height are a lane. The lanes from the
/// top have the numbers from the lowest.
fn check_marks(
    groups: &[Group],
    channel: u8,
    across: Across,
    elements: &[Element],
) -> Result<(), String> {
    let mut numbers: Vec<u32> = groups.iter().map(|group| group.number).collect();
    numbers.sort();
    numbers.dedup();
    let names: Vec<String> = numbers.iter().map(u32::to_string).collect();
    let names: Vec<&str> = names.iter().map(String::as_str).collect();
    same("lanes:", &names, &texts(elements, "lane"))?;
    let marks: Vec<&Element> = elements
        .iter()
        .filter(|element| element.is("rect", "refusal"))
        .collect();
    same("marks:", &groups.len(), &marks.len())?;
    let mut lanes: Vec<f64> = Vec::new();
    for mark in &marks {
        lanes.push(coordinate(mark, "y")?);
    }
    lanes.sort_by(f64::total_cmp);
    lanes.dedup();
    same("heights of marks:", &numbers.len(), &lanes.len())?;
    for (number, height) in numbers.iter().zip(lanes) {
        let of_lane = |mark: &&&Element| coordinate(mark, "y") == Ok(height);
        let marks: Vec<&Element> = marks.iter().filter(of_lane).copied().collect();
        let groups = groups.iter().filter(|group| group.number == *number);
        check_lane(&groups.collect::<Vec<_>>(), channel, across, &marks)?;
    }
    Ok(())
}

/// One lane: the groups of other channels in order and then, above them, those
/// of the channel itself, each over its messages.
fn check_lane(
    groups: &[&Group],
    channel: u8,
    across: Across,
    marks: &[&Element],
) -> Result<(), String> {
    same("marks of a lane:", &groups.len(), &marks.len())?;
    let mut groups = groups.to_vec();
    // The sort keeps the order within both.
    groups.sort_by_key(|group| group.channel == channel);
    for (group, mark) in groups.iter().zip(marks) {
        let own = group.channel == channel;
        let fill = if own { "#ff5050" } else { "#8a8a92" };
        same("fill of a mark:", &Some(fill), &mark.get("fill"))?;
        let left = across.end_of(group.first - 1);
        // A mark is at least so wide, or one of many messages would not be seen.
        let width = (across.end_of(group.last) - left).max(1.5);
        if !near(coordinate(mark, "x")?, left) || !near(coordinate(mark, "width")?, width) {
            return Err(format!("the mark of {group:?} is not over its messages"));
        }
    }
    Ok(())
}

/// The chart of a stream.
pub fn check(told: &Told, channel: u8, elements: &[Element]) -> Result<(), String> {
    let [lit_time, points, lit_points] = told.last_readings();
    let expected = [
        format!("lit time {lit_time} \u{B5}s"),
        format!("points {points}"),
        format!("lit points {lit_points}"),
    ];
    let expected: Vec<&str> = expected.iter().map(String::as_str).collect();
    same("meters:", &expected, &texts(elements, "meter"))?;
    let paths: Vec<&str> = elements
        .iter()
        .filter(|element| element.is("path", "reading"))
        .filter_map(|element| element.get("d"))
        .collect();
    same("paths:", &3, &paths.len())?;
    for (meter, path) in paths.iter().enumerate() {
        let across = check_path(path, &changes(told, meter), told.messages.len())
            .map_err(|fault| format!("meter {meter}: {fault}"))?;
        check_marks(&groups(told), channel, across, elements)?;
    }
    Ok(())
}
