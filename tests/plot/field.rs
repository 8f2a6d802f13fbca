//! The lines of a field: those that the points of the other decoder ask for,
//! and those of a picture.

use crate::told::{Drawing, Kind, Told};
use crate::xml::Element;
use decoder::dictionary::{COLOURS, SHUTTER, WAVELENGTHS, X, Y};
use decoder::rows::{lit, Row};

/// A place in a field: X to the right and Y up, 0 0 at the corner.
pub type Place = [i32; 2];

#[derive(Clone, Copy, Debug, PartialEq, Eq)]
pub enum Class {
    Lit,
    Closed,
    Dark,
}

/// Whether colours are visually linear, and the levels that are not 0 with
/// their wavelengths.
pub type Light = (bool, Vec<(i32, i32)>);

#[derive(Clone, Debug, PartialEq, Eq)]
pub struct Line {
    pub class: Class,
    pub from: Place,
    pub to: Place,
}

#[derive(Clone, Debug, Default, PartialEq, Eq)]
pub struct Field {
    pub lines: Vec<Line>,
    /// The ring around the first point.
    pub first: Vec<Place>,
}

/// An expected field, and the light of each line.
#[derive(Clone, Default)]
pub struct Expected {
    pub field: Field,
    pub light: Vec<Light>,
}

fn place(row: &Row) -> Place {
    [row[X] + 32_768, 32_767 - row[Y]]
}

fn light(row: &Row, visual: bool) -> Light {
    let levels = row[COLOURS..WAVELENGTHS].iter().zip(&row[WAVELENGTHS..]);
    let not_0 = levels.filter(|(level, _)| **level != 0);
    (visual, not_0.map(|(level, wave)| (*level, *wave)).collect())
}

fn class(row: &Row) -> Class {
    match (lit(row), row[SHUTTER]) {
        (false, _) => Class::Dark,
        (true, 0) => Class::Closed,
        (true, _) => Class::Lit,
    }
}

/// The lines of a frame or wave, the first of them from a place.
fn lines(drawing: &Drawing, mut from: Place) -> Vec<(Line, Light)> {
    let mut lines = Vec::new();
    for (number, row) in drawing.rows.iter().enumerate() {
        // The mirrors go to a frame's first point unlit, whatever the first
        // sample says (003, 5.2).
        let moves = drawing.kind == Kind::Frame && number == 0;
        let class = if moves { Class::Dark } else { class(row) };
        let to = place(row);
        lines.push((Line { class, from, to }, light(row, drawing.visual)));
        from = to;
    }
    lines
}

impl Expected {
    /// One frame, or waves. A frame is come to from its own last point; a wave
    /// from the end of the one that it follows, or else from where it begins.
    fn together(drawings: &[&Drawing]) -> Expected {
        let last = |one: &Drawing| place(&one.rows[one.rows.len() - 1]);
        let mut all = Vec::new();
        let mut before: Option<&Drawing> = None;
        for drawing in drawings {
            let from = match (drawing.kind, before) {
                (Kind::Frame, _) => last(drawing),
                (Kind::Wave, Some(before)) if drawing.follows(before) => last(before),
                (Kind::Wave, _) => place(&drawing.rows[0]),
            };
            all.extend(lines(drawing, from));
            before = Some(drawing);
        }
        // The dark ones lie below. The sort keeps the order within both.
        all.sort_by_key(|(line, _)| line.class != Class::Dark);
        let (lines, light) = all.into_iter().unzip();
        let first = drawings.iter().take(1).map(|one| place(&one.rows[0]));
        Expected {
            field: Field {
                lines,
                first: first.collect(),
            },
            light,
        }
    }
}

/// The picture of frame `number`; none where there is no such frame.
pub fn frame(told: &Told, channel: u8, number: usize) -> Option<Expected> {
    let drawings = told.drawings(channel);
    let mut frames = drawings.iter().filter(|one| one.kind == Kind::Frame);
    let frame = frames.nth(number.checked_sub(1)?)?;
    Some(Expected::together(&[frame]))
}

/// All waves from one timestamp to another, modulo 2 to the power 32.
pub fn waves(told: &Told, channel: u8, from: u32, to: u32) -> Expected {
    let drawings = told.drawings(channel);
    let within = |one: &&Drawing| one.timestamp.wrapping_sub(from) <= to.wrapping_sub(from);
    let waves = drawings.iter().filter(|one| one.kind == Kind::Wave);
    Expected::together(&waves.filter(within).collect::<Vec<_>>())
}

/// The first frame, or all waves.
pub fn either(told: &Told, channel: u8) -> Expected {
    frame(told, channel, 1).unwrap_or_else(|| waves(told, channel, 0, u32::MAX))
}

/// A field for each frame, and for the waves of one 25th of a second; of some
/// messages those that begin there.
pub fn sheet_of(told: &Told, channel: u8, from: usize, to: usize) -> Vec<Expected> {
    let drawings = told.drawings(channel);
    let mut cells: Vec<Vec<&Drawing>> = Vec::new();
    for drawing in &drawings {
        let joins = |cell: &&mut Vec<&Drawing>| {
            let since = drawing.timestamp.wrapping_sub(cell[0].timestamp);
            drawing.kind == Kind::Wave && cell[0].kind == Kind::Wave && since < 40_000
        };
        match cells.last_mut().filter(joins) {
            Some(cell) => cell.push(drawing),
            None => cells.push(vec![drawing]),
        }
    }
    cells.retain(|cell| from <= cell[0].message && cell[0].message <= to);
    cells.iter().map(|cell| Expected::together(cell)).collect()
}

pub fn sheet(told: &Told, channel: u8) -> Vec<Expected> {
    sheet_of(told, channel, 1, usize::MAX)
}

/// A field of a picture, and the stroke of each line.
pub struct Given {
    pub field: Field,
    pub strokes: Vec<Option<String>>,
}

fn number(element: &Element, name: &str) -> Result<i32, String> {
    let value = element.get(name).and_then(|value| value.parse().ok());
    value.ok_or(format!("a {} without a whole number {name}", element.name))
}

fn line(element: &Element) -> Result<Line, String> {
    let class = match element.get("class") {
        Some("lit") => Class::Lit,
        Some("closed") => Class::Closed,
        Some("dark") => Class::Dark,
        other => return Err(format!("a line of class {other:?}")),
    };
    Ok(Line {
        class,
        from: [number(element, "x1")?, number(element, "y1")?],
        to: [number(element, "x2")?, number(element, "y2")?],
    })
}

/// The fields of a picture in order. A line or ring outside of all is a fault.
pub fn read(elements: &[Element]) -> Result<Vec<Given>, String> {
    let mut fields: Vec<Given> = Vec::new();
    // The number of the field that each element is in.
    let mut within: Vec<Option<usize>> = Vec::new();
    for element in elements {
        let around = element.parent.and_then(|parent| *within.get(parent)?);
        if element.is("g", "field") {
            if around.is_some() {
                return Err("a field in a field".into());
            }
            within.push(Some(fields.len()));
            fields.push(Given {
                field: Field::default(),
                strokes: Vec::new(),
            });
            continue;
        }
        within.push(around);
        let ring = element.is("circle", "first");
        if element.name != "line" && !ring {
            continue;
        }
        let place = around.ok_or(format!("a {} outside of the fields", element.name))?;
        let given = &mut fields[place];
        if ring {
            let centre = [number(element, "cx")?, number(element, "cy")?];
            given.field.first.push(centre);
        } else {
            given.field.lines.push(line(element)?);
            given.strokes.push(element.get("stroke").map(String::from));
        }
    }
    Ok(fields)
}
