//! Every frame of a channel small on one page, and its waves in parts that the
//! eye takes for one picture.

use crate::page::{self, counted, head, text, HEAD, MARGIN, NOTE};
use crate::refusals;
use crate::run::{Drawing, Kind, Run};
use crate::strokes::{self, Field};

const ROW: usize = 8;
const CELL: f64 = 130.0;
const BETWEEN: f64 = 8.0;
const CAPTION: f64 = 18.0;

/// Waves of a 25th of a second are drawn together.
const GLANCE: u32 = 40_000;

/// A frame, or waves in a row.
struct Cell<'a> {
    drawings: Vec<&'a Drawing>,
    caption: String,
}

/// The sheet of the whole stream, or of the messages from one to another.
pub fn draw(run: &Run, between: Option<(usize, usize)>) -> String {
    let mut cells = cells(&run.drawings);
    let frames = run.of_kind(Kind::Frame).len();
    let waves = run.drawings.len() - frames;
    let mut below = format!("{}, {}", counted(frames, "frame"), counted(waves, "wave"));
    if let Some((from, to)) = between {
        cells.retain(|cell| (from..=to).contains(&cell.drawings[0].message));
        below += &format!("; drawn from message {from} to {to}");
    }
    let mut body = String::new();
    head(&mut body, &format!("Channel {}", run.channel), &below);
    for (at, cell) in cells.iter().enumerate() {
        draw_cell(&mut body, cell, at);
    }
    let width = ROW as f64 * (CELL + BETWEEN) - BETWEEN;
    let rows = cells.len().div_ceil(ROW) as f64;
    let end = refusals::list_of_channel(&mut body, run, MARGIN * 2.0 + width, HEAD);
    let height = (HEAD + rows * (CELL + CAPTION + BETWEEN)).max(end) + MARGIN;
    page::page(refusals::width_with(width), height, &body)
}

/// A frame's caption is its number for `--frame`; that of waves has the
/// timestamps for `--waves`.
fn cells(drawings: &[Drawing]) -> Vec<Cell<'_>> {
    let mut cells: Vec<Cell> = Vec::new();
    let mut frames = 0;
    for drawing in drawings {
        if drawing.kind == Kind::Frame {
            frames += 1;
            cells.push(Cell {
                drawings: vec![drawing],
                caption: format!("frame {frames}"),
            });
            continue;
        }
        match cells.last_mut() {
            Some(cell) if goes_on(cell.drawings[0], drawing) => {
                let first = cell.drawings[0].timestamp;
                cell.caption = format!("{first} to {}", drawing.timestamp);
                cell.drawings.push(drawing);
            }
            _ => cells.push(Cell {
                drawings: vec![drawing],
                caption: format!("{0} to {0}", drawing.timestamp),
            }),
        }
    }
    cells
}

/// Whether a wave belongs to the cell that another began.
fn goes_on(first: &Drawing, wave: &Drawing) -> bool {
    first.kind == Kind::Wave && wave.timestamp.wrapping_sub(first.timestamp) < GLANCE
}

fn draw_cell(body: &mut String, cell: &Cell, at: usize) {
    let left = MARGIN + (at % ROW) as f64 * (CELL + BETWEEN);
    let top = HEAD + (at / ROW) as f64 * (CELL + CAPTION + BETWEEN);
    let field = Field {
        left,
        top,
        side: CELL,
        lit: 1.2,
        dark: 0.4,
    };
    let strokes = match cell.drawings[0].kind {
        Kind::Frame => strokes::of_frame(cell.drawings[0]),
        Kind::Wave => strokes::of_waves(&cell.drawings),
    };
    strokes::draw(body, &field, &strokes);
    text(
        body,
        "caption",
        left,
        top + CELL + 13.0,
        NOTE,
        &cell.caption,
    );
}
