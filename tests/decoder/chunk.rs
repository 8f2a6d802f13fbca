//! The data section under a governing configuration: document 01, "Chunks"
//! and checks 17 to 22, and requests C-11 and C-12.

use crate::dictionary::Layout;
use crate::dimmer::{self, Map, PLACES};
use crate::message::{FIRST, FRAME, LEVELS, VOID, WAVE};
use crate::route::{Governing, Tags};
use crate::rows::{lit_points, points, row, Row};

/// The lengths of the slices lent with a message.
#[derive(Clone, Copy, Debug, PartialEq, Eq)]
pub struct Lent {
    pub rows: usize,
    pub levels: usize,
    pub assembly: usize,
}

/// What a data section that passed checks 17 to 22 holds.
#[derive(Clone, Debug, PartialEq, Eq)]
pub enum Content {
    Nothing,
    Points {
        rows: Vec<Row>,
        /// How many of the rows count as lit.
        lit_points: usize,
        duration: u64,
    },
    /// Dimmer levels: the octets and how many of them are written.
    Levels {
        octets: Vec<u8>,
        written: usize,
    },
}

impl Content {
    pub fn points(&self) -> usize {
        match self {
            Content::Points { rows, .. } => rows.len(),
            _ => 0,
        }
    }

    pub fn lit_points(&self) -> usize {
        match self {
            Content::Points { lit_points, .. } => *lit_points,
            _ => 0,
        }
    }

    pub fn written(&self) -> usize {
        match self {
            Content::Levels { written, .. } => *written,
            _ => 0,
        }
    }

    /// "An accepted wave or frame in mode 1 or 2 adds its Duration to the
    /// first if one of its points is lit, its points to the second, its lit
    /// points to the third"; request C-11: "a frame lit only there adds no
    /// Duration".
    pub fn adds(&self) -> [u64; 3] {
        let lit_points = self.lit_points() as u64;
        let duration = match self {
            Content::Points { duration, .. } if lit_points > 0 => *duration,
            _ => 0,
        };
        [duration, self.points() as u64, lit_points]
    }
}

/// Checks 17 to 22 of a chunk that is whole. Check 15 of a routing stands
/// between 19 and 20 (request C-13) and is not among these.
pub fn read(governing: &Governing, kind: u8, data: &[u8], lent: Lent) -> Result<Content, u32> {
    begin(governing, kind, data)?;
    whole(governing, kind, data, lent)
}

/// Checks 17 to 19, which a first fragment goes through like a chunk that is
/// whole: "The first message carries the chunk header [...]; checks 17 to 19
/// run on it."
pub fn begin(governing: &Governing, kind: u8, data: &[u8]) -> Result<(), u32> {
    // "Mode 0 skips 8 to 14 and 17 to 22".
    if governing.mode == 0 {
        return Ok(());
    }
    // "The type does not go with the mode; 0x00 goes with all."
    if !type_goes(kind, governing.mode) {
        return Err(17);
    }
    // "A Void chunk has data, or another has under 4 octets".
    if kind == VOID {
        return if data.is_empty() { Ok(()) } else { Err(18) };
    }
    if data.len() < 4 {
        return Err(18);
    }
    // "SCM differs from SDM"; "flags octet (bits 2-3 are SCM, the rest
    // ignored)".
    if data[0] >> 4 & 3 != governing.sdm {
        return Err(19);
    }
    Ok(())
}

/// Checks 20 to 22 of a chunk that is whole and passed 17 to 19, or of a frame
/// whose first fragment did.
pub fn whole(governing: &Governing, kind: u8, data: &[u8], lent: Lent) -> Result<Content, u32> {
    // "a Void chunk that passes 18 skips 19 to 22".
    if kind == VOID {
        return Ok(Content::Nothing);
    }
    match &governing.tags {
        Tags::Graphic(layout) => {
            let (header, body) = data.split_at(4);
            samples(layout, kind, header, body, lent)
        }
        Tags::Dimmer(map) => levels(map, governing.mode, &data[4..], lent),
        Tags::Ignored => Ok(Content::Nothing),
    }
}

/// Document 01, "Chunks": the modes of each type. Request C-12: both types of
/// fragments "go with mode 2"; check 17 passes the sequels by.
fn type_goes(kind: u8, mode: u8) -> bool {
    match kind {
        WAVE => mode == 1,
        FRAME | FIRST => mode == 2,
        LEVELS => mode == 4 || mode == 6,
        _ => kind == VOID,
    }
}

/// Checks 20 and 22 of a wave or frame.
fn samples(
    layout: &Layout,
    kind: u8,
    header: &[u8],
    samples: &[u8],
    lent: Lent,
) -> Result<Content, u32> {
    let count = points(kind, samples.len(), layout.width())?;
    // "For a wave or frame, rows hold under points × 24 numbers".
    if lent.rows < count * 24 {
        return Err(22);
    }
    // "24-bit Duration in microseconds".
    let duration = u32::from_be_bytes([0, header[1], header[2], header[3]]);
    let rows: Vec<Row> = samples
        .chunks_exact(layout.width())
        .map(|sample| row(layout, sample))
        .collect();
    Ok(Content::Points {
        lit_points: lit_points(kind, &rows),
        rows,
        duration: u64::from(duration),
    })
}

/// Checks 21 and 22 of dimmer levels.
fn levels(map: &Map, mode: u8, octets: &[u8], lent: Lent) -> Result<Content, u32> {
    let written = dimmer::place(map, u32::from(mode), octets, &mut [0; PLACES])?;
    // "for dimmer levels, the levels slice is under 1,024 octets".
    if lent.levels < PLACES {
        return Err(22);
    }
    Ok(Content::Levels {
        octets: octets.to_vec(),
        written,
    })
}
