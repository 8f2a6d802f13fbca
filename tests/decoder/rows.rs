//! Samples to rows: document 01, "One row", check 20 and request C-11.

use crate::dictionary::{
    Layout, Part, Wavelength, COLOURS, INTENSITY, SECOND_Y, SHUTTER, WAVELENGTHS,
};

/// One point: 24 signed 32-bit numbers.
pub type Row = [i32; 24];

/// Document 01, "Chunks": the chunk types that hold samples.
pub const WAVE: u8 = 0x01;
pub const FRAME: u8 = 0x02;

/// The row of a sample, which has as many octets as the layout has parts.
pub fn row(layout: &Layout, sample: &[u8]) -> Row {
    let mut row = [0; 24];
    let mut hint = 0;
    row[SHUTTER] = 1;
    for (part, octet) in layout.parts.iter().zip(sample) {
        match *part {
            Part::First(slot) => row[slot] = first(slot, *octet),
            Part::Precision(slot) => row[slot] += i32::from(*octet),
            Part::Hint(format) => {
                hint = *octet;
                row[SHUTTER] = if format == 1 { i32::from(octet & 1) } else { 1 };
            }
            Part::Ignored => {}
        }
    }
    scale(&mut row, hint);
    for (number, wavelength) in layout.wavelengths.iter().enumerate() {
        if let Wavelength::Fixed(nanometres) = wavelength {
            row[WAVELENGTHS + number] = i32::from(*nanometres) * 64;
        }
    }
    row
}

/// The first octet times 256; it is signed in the coordinates, slots 0 to 4.
fn first(slot: usize, octet: u8) -> i32 {
    if slot <= SECOND_Y {
        i32::from(octet as i8) * 256
    } else {
        i32::from(octet) * 256
    }
}

/// Divides the colours and the intensity by the scales of the hint octet.
/// Bits 0-1 are its two highest bits.
fn scale(row: &mut Row, hint: u8) {
    let colour_scale = u32::from(hint >> 6);
    let intensity_scale = u32::from(hint >> 4 & 3);
    for colour in &mut row[COLOURS..WAVELENGTHS] {
        *colour /= 4i32.pow(colour_scale);
    }
    row[INTENSITY] /= 4i32.pow(intensity_scale);
}

/// A point is lit when a colour slot is not 0.
pub fn lit(row: &Row) -> bool {
    row[COLOURS..WAVELENGTHS].iter().any(|colour| *colour != 0)
}

/// Request C-11: "a frame's first sample only moves the mirrors (003, 5.2).
/// That point now counts among the points but never as lit". A wave has no
/// such sample, so all its points count alike.
pub fn lit_points(kind: u8, rows: &[Row]) -> usize {
    let never_lit = usize::from(kind == FRAME);
    rows.iter().skip(never_lit).filter(|row| lit(row)).count()
}

/// Check 20: the number of samples in a wave or frame.
pub fn points(kind: u8, octets: usize, width: usize) -> Result<usize, u32> {
    let count = octets / width;
    let refused = octets % width != 0 || kind == WAVE && count < 20 || kind == FRAME && count == 1;
    if refused {
        Err(20)
    } else {
        Ok(count)
    }
}
