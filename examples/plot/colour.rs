//! The colour of a point on a screen, from the wavelengths and levels of its
//! row.
//!
//! Each colour line gets the hue that the eye sees at its wavelength (CIE 1931,
//! by the sums of Gaussian curves that Wyman, Sloan and Shirley fitted to it in
//! 2013), as near as a screen with sRGB colours shows it, and is as bright as
//! the screen gets at its full level. The lines of a point are added as light
//! is. How strong the lines of a projector are beside each other is not in a
//! stream: 638, 532 and 460 nm at full level are white here. Half a level is
//! half the light, or where the space modifier says so (CLIN, 003, 3.4.4) half
//! the brightness.

/// Red, green and blue as light, 0 to 1.
type Light = [f64; 3];

/// A colour of the screen.
#[derive(Clone, Copy, Debug, PartialEq)]
pub struct Colour(pub [u8; 3]);

/// What the beam does on the way to a point.
#[derive(Clone, Copy, Debug, PartialEq)]
pub enum Beam {
    /// Every colour is 0.
    Dark,
    Lit(Colour),
    /// A colour is not 0 but the shutter is closed: the point is metered as lit,
    /// and no light leaves the projector (003, 3.4.6).
    Closed(Colour),
}

/// The most that a colour of one octet can be.
const FULL: f64 = 65_280.0;

/// Wavelengths are in 1/64 nm.
const STEPS: f64 = 64.0;

/// Lines beyond these, which the eye hardly sees, are drawn as these, so that a
/// lit point is not drawn black.
const VISIBLE: (f64, f64) = (410.0, 690.0);

/// The least light of a lit point's greatest part, so that it is seen on black:
/// its code is 48 of 255.
const LEAST: f64 = 0.0296;

/// Whether a space modifier says that colours are visually linear: CLIN, the
/// second pair of bits of 11pp, is binary 10.
pub fn is_visual(space: u16) -> bool {
    space >> 4 & 3 == 2
}

/// The beam of a point with these levels and wavelengths. Intensity plays no
/// part: 003, 3.4.9 keeps it for legacy systems.
pub fn beam<'a>(lines: impl Iterator<Item = (&'a i32, &'a i32)>, open: bool, visual: bool) -> Beam {
    let mut sum = [0.0; 3];
    let mut lit = false;
    for (&level, &wavelength) in lines {
        if level == 0 {
            continue;
        }
        lit = true;
        let mut share = (f64::from(level) / FULL).min(1.0);
        if visual {
            share = decoded(share);
        }
        for (whole, part) in sum.iter_mut().zip(line(f64::from(wavelength) / STEPS)) {
            *whole += share * part;
        }
    }
    let most = sum.iter().fold(0.0, |most: f64, part| most.max(*part));
    if lit && most < LEAST {
        sum = sum.map(|part| part * LEAST / most);
    }
    let colour = Colour(sum.map(coded));
    match (lit, open) {
        (false, _) => Beam::Dark,
        (true, true) => Beam::Lit(colour),
        (true, false) => Beam::Closed(colour),
    }
}

/// A colour line at full level: its greatest part is 1.
fn line(nanometres: f64) -> Light {
    let w = nanometres.clamp(VISIBLE.0, VISIBLE.1);
    let x = 1.056 * bell(w, 599.8, 37.9, 31.0) + 0.362 * bell(w, 442.0, 16.0, 26.7)
        - 0.065 * bell(w, 501.1, 20.4, 26.2);
    let y = 0.821 * bell(w, 568.8, 46.9, 40.5) + 0.286 * bell(w, 530.9, 16.3, 31.1);
    let z = 1.217 * bell(w, 437.0, 11.8, 36.0) + 0.681 * bell(w, 459.0, 26.0, 13.8);
    let light = [
        3.2406 * x - 1.5372 * y - 0.4986 * z,
        -0.9689 * x + 1.8758 * y + 0.0415 * z,
        0.0557 * x - 0.2040 * y + 1.0570 * z,
    ];
    // No screen shows the colour of one line: what would be below 0 is left out.
    let light = light.map(|part| part.max(0.0));
    let most = light.iter().fold(0.0, |most: f64, part| most.max(*part));
    light.map(|part| part / most)
}

/// A bell with its top at a wavelength, and another width on each side.
fn bell(wavelength: f64, top: f64, below: f64, above: f64) -> f64 {
    let width = if wavelength < top { below } else { above };
    let away = (wavelength - top) / width;
    (-0.5 * away * away).exp()
}

/// Light as sRGB codes it in an octet.
fn coded(light: f64) -> u8 {
    let light = light.clamp(0.0, 1.0);
    let code = if light <= 0.003_130_8 {
        12.92 * light
    } else {
        1.055 * light.powf(1.0 / 2.4) - 0.055
    };
    (code * 255.0).round() as u8
}

/// The light of an sRGB code from 0 to 1.
fn decoded(code: f64) -> f64 {
    if code <= 0.040_45 {
        code / 12.92
    } else {
        ((code + 0.055) / 1.055).powf(2.4)
    }
}

impl std::fmt::Display for Colour {
    fn fmt(&self, out: &mut std::fmt::Formatter) -> std::fmt::Result {
        let Colour([red, green, blue]) = self;
        write!(out, "#{red:02x}{green:02x}{blue:02x}")
    }
}
