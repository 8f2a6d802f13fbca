//! The colours of lines: made by hand, with wavelengths from prefixes.

use crate::field;
use crate::made::{self, chunk, plain, FRAME, SMALL};
use crate::picture::{parts, Asked};
use crate::program::{Plot, Stream};
use crate::tally::same;
use crate::xml;

/// Red, green, blue.
type Parts = [u8; 3];

/// A wavelength in 1/64 nm and a level.
type Line = (u16, u16);

/// The level of an octet 255 without precision.
const FULL: u16 = 65_280;

/// A part that is small beside 255.
const SMALL_PART: u8 = 85;

/// X, Y, and three colours with a wavelength and a precision each.
const TAGS: [u16; 14] = [
    0x4200, 0x4210, 0x5C00, 0x4010, 0x5000, 0x4010, 0x5C00, 0x4010, 0x5000, 0x4010, 0x5C00, 0x4010,
    0x5000, 0x4010,
];

const RED: Line = (638 * 64, FULL);
const GREEN: Line = (532 * 64, FULL);
const BLUE: Line = (460 * 64, FULL);

pub fn check(plot: &mut Plot) {
    plot.names();
    plot.darker();
    plot.beyond();
    plot.hues();
    plot.fixed();
    plot.linearity();
}

impl Plot {
    /// The colours of points, each with up to three lines.
    fn colours(&mut self, points: &[&[Line]]) -> Vec<Parts> {
        // The first point of a frame is dark, so one more stands before.
        let mut samples = vec![0; 14];
        for lines in points {
            samples.extend([1, 2]);
            for place in 0..3 {
                let (wave, level) = lines.get(place).copied().unwrap_or((0, 0));
                samples.extend([wave.to_be_bytes(), level.to_be_bytes()].concat());
            }
        }
        let octets = [made::frames(5, &TAGS), plain(5, FRAME, 0, &chunk(&samples))].concat();
        let stream = Stream::new("prefixes", octets);
        made::cells(self, &stream, 5, &[1 + points.len()]);
        let svg = self.picture(&stream, 5, Asked::Either);
        let mut colours = colours(&svg).unwrap_or_default();
        let found = same("", &points.len(), &colours.len());
        self.tally.case("colours of points", found);
        colours.resize(points.len(), [0; 3]);
        colours
    }

    fn named(&mut self, name: &str, parts: Parts, holds: bool) {
        let fault = Err(format!("{parts:?}"));
        let outcome = if holds { Ok(()) } else { fault };
        self.tally.case(&format!("colour, {name}"), outcome);
    }

    /// The colours that the three usual lines and their sums have.
    fn names(&mut self) {
        let points: [&[Line]; 7] = [
            &[RED],
            &[GREEN],
            &[BLUE],
            &[RED, GREEN, BLUE],
            &[BLUE, RED, GREEN],
            &[RED, GREEN],
            &[(0, 0), GREEN, RED],
        ];
        let colours = self.colours(&points);
        let is_small = |part: u8| part <= SMALL_PART;
        let [red, green, blue] = [colours[0], colours[1], colours[2]];
        let holds = red[0] == 255 && is_small(red[1]) && is_small(red[2]);
        self.named("638 nm", red, holds);
        let holds = green[1] >= 250 && is_small(green[0]) && is_small(green[2]);
        self.named("532 nm", green, holds);
        let holds = blue[2] >= 250 && is_small(blue[0]) && is_small(blue[1]);
        self.named("460 nm", blue, holds);
        for white in &colours[3..5] {
            self.named("white", *white, white.iter().all(|part| *part >= 250));
        }
        for yellow in &colours[5..] {
            let holds = yellow[0] >= 250 && yellow[1] >= 250 && is_small(yellow[2]);
            self.named("yellow", *yellow, holds);
        }
    }

    /// Half a level is half the brightness where CLIN is 10 (003, 3.4.4), which
    /// is half the code of the screen; with every other value of CLIN and without
    /// a space modifier it is half the light, whose code is 188.
    fn linearity(&mut self) {
        for (space, half) in [
            (0x1160, 127..=129),
            (0x1165, 127..=129),
            (0x1150, 187..=189),
            (0x1140, 187..=189),
            (0x1170, 187..=189),
            (0x4000, 187..=189),
        ] {
            let tags = [0x4200, 0x4210, 0x527E, space];
            // A NOP stands for no modifier, and has an octet.
            let more = vec![0; usize::from(space == 0x4000)];
            let sample = |red| [vec![1, 2, red], more.clone()].concat();
            let chunk = chunk(&[sample(0), sample(255), sample(128)].concat());
            let octets = [made::frames(5, &tags), plain(5, FRAME, 0, &chunk)].concat();
            let stream = Stream::new(&format!("space {space:04X}"), octets);
            let svg = self.picture(&stream, 5, Asked::Either);
            let mut red = colours(&svg).unwrap_or_default();
            red.resize(2, [0; 3]);
            let holds = red[0][0] == 255 && half.contains(&red[1][0]);
            self.named(&format!("half of red, space {space:04X}"), red[1], holds);
        }
    }

    /// A lower level is darker, and of the same hue; the least is still seen.
    fn darker(&mut self) {
        let levels = [
            65_535, FULL, 60_000, 50_000, 40_000, 30_000, 20_000, 10_000, 5_000, 2_500, 1_000, 300,
            1,
        ];
        let waves = [
            410u16, 440, 460, 490, 510, 532, 555, 580, 600, 638, 660, 690,
        ];
        for wave in waves {
            let lines = levels.map(|level| [(wave * 64, level)]);
            let points: Vec<&[Line]> = lines.iter().map(|line| line.as_slice()).collect();
            let colours = self.colours(&points);
            let greatest = |parts: Parts| parts.into_iter().max();
            for (pair, level) in colours.windows(2).zip(&levels[1..]) {
                let [before, after] = [pair[0], pair[1]];
                let mut holds = (0..3).all(|part| after[part] <= before[part]);
                // From half a level to the next an eye sees the difference.
                holds &= *level == FULL || *level < 2_000 || greatest(after) < greatest(before);
                holds &= greatest(after) >= Some(48);
                holds &= same_order(colours[1], after);
                self.named(&format!("{wave} nm at level {level}"), after, holds);
            }
            let full = colours[1];
            self.named(&format!("{wave} nm"), full, full != [0; 3]);
        }
    }

    /// Below 410 nm and above 690 nm the line is drawn as that.
    fn beyond(&mut self) {
        let low = [410 * 64, 410 * 64 - 1, 300 * 64, 1, 0];
        let high = [690 * 64, 690 * 64 + 1, 800 * 64, u16::MAX];
        for waves in [&low[..], &high] {
            for level in [FULL, 20_000] {
                let lines: Vec<[Line; 1]> = waves.iter().map(|wave| [(*wave, level)]).collect();
                let points: Vec<&[Line]> = lines.iter().map(|line| line.as_slice()).collect();
                let colours = self.colours(&points);
                for (wave, colour) in waves.iter().zip(&colours) {
                    let name = format!("{wave}/64 nm at level {level}");
                    self.named(&name, *colour, *colour == colours[0]);
                }
            }
        }
    }

    /// Which parts the hues between the three have most of.
    fn hues(&mut self) {
        let hues = [
            (450, [2].as_slice(), [0, 1].as_slice()),
            (495, &[1, 2], &[0]),
            (520, &[1], &[0, 2]),
            (580, &[0, 1], &[2]),
            (620, &[0], &[1, 2]),
            (680, &[0], &[1, 2]),
        ];
        for (wave, most, least) in hues {
            let colour = self.colours(&[&[(wave * 64, FULL)]])[0];
            let above = |part: &usize| least.iter().all(|other| colour[*part] > colour[*other]);
            self.named(&format!("{wave} nm"), colour, most.iter().all(above));
        }
    }

    /// A wavelength from a tag has the colour that it has from a prefix.
    fn fixed(&mut self) {
        let octets = [
            made::frames(5, SMALL),
            plain(5, FRAME, 0, &chunk(&[0, 0, 0, 1, 2, 255])),
        ]
        .concat();
        let svg = self.picture(&Stream::new("fixed", octets), 5, Asked::Either);
        let by_prefix = self.colours(&[&[RED]]);
        let found = colours(&svg).and_then(|fixed| same("", &by_prefix, &fixed));
        self.tally.case("638 nm from a tag", found);
    }
}

/// The colours of the lines that have one, in order.
fn colours(svg: &[u8]) -> Result<Vec<Parts>, String> {
    let fields = field::read(&xml::read(svg)?)?;
    let field = fields.first().ok_or("no field")?;
    let lines = field.field.lines.iter().zip(&field.strokes);
    lines
        .filter(|(line, _)| line.class != field::Class::Dark)
        .map(|(_, stroke)| parts(stroke.as_deref().unwrap_or("")))
        .collect()
}

/// No part is above another that was above it.
fn same_order(full: Parts, lower: Parts) -> bool {
    let pairs = [(0, 1), (0, 2), (1, 2)];
    pairs.iter().all(|(a, b)| {
        let order = full[*a].cmp(&full[*b]);
        let now = lower[*a].cmp(&lower[*b]);
        now == order || now.is_eq()
    })
}
