//! Compares one picture of the program with what the other decoder says.

use crate::field::{self, Class, Expected, Field, Given, Light};
use crate::meters;
use crate::refused::{self, Sentences};
use crate::tally::same;
use crate::told::Told;
use crate::xml::{self, Element};
use std::collections::HashMap;

/// What the arguments ask for.
#[derive(Clone, Copy, Debug, PartialEq, Eq)]
pub enum Asked {
    Either,
    Frame(usize),
    Waves(u32, u32),
    Sheet,
    /// Of the messages from one to another.
    SheetOf(usize, usize),
    Meters,
}

impl Asked {
    pub fn arguments(self) -> Vec<String> {
        let words = |text: String| text.split_whitespace().map(String::from).collect();
        match self {
            Asked::Either => Vec::new(),
            Asked::Frame(number) => words(format!("--frame {number}")),
            Asked::Waves(from, to) => words(format!("--waves {from} {to}")),
            Asked::Sheet => words("--sheet".into()),
            Asked::SheetOf(from, to) => words(format!("--messages {from} {to} --sheet")),
            Asked::Meters => words("--meters".into()),
        }
    }
}

/// What holds for all pictures together.
pub struct Pictures {
    sentences: Sentences,
    /// The stroke that each light had: the same light has the same everywhere.
    strokes: HashMap<Light, String>,
}

impl Pictures {
    pub fn new(header: &str) -> Result<Pictures, String> {
        Ok(Pictures {
            sentences: Sentences::of(header)?,
            strokes: HashMap::new(),
        })
    }

    /// The faults of a picture.
    pub fn check(
        &mut self,
        told: &Told,
        channel: u8,
        asked: Asked,
        svg: &[u8],
    ) -> Result<(), String> {
        self.elements(told, channel, asked, &xml::read(svg)?)
    }

    /// The faults of the elements of a picture.
    pub fn elements(
        &mut self,
        told: &Told,
        channel: u8,
        asked: Asked,
        elements: &[Element],
    ) -> Result<(), String> {
        same("root:", &"svg", &elements[0].name.as_str())?;
        let listed = (asked != Asked::Meters).then_some(channel);
        refused::check(told, listed, elements, &self.sentences)?;
        let expected = match asked {
            Asked::Meters => return meters::check(told, channel, elements),
            Asked::Either => vec![field::either(told, channel)],
            Asked::Frame(number) => vec![field::frame(told, channel, number).ok_or("no frame")?],
            Asked::Waves(from, to) => vec![field::waves(told, channel, from, to)],
            Asked::Sheet => field::sheet(told, channel),
            Asked::SheetOf(from, to) => field::sheet_of(told, channel, from, to),
        };
        self.fields(&expected, elements)
    }

    fn fields(&mut self, expected: &[Expected], elements: &[Element]) -> Result<(), String> {
        let given = field::read(elements)?;
        same("fields:", &expected.len(), &given.len())?;
        for (place, (expected, given)) in expected.iter().zip(&given).enumerate() {
            compare(&expected.field, &given.field)
                .and_then(|()| self.strokes(&expected.light, given))
                .map_err(|fault| format!("field {}: {fault}", place + 1))?;
        }
        Ok(())
    }

    /// Lines with a colour have a stroke of their own, which the levels and
    /// wavelengths of the point and the linearity of its colours alone decide.
    /// It is seen on black.
    fn strokes(&mut self, light: &[Light], given: &Given) -> Result<(), String> {
        let lines = given.field.lines.iter().zip(&given.strokes).zip(light);
        for ((line, stroke), light) in lines {
            if line.class == Class::Dark {
                continue;
            }
            let stroke = stroke.as_deref().unwrap_or("");
            if parts(stroke)?.into_iter().max() < Some(48) {
                return Err(format!("a lit stroke {stroke} cannot be seen"));
            }
            let before = self.strokes.entry(drawn_as(light));
            let before = before.or_insert_with(|| stroke.into());
            same("stroke:", &before.as_str(), &stroke)?;
        }
        Ok(())
    }
}

/// Below 410 nm and above 690 nm a line is drawn as one of these.
fn drawn_as((visual, light): &Light) -> Light {
    let clamped = |(level, wave): &(i32, i32)| (*level, *wave.clamp(&(410 * 64), &(690 * 64)));
    (*visual, light.iter().map(clamped).collect())
}

/// Red, green and blue of "#rrggbb".
pub fn parts(stroke: &str) -> Result<[u8; 3], String> {
    let wrong = || format!("a stroke {stroke:?}");
    let digits = stroke.strip_prefix('#').ok_or_else(wrong)?;
    let number = u32::from_str_radix(digits, 16).map_err(|_| wrong())?;
    if digits.len() != 6 || digits.starts_with('+') {
        return Err(wrong());
    }
    let [_, parts @ ..] = number.to_be_bytes();
    Ok(parts)
}

fn compare(expected: &Field, given: &Field) -> Result<(), String> {
    same("lines:", &expected.lines.len(), &given.lines.len())?;
    for (place, (expected, given)) in expected.lines.iter().zip(&given.lines).enumerate() {
        same(&format!("line {}:", place + 1), expected, given)?;
    }
    same("ring:", &expected.first, &given.first)
}
