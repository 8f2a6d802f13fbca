//! Pictures that are altered: each alteration must be found, or the comparison
//! says nothing.

use crate::field;
use crate::made::{self, chunk, plain, FRAME, SMALL, VOID, WAVE};
use crate::picture::{Asked, Pictures};
use crate::program::{Plot, Stream};
use crate::xml::{self, Element};

/// What is done to the first element of a name and class, or to the second
/// of them too.
enum Alteration {
    Set(&'static str, &'static str),
    /// The last character of the text is doubled.
    Text,
    Gone,
    Twice,
    Swapped,
}
use Alteration::{Gone, Set, Swapped, Text, Twice};

const FIELDS: [(&str, &str, Alteration); 25] = [
    ("line", "lit", Set("class", "dark")),
    ("line", "lit", Set("class", "closed")),
    ("line", "dark", Set("class", "lit")),
    ("line", "lit", Set("x1", "1")),
    ("line", "lit", Set("y1", "1")),
    ("line", "lit", Set("x2", "1")),
    ("line", "dark", Set("y2", "1")),
    ("line", "dark", Set("x1", "0.0")),
    ("line", "lit", Set("stroke", "red")),
    ("line", "lit", Set("stroke", "#fff")),
    ("line", "lit", Set("stroke", "#0123456")),
    ("line", "lit", Set("stroke", "#010203")),
    ("line", "lit", Gone),
    ("line", "dark", Twice),
    ("line", "lit", Swapped),
    ("line", "dark", Swapped),
    ("circle", "first", Set("cx", "1")),
    ("circle", "first", Set("cy", "1")),
    ("circle", "first", Gone),
    ("circle", "first", Twice),
    ("g", "field", Set("class", "other")),
    ("text", "refusals", Text),
    ("text", "refused", Text),
    ("text", "sentence", Text),
    ("text", "refused", Swapped),
];

const METERS: [(&str, &str, Alteration); 17] = [
    ("text", "meter", Text),
    ("text", "meter", Swapped),
    ("text", "meter", Gone),
    ("path", "reading", Gone),
    ("path", "reading", Swapped),
    ("path", "reading", Set("d", "M60 186H820")),
    ("path", "reading", Set("d", "M60 186H700V186H820")),
    ("path", "reading", Set("d", "M60 186V70H820")),
    ("text", "lane", Text),
    ("text", "lane", Twice),
    ("rect", "refusal", Set("fill", "#8a8a92")),
    ("rect", "refusal", Set("y", "10000")),
    ("rect", "refusal", Set("x", "61")),
    ("rect", "refusal", Set("width", "2")),
    ("rect", "refusal", Gone),
    ("rect", "refusal", Twice),
    ("text", "refusals", Gone),
];

/// The elements with this done to them; none where they have no such element.
fn altered(
    elements: &[Element],
    name: &str,
    class: &str,
    alteration: &Alteration,
) -> Option<Vec<Element>> {
    let mut places = (0..elements.len()).filter(|place| elements[*place].is(name, class));
    let place = places.next()?;
    let mut elements = elements.to_vec();
    match alteration {
        Set(key, value) => {
            let element = &mut elements[place];
            let mut attributes = element.attributes.iter_mut();
            attributes.find(|(name, _)| name == key)?.1 = value.to_string();
        }
        Text => {
            let last = elements[place].text.chars().last()?;
            elements[place].text.push(last);
        }
        Gone => elements[place].name = "other".into(),
        Twice => elements.push(elements[place].clone()),
        Swapped => elements.swap(place, places.next()?),
    }
    Some(elements)
}

/// Frames, waves, and refusals on two channels.
fn stream() -> Stream {
    let samples = [1, 2, 0, 3, 4, 255, 5, 6, 255, 7, 8, 0, 9, 10, 0, 11, 12, 9];
    let wave: Vec<u8> = (0..80).collect();
    let octets = [
        made::frames(5, SMALL),
        plain(5, VOID, 0, &[1]),
        plain(5, VOID, 0, &[1]),
        plain(6, VOID, 0, &[]),
        plain(5, FRAME, 0, &chunk(&samples)),
        plain(5, 4, 0, &[]),
        plain(5, FRAME, 1, &chunk(&samples)),
        made::waves(7, &[0x4101, 0x4200, 0x4210, 0x527E]),
        plain(7, WAVE, 0, &chunk(&wave)),
    ];
    Stream::new("to be altered", octets.concat())
}

pub fn check(plot: &mut Plot, header: &str) -> Result<(), String> {
    let stream = stream();
    plot.tally.truth(
        "to be altered, sheet",
        field::sheet(&stream.told, 5).len() == 2,
    );
    for (asked, list) in [
        (Asked::Either, &FIELDS[..]),
        (Asked::Sheet, &FIELDS),
        (Asked::Meters, &METERS),
    ] {
        let svg = plot.picture(&stream, 5, asked);
        let Ok(elements) = xml::read(&svg) else {
            continue;
        };
        for (number, (name, class, alteration)) in list.iter().enumerate() {
            // One that has seen the strokes of the unaltered picture.
            let mut pictures = Pictures::new(header)?;
            let before = pictures.elements(&stream.told, 5, asked, &elements);
            let after = altered(&elements, name, class, alteration);
            let after = after.map(|after| pictures.elements(&stream.told, 5, asked, &after));
            let found = before.is_ok() && after.is_some_and(|after| after.is_err());
            let number = number + 1;
            let name = format!("{asked:?}, alteration {number} of {name} {class}");
            plot.tally.truth(&name, found);
        }
    }
    Ok(())
}
