//! The dictionary check: document 01, "Tag dictionary, modes 1 and 2" and
//! "Checks, in order", numbers 8 to 12, and document 02, C-16.

/// Document 01, "Tag dictionary": the limits of a sample.
pub const MOST_OCTETS: usize = 32;
pub const MOST_COLOURS: usize = 8;

/// Document 01, "One row": the slots of a row.
pub const X: usize = 0;
pub const Y: usize = 1;
pub const Z: usize = 2;
pub const SECOND_X: usize = 3;
pub const SECOND_Y: usize = 4;
pub const SHUTTER: usize = 5;
pub const INTENSITY: usize = 6;
pub const BRUSH: usize = 7;
pub const COLOURS: usize = 8;
pub const WAVELENGTHS: usize = 16;

/// What one octet of a sample is.
#[derive(Clone, Copy, Debug, PartialEq, Eq)]
pub enum Part {
    /// The first octet of the value in this slot.
    First(usize),
    /// The precision octet of the value in this slot.
    Precision(usize),
    /// The hint octet of format 0 (4100) or 1 (4101).
    Hint(u8),
    /// The octet of a NOP, of an unknown tag or of its precision.
    Ignored,
}

/// Where the wavelength of a colour comes from.
#[derive(Clone, Copy, Debug, PartialEq, Eq)]
pub enum Wavelength {
    /// From the tag, in nm.
    Fixed(u16),
    /// From the octets of the prefix in the sample, in 1/64 nm.
    Prefixed,
}

/// What an accepted dictionary says.
#[derive(Clone, Debug, Default, PartialEq, Eq)]
pub struct Layout {
    /// One entry for each octet of a sample, in order.
    pub parts: Vec<Part>,
    /// One entry for each colour, in dictionary order.
    pub wavelengths: Vec<Wavelength>,
    /// The space modifier word 11pp, or 0 if there is none.
    pub space: u16,
}

impl Layout {
    /// The sample's width in octets.
    pub fn width(&self) -> usize {
        self.parts.len()
    }

    fn has(&self, part: Part) -> bool {
        self.parts.contains(&part)
    }
}

/// The known tags (document 01, "Tags known"), and what stands for the unknown
/// ones that are passed over (document 02, C-16).
#[derive(Clone, Copy)]
enum Tag {
    /// The words to skip: Void, or an unknown tag of group 0.0.
    Skip(usize),
    /// An unknown tag of group 1.0: "nothing more happens".
    Nothing,
    /// An unknown tag of category 4 or 5: "its octet is ignored".
    Unknown,
    Space(u16),
    Nop,
    Precision,
    Hint(u8),
    /// A signal other than a colour, with its slot.
    Signal(usize),
    /// A colour with its wavelength; 0 is the word 5000.
    Colour(u16),
    Prefix,
}

/// What stands directly before a tag, as far as check 10 needs it.
#[derive(Clone, Copy)]
enum Before {
    /// A value in this slot that may still get its precision.
    Value(usize),
    /// A prefix without precision.
    Prefix,
    /// A prefix with its precision.
    PrecisePrefix,
    /// An unknown tag of category 4 or 5, whose precision may follow.
    Unknown,
    Other,
}

/// Document 01, "Calls and layers": the answer a C host gets.
pub fn answer(mode: u32, tags: &[u8]) -> u32 {
    if mode != 1 && mode != 2 {
        106
    } else if tags.len() % 2 == 1 || tags.len() > 1020 {
        105
    } else {
        match check(mode, tags) {
            Ok(layout) => layout.width() as u32,
            Err(refusal) => 100 + refusal,
        }
    }
}

/// Checks 8 to 12 of an even number of octets in mode 1 or 2.
pub fn check(mode: u32, tags: &[u8]) -> Result<Layout, u32> {
    let mut layout = Layout::default();
    let mut before = Before::Other;
    let mut rest = tags;
    while let [high, low, after @ ..] = rest {
        let tag = read(mode, u16::from_be_bytes([*high, *low]))?;
        if misplaced(before, tag, after.len() / 2) {
            return Err(10);
        }
        if too_many(&layout, tag) {
            return Err(11);
        }
        before = add(&mut layout, before, tag);
        rest = match tag {
            Tag::Skip(words) => &after[2 * words..],
            _ => after,
        };
    }
    if let Before::Prefix | Before::PrecisePrefix = before {
        return Err(10);
    }
    if !complete(&layout) {
        return Err(12);
    }
    Ok(layout)
}

/// Checks 8 and 9 at one tag.
fn read(mode: u32, word: u16) -> Result<Tag, u32> {
    if !group_defined(word) {
        return Err(8);
    }
    if still_refused(mode, word) {
        return Err(9);
    }
    Ok(known(word).unwrap_or_else(|| unknown(word)))
}

/// Document 02, C-16: "Break, hint formats beyond 1, hint 1 in mode 2 and
/// reserved space values still give 9."
fn still_refused(mode: u32, word: u16) -> bool {
    match word {
        0x1000..=0x100F => true,
        0x1100..=0x11FF => space_reserved(word),
        0x4101 => mode == 2,
        0x4102..=0x410F => true,
        _ => false,
    }
}

/// Document 01, "Tags known".
fn known(word: u16) -> Option<Tag> {
    match word {
        0x0000..=0x000F => Some(Tag::Skip(parameter(word))),
        0x1100..=0x11FF => Some(Tag::Space(word)),
        0x4000 => Some(Tag::Nop),
        0x4010 => Some(Tag::Precision),
        0x4100 => Some(Tag::Hint(0)),
        0x4101 => Some(Tag::Hint(1)),
        0x4200 => Some(Tag::Signal(X)),
        0x4210 => Some(Tag::Signal(Y)),
        0x4220 => Some(Tag::Signal(Z)),
        0x4201 => Some(Tag::Signal(SECOND_X)),
        0x4211 => Some(Tag::Signal(SECOND_Y)),
        0x5000..=0x53FF => Some(Tag::Colour(word & 0x3FF)),
        0x5C00 => Some(Tag::Prefix),
        0x5C10 => Some(Tag::Signal(INTENSITY)),
        0x5C20 => Some(Tag::Signal(BRUSH)),
        _ => None,
    }
}

/// Document 02, C-16: "an unknown tag of a defined group is passed over". What
/// more it does depends on the category alone. X, Y and Z "with parameters
/// beyond those of 01" come here like any other.
fn unknown(word: u16) -> Tag {
    match word >> 12 {
        // "In group 0.0 its parameter gives the words to skip."
        0 => Tag::Skip(parameter(word)),
        // "In 1.0 nothing more happens."
        1 => Tag::Nothing,
        // "In categories 4 and 5 its octet is ignored".
        _ => Tag::Unknown,
    }
}

/// Document 01, "Tag dictionary": the parameter is the fourth nibble.
fn parameter(word: u16) -> usize {
    usize::from(word & 0xF)
}

/// Document 01, "Groups defined".
fn group_defined(word: u16) -> bool {
    matches!(
        word >> 8,
        0x00 | 0x10 | 0x11 | 0x40 | 0x41 | 0x42 | 0x50..=0x53 | 0x5C
    )
}

/// Binary 10 in GLIN, CBAL or CTIM; CLIN has no reserved value.
fn space_reserved(word: u16) -> bool {
    let field = |shift: u32| word >> shift & 3;
    field(6) == 2 || field(2) == 2 || field(0) == 2
}

/// Check 10 at one tag that has `words` words after it.
fn misplaced(before: Before, tag: Tag, words: usize) -> bool {
    match (before, tag) {
        (Before::Prefix, Tag::Precision) => false,
        (Before::Prefix | Before::PrecisePrefix, Tag::Colour(0)) => false,
        (Before::Prefix | Before::PrecisePrefix, _) => true,
        // Document 02, C-16: an unknown tag may have "one precision tag directly
        // behind it".
        (Before::Value(_) | Before::Unknown, Tag::Precision) => false,
        (_, Tag::Precision | Tag::Colour(0)) => true,
        (_, Tag::Skip(skipped)) => skipped > words,
        _ => false,
    }
}

/// Check 11 at one tag.
fn too_many(layout: &Layout, tag: Tag) -> bool {
    let full = layout.width() == MOST_OCTETS;
    match tag {
        Tag::Skip(_) | Tag::Nothing => false,
        Tag::Space(_) => layout.space != 0,
        Tag::Nop | Tag::Unknown | Tag::Precision | Tag::Prefix => full,
        Tag::Hint(_) => full || layout.has(Part::Hint(0)) || layout.has(Part::Hint(1)),
        Tag::Signal(slot) => full || layout.has(Part::First(slot)),
        Tag::Colour(_) => full || layout.wavelengths.len() == MOST_COLOURS,
    }
}

/// Notes a tag that passed checks 8 to 11.
fn add(layout: &mut Layout, before: Before, tag: Tag) -> Before {
    let colour = layout.wavelengths.len();
    let (part, now) = match tag {
        Tag::Skip(_) | Tag::Nothing => return Before::Other,
        Tag::Space(word) => {
            layout.space = word;
            return Before::Other;
        }
        Tag::Nop => (Part::Ignored, Before::Other),
        Tag::Unknown => (Part::Ignored, Before::Unknown),
        Tag::Hint(format) => (Part::Hint(format), Before::Other),
        Tag::Signal(slot) => (Part::First(slot), Before::Value(slot)),
        Tag::Prefix => (Part::First(WAVELENGTHS + colour), Before::Prefix),
        Tag::Precision => match before {
            Before::Value(slot) => (Part::Precision(slot), Before::Other),
            Before::Unknown => (Part::Ignored, Before::Other),
            _ => (Part::Precision(WAVELENGTHS + colour), Before::PrecisePrefix),
        },
        Tag::Colour(wavelength) => {
            layout.wavelengths.push(match wavelength {
                0 => Wavelength::Prefixed,
                _ => Wavelength::Fixed(wavelength),
            });
            (
                Part::First(COLOURS + colour),
                Before::Value(COLOURS + colour),
            )
        }
    };
    layout.parts.push(part);
    now
}

/// Check 12: X, Y and a colour are there.
fn complete(layout: &Layout) -> bool {
    layout.has(Part::First(X)) && layout.has(Part::First(Y)) && !layout.wavelengths.is_empty()
}
