//! What a routing makes of a channel: document 01, "One message" (services
//! and modes) and checks 6 to 14.

use crate::dictionary::{self, Layout};
use crate::dimmer::{self, Map};
use crate::message::{Routing, Service};

/// The tags of a routing, read for its mode.
#[derive(Clone, Debug, PartialEq, Eq)]
pub enum Tags {
    /// Mode 0: "its configuration words and chunks are ignored".
    Ignored,
    /// Modes 1 and 2.
    Graphic(Layout),
    /// Modes 4 and 6.
    Dimmer(Map),
}

/// Document 01, "Meters and the look-back rule": "its mode, service, SDM and
/// tags govern".
#[derive(Clone, Debug, PartialEq, Eq)]
pub struct Governing {
    pub mode: u8,
    pub service: Service,
    pub sdm: u8,
    pub tags: Tags,
}

impl Governing {
    /// "space modifier in force (the governing dictionary's 16-bit word 11pp,
    /// 0 if none)".
    pub fn space(&self) -> u16 {
        match &self.tags {
            Tags::Graphic(layout) => layout.space,
            _ => 0,
        }
    }
}

/// Checks 6 to 14 of a message with Routing.
pub fn check(routing: &Routing) -> Result<Governing, u32> {
    let mode = routing.mode;
    // "With Routing, the mode is not 0, 1, 2, 4 or 6."
    if !matches!(mode, 0 | 1 | 2 | 4 | 6) {
        return Err(6);
    }
    // "The service does not go with the mode."
    if !service_goes(routing.service, mode) {
        return Err(7);
    }
    let tags = match mode {
        // "Mode 0 skips 8 to 14".
        0 => Tags::Ignored,
        1 | 2 => Tags::Graphic(dictionary::check(u32::from(mode), routing.words)?),
        _ => Tags::Dimmer(dimmer::check(routing.words)?),
    };
    Ok(Governing {
        mode,
        service: routing.service,
        sdm: routing.sdm,
        tags,
    })
}

/// "1 is the laser (modes 1, 2, 4), 2 is DMX (mode 6), 0 is the default for
/// the mode. Mode 0 (Void) goes with 0, 1 or 2".
fn service_goes(service: Service, mode: u8) -> bool {
    match service.0 {
        0 => true,
        1 => matches!(mode, 0 | 1 | 2 | 4),
        2 => matches!(mode, 0 | 6),
        _ => false,
    }
}
