//! The calls of the receiver as include/mewkoast.rs has them, and a reply as the
//! second decoder has it. Those of the tag layer are in tests/tag_calls.rs.

// Each test calls some of these.
#![allow(dead_code)]

#[path = "../include/mewkoast.rs"]
mod mewkoast;

use decoder::receiver as own;
#[allow(unused_imports)]
pub use mewkoast::*;

impl Reply {
    /// The reply as the second decoder has it.
    pub fn own(&self) -> own::Reply {
        own::Reply {
            number: u32::from(self.number),
            channel: self.channel,
            kind: self.chunk_type,
            timestamp: self.timestamp,
            space: self.space,
            points: self.points,
            lit_points: self.lit_points,
            levels: self.levels,
        }
    }
}
