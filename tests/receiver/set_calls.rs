//! The calls of the receiver for sets in include/mewkoast.h (request C-14). They
//! stand apart from tests/calls.rs, which tests/before shares: an earlier
//! archive does not have them.

use crate::calls::{Arrays, Receiver};
use decoder::set;

/// mewkoast_set_reply.
#[repr(C)]
#[derive(Clone, Copy)]
pub struct SetReply {
    pub place: usize,
    pub number: u8,
}

/// mewkoast_set_outcome.
#[repr(C)]
#[derive(Clone, Copy)]
pub struct SetOutcome {
    pub receiver: Receiver,
    pub reply: SetReply,
}

extern "C" {
    fn mewkoast_patch(receiver: Receiver, octets: *const u8, length: usize) -> SetOutcome;
    fn mewkoast_patch_on(
        channels: *mut u8,
        channels_length: usize,
        meters: *mut u64,
        meters_length: usize,
        gathered: *mut u32,
        gathered_length: usize,
        octets: *const u8,
        length: usize,
    ) -> SetReply;
}

impl SetReply {
    /// The reply as the second decoder has it.
    pub fn own(&self) -> set::SetReply {
        set::SetReply {
            place: self.place,
            number: u32::from(self.number),
        }
    }
}

// SAFETY, of each call below: the pointers and lengths are those of slices,
// and a slice that is written is borrowed alone.

pub fn patch(receiver: &Receiver, octets: &[u8]) -> SetOutcome {
    unsafe { mewkoast_patch(*receiver, octets.as_ptr(), octets.len()) }
}

pub fn patch_on(record: Arrays, octets: &[u8]) -> SetReply {
    unsafe {
        mewkoast_patch_on(
            record.channels.as_mut_ptr(),
            record.channels.len(),
            record.meters.as_mut_ptr(),
            record.meters.len(),
            record.gathered.as_mut_ptr(),
            record.gathered.len(),
            octets.as_ptr(),
            octets.len(),
        )
    }
}
