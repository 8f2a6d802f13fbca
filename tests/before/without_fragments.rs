//! The calls of version 0.6.0 and before. Their record is the meters and the
//! channels of the present one, and nothing is gathered: those numbers and the
//! assembly slice stay as they are, and a start leaves no frame.

use crate::calls::{Outcome, Receiver};
use crate::lent::{Record, Slices};
use decoder::receiver::Reply;

mod named {
    use crate::calls::Reply;

    /// mewkoast_receiver as it was.
    #[repr(C)]
    #[derive(Clone, Copy)]
    pub struct Kept {
        pub meters: [u64; 3],
        pub channels: [u8; 6528],
    }

    /// mewkoast_outcome as it was.
    #[repr(C)]
    pub struct Left {
        pub receiver: Kept,
        pub reply: Reply,
    }

    extern "C" {
        pub fn before_mewkoast_start(lit_time: u64, points: u64, lit_points: u64) -> Left;
        pub fn before_mewkoast_message(
            receiver: Kept,
            octets: *const u8,
            length: usize,
            rows: *mut i32,
            rows_length: usize,
            levels: *mut u8,
            levels_length: usize,
        ) -> Left;
        pub fn before_mewkoast_begin_on(
            channels: *mut u8,
            channels_length: usize,
            meters: *mut u64,
            meters_length: usize,
            lit_time: u64,
            points: u64,
            lit_points: u64,
        ) -> Reply;
        pub fn before_mewkoast_offer_on(
            channels: *mut u8,
            channels_length: usize,
            meters: *mut u64,
            meters_length: usize,
            octets: *const u8,
            length: usize,
            rows: *mut i32,
            rows_length: usize,
            levels: *mut u8,
            levels_length: usize,
        ) -> Reply;
    }
}

/// Where the code of start, message, begin and offer stands.
pub fn addresses() -> [*const (); 4] {
    [
        named::before_mewkoast_start as *const (),
        named::before_mewkoast_message as *const (),
        named::before_mewkoast_begin_on as *const (),
        named::before_mewkoast_offer_on as *const (),
    ]
}

// SAFETY, of each call below: the pointers and lengths are those of slices,
// and a slice that is written is borrowed alone. A record by value has the
// length that the earlier build knows: `builds::records_alike` is asked first.

pub fn start([lit_time, points, lit_points]: [u64; 3]) -> Outcome {
    let left = unsafe { named::before_mewkoast_start(lit_time, points, lit_points) };
    outcome(left, [0; 4])
}

fn outcome(left: named::Left, gathered: [u32; 4]) -> Outcome {
    let named::Kept { meters, channels } = left.receiver;
    Outcome {
        receiver: Receiver {
            meters,
            gathered,
            channels,
        },
        reply: left.reply,
    }
}

pub fn message(receiver: &Receiver, octets: &[u8], lent: &mut Slices) -> Outcome {
    let (rows, levels) = (lent.rows.slice(), lent.levels.slice());
    let kept = named::Kept {
        meters: receiver.meters,
        channels: receiver.channels,
    };
    let left = unsafe {
        named::before_mewkoast_message(
            kept,
            octets.as_ptr(),
            octets.len(),
            rows.as_mut_ptr(),
            rows.len(),
            levels.as_mut_ptr(),
            levels.len(),
        )
    };
    outcome(left, receiver.gathered)
}

pub fn begin(record: &mut Record, [lit_time, points, lit_points]: [u64; 3]) -> Reply {
    record.gathered.slice().fill(0);
    let (channels, meters) = (record.channels.slice(), record.meters.slice());
    let reply = unsafe {
        named::before_mewkoast_begin_on(
            channels.as_mut_ptr(),
            channels.len(),
            meters.as_mut_ptr(),
            meters.len(),
            lit_time,
            points,
            lit_points,
        )
    };
    reply.own()
}

pub fn offer(record: &mut Record, octets: &[u8], lent: &mut Slices) -> Reply {
    let (channels, meters) = (record.channels.slice(), record.meters.slice());
    let (rows, levels) = (lent.rows.slice(), lent.levels.slice());
    let reply = unsafe {
        named::before_mewkoast_offer_on(
            channels.as_mut_ptr(),
            channels.len(),
            meters.as_mut_ptr(),
            meters.len(),
            octets.as_ptr(),
            octets.len(),
            rows.as_mut_ptr(),
            rows.len(),
            levels.as_mut_ptr(),
            levels.len(),
        )
    };
    reply.own()
}
