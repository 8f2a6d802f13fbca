//! The calls as tests/calls.rs has them, with the numbers of what is gathered
//! and an assembly slice.

use crate::calls::{Outcome, Receiver};
use crate::lent::{Record, Slices};
use decoder::receiver::Reply;

mod named {
    use crate::calls::{Outcome, Receiver, Reply};

    extern "C" {
        pub fn before_mewkoast_start(lit_time: u64, points: u64, lit_points: u64) -> Outcome;
        pub fn before_mewkoast_message(
            receiver: Receiver,
            octets: *const u8,
            length: usize,
            rows: *mut i32,
            rows_length: usize,
            levels: *mut u8,
            levels_length: usize,
            assembly: *mut u8,
            assembly_length: usize,
        ) -> Outcome;
        pub fn before_mewkoast_begin_on(
            channels: *mut u8,
            channels_length: usize,
            meters: *mut u64,
            meters_length: usize,
            gathered: *mut u32,
            gathered_length: usize,
            lit_time: u64,
            points: u64,
            lit_points: u64,
        ) -> Reply;
        pub fn before_mewkoast_offer_on(
            channels: *mut u8,
            channels_length: usize,
            meters: *mut u64,
            meters_length: usize,
            gathered: *mut u32,
            gathered_length: usize,
            octets: *const u8,
            length: usize,
            rows: *mut i32,
            rows_length: usize,
            levels: *mut u8,
            levels_length: usize,
            assembly: *mut u8,
            assembly_length: usize,
        ) -> Reply;
    }
}

/// Where the code of start, message, begin and offer stands.
pub fn addresses() -> [*const (); 4] {
    [
        named::before_mewkoast_start as *const (),
        named::before_mewkoast_message as *const (),
        named::before_mewkoast_begin_on as *const (),
        named::before_mewkoast_offer_on as *const (),
    ]
}

// SAFETY, of each call below: the pointers and lengths are those of slices,
// and a slice that is written is borrowed alone. A record by value has the
// length that the earlier build knows: `builds::records_alike` is asked first.

pub fn start([lit_time, points, lit_points]: [u64; 3]) -> Outcome {
    unsafe { named::before_mewkoast_start(lit_time, points, lit_points) }
}

pub fn message(receiver: &Receiver, octets: &[u8], lent: &mut Slices) -> Outcome {
    let (rows, levels) = (lent.rows.slice(), lent.levels.slice());
    let assembly = lent.assembly.slice();
    unsafe {
        named::before_mewkoast_message(
            *receiver,
            octets.as_ptr(),
            octets.len(),
            rows.as_mut_ptr(),
            rows.len(),
            levels.as_mut_ptr(),
            levels.len(),
            assembly.as_mut_ptr(),
            assembly.len(),
        )
    }
}

pub fn begin(record: &mut Record, [lit_time, points, lit_points]: [u64; 3]) -> Reply {
    let (channels, meters) = (record.channels.slice(), record.meters.slice());
    let gathered = record.gathered.slice();
    let reply = unsafe {
        named::before_mewkoast_begin_on(
            channels.as_mut_ptr(),
            channels.len(),
            meters.as_mut_ptr(),
            meters.len(),
            gathered.as_mut_ptr(),
            gathered.len(),
            lit_time,
            points,
            lit_points,
        )
    };
    reply.own()
}

pub fn offer(record: &mut Record, octets: &[u8], lent: &mut Slices) -> Reply {
    let (channels, meters) = (record.channels.slice(), record.meters.slice());
    let gathered = record.gathered.slice();
    let (rows, levels) = (lent.rows.slice(), lent.levels.slice());
    let assembly = lent.assembly.slice();
    let reply = unsafe {
        named::before_mewkoast_offer_on(
            channels.as_mut_ptr(),
            channels.len(),
            meters.as_mut_ptr(),
            meters.len(),
            gathered.as_mut_ptr(),
            gathered.len(),
            octets.as_ptr(),
            octets.len(),
            rows.as_mut_ptr(),
            rows.len(),
            levels.as_mut_ptr(),
            levels.len(),
            assembly.as_mut_ptr(),
            assembly.len(),
        )
    };
    reply.own()
}
