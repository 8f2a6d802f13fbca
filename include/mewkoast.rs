//! The calls of the receiver in include/mewkoast.h for Rust, on slices. A
//! program takes this file as a module and links target/staticlib/libreceiver.a.
//! It has no calls for sets (tests/receiver/set_calls.rs has those) and none of
//! the tag layer (tests/tag_calls.rs).

// Each program calls some of these.
#![allow(dead_code)]

/// mewkoast_receiver.
#[repr(C)]
#[derive(Clone, Copy, Debug, PartialEq, Eq)]
pub struct Receiver {
    pub meters: [u64; 3],
    pub gathered: [u32; 4],
    pub channels: [u8; 6528],
}

/// mewkoast_reply.
#[repr(C)]
#[derive(Clone, Copy, Default)]
pub struct Reply {
    pub number: u8,
    pub channel: u8,
    pub chunk_type: u8,
    pub timestamp: u32,
    pub space: u16,
    pub points: u32,
    pub lit_points: u32,
    pub levels: u32,
}

/// mewkoast_outcome.
#[repr(C)]
#[derive(Clone, Copy)]
pub struct Outcome {
    pub receiver: Receiver,
    pub reply: Reply,
}

/// mewkoast_meters.
#[repr(C)]
pub struct Readings {
    pub lit_time: u64,
    pub points: u64,
    pub lit_points: u64,
}

/// mewkoast_span.
#[repr(C)]
#[derive(Clone, Copy, Debug, PartialEq, Eq)]
pub struct Span {
    pub start: usize,
    pub length: usize,
}

extern "C" {
    fn mewkoast_start(lit_time: u64, points: u64, lit_points: u64) -> Outcome;
    fn mewkoast_message(
        receiver: Receiver,
        octets: *const u8,
        length: usize,
        rows: *mut i32,
        rows_length: usize,
        levels: *mut u8,
        levels_length: usize,
        assembly: *mut u8,
        assembly_length: usize,
    ) -> Outcome;
    fn mewkoast_readings(receiver: Receiver) -> Readings;
    fn mewkoast_begin_on(
        channels: *mut u8,
        channels_length: usize,
        meters: *mut u64,
        meters_length: usize,
        gathered: *mut u32,
        gathered_length: usize,
        lit_time: u64,
        points: u64,
        lit_points: u64,
    ) -> Reply;
    fn mewkoast_offer_on(
        channels: *mut u8,
        channels_length: usize,
        meters: *mut u64,
        meters_length: usize,
        gathered: *mut u32,
        gathered_length: usize,
        octets: *const u8,
        length: usize,
        rows: *mut i32,
        rows_length: usize,
        levels: *mut u8,
        levels_length: usize,
        assembly: *mut u8,
        assembly_length: usize,
    ) -> Reply;
    fn mewkoast_readings_on(meters: *const u64, meters_length: usize) -> Readings;
    fn mewkoast_data_section(octets: *const u8, length: usize) -> Span;
}

impl Readings {
    fn three(&self) -> [u64; 3] {
        [self.lit_time, self.points, self.lit_points]
    }
}

/// Where the code of the calls that tests/before makes stands, to tell it from
/// that of another archive.
pub fn addresses() -> [*const (); 5] {
    [
        mewkoast_start as *const (),
        mewkoast_message as *const (),
        mewkoast_begin_on as *const (),
        mewkoast_offer_on as *const (),
        mewkoast_data_section as *const (),
    ]
}

// SAFETY, of each call below: the pointers and lengths are those of slices,
// and a slice that is written is borrowed alone.

pub fn start([lit_time, points, lit_points]: [u64; 3]) -> Outcome {
    unsafe { mewkoast_start(lit_time, points, lit_points) }
}

/// A host that keeps the outcome in one place has two copies of it made around
/// the call: the record goes to the stack as the argument, and the result, by
/// way of the stack, to its place. bench/receiver/turns.c spares the second.
#[inline(always)]
pub fn message(
    receiver: &Receiver,
    octets: &[u8],
    rows: &mut [i32],
    levels: &mut [u8],
    assembly: &mut [u8],
) -> Outcome {
    unsafe {
        mewkoast_message(
            *receiver,
            octets.as_ptr(),
            octets.len(),
            rows.as_mut_ptr(),
            rows.len(),
            levels.as_mut_ptr(),
            levels.len(),
            assembly.as_mut_ptr(),
            assembly.len(),
        )
    }
}

pub fn readings(receiver: &Receiver) -> [u64; 3] {
    unsafe { mewkoast_readings(*receiver) }.three()
}

/// The arrays of a record that is changed in place.
pub struct Arrays<'a> {
    pub channels: &'a mut [u8],
    pub meters: &'a mut [u64],
    pub gathered: &'a mut [u32],
}

impl Receiver {
    pub fn arrays(&mut self) -> Arrays<'_> {
        Arrays {
            channels: &mut self.channels,
            meters: &mut self.meters,
            gathered: &mut self.gathered,
        }
    }
}

pub fn begin_on(record: Arrays, [lit_time, points, lit_points]: [u64; 3]) -> Reply {
    unsafe {
        mewkoast_begin_on(
            record.channels.as_mut_ptr(),
            record.channels.len(),
            record.meters.as_mut_ptr(),
            record.meters.len(),
            record.gathered.as_mut_ptr(),
            record.gathered.len(),
            lit_time,
            points,
            lit_points,
        )
    }
}

#[inline(always)]
pub fn offer_on(
    record: Arrays,
    octets: &[u8],
    rows: &mut [i32],
    levels: &mut [u8],
    assembly: &mut [u8],
) -> Reply {
    unsafe {
        mewkoast_offer_on(
            record.channels.as_mut_ptr(),
            record.channels.len(),
            record.meters.as_mut_ptr(),
            record.meters.len(),
            record.gathered.as_mut_ptr(),
            record.gathered.len(),
            octets.as_ptr(),
            octets.len(),
            rows.as_mut_ptr(),
            rows.len(),
            levels.as_mut_ptr(),
            levels.len(),
            assembly.as_mut_ptr(),
            assembly.len(),
        )
    }
}

pub fn readings_on(meters: &[u64]) -> [u64; 3] {
    unsafe { mewkoast_readings_on(meters.as_ptr(), meters.len()) }.three()
}

pub fn data_section(octets: &[u8]) -> Span {
    unsafe { mewkoast_data_section(octets.as_ptr(), octets.len()) }
}
