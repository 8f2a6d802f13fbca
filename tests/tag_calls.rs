//! The calls of the tag layer in include/mewkoast.h, on slices. Those of the
//! receiver are in tests/calls.rs.

// Each test calls some of these.
#![allow(dead_code)]

/// mewkoast_sample_layout.
#[repr(C)]
#[derive(Clone, Copy, Debug, PartialEq, Eq)]
pub struct SampleLayout {
    pub roles: [u8; 32],
    pub waves: [u16; 8],
    pub space: u16,
    pub width: u8,
    pub colours: u8,
}

impl SampleLayout {
    /// What a refusal leaves.
    pub const NONE: SampleLayout = SampleLayout {
        roles: [0; 32],
        waves: [0; 8],
        space: 0,
        width: 0,
        colours: 0,
    };
}

/// mewkoast_checked_dictionary.
#[repr(C)]
#[derive(Clone, Copy, PartialEq, Eq)]
pub struct CheckedDictionary {
    pub number: u8,
    pub layout: SampleLayout,
}

/// mewkoast_dimmer_mapping.
#[repr(C)]
#[derive(Clone, Copy, Debug, PartialEq, Eq)]
pub struct DimmerMapping {
    pub bases: [u16; 32],
    pub counts: [u8; 32],
    pub base: u16,
    pub count: u8,
}

impl DimmerMapping {
    /// What a refusal leaves.
    pub const NONE: DimmerMapping = DimmerMapping {
        bases: [0; 32],
        counts: [0; 32],
        base: 0,
        count: 0,
    };
}

/// mewkoast_checked_mapping.
#[repr(C)]
#[derive(Clone, Copy)]
pub struct CheckedMapping {
    pub number: u8,
    pub dimmer: DimmerMapping,
}

extern "C" {
    fn mewkoast_layout(mode: u32, tags: *const u8, length: usize) -> CheckedDictionary;
    fn mewkoast_draw(
        layout: SampleLayout,
        octets: *const u8,
        n: usize,
        rows: *mut i32,
        rows_length: usize,
    ) -> usize;
    fn mewkoast_mapping(tags: *const u8, length: usize) -> CheckedMapping;
    fn mewkoast_levels(
        dimmer: DimmerMapping,
        mode: u8,
        octets: *const u8,
        n: usize,
        levels: *mut u8,
        levels_length: usize,
    ) -> usize;
}

/// Where the code of `layout` stands, to tell it from that of another archive.
pub fn layout_address() -> *const () {
    mewkoast_layout as *const ()
}

// SAFETY, of each call below: the pointers and lengths are those of slices,
// and a slice that is written is borrowed alone.

pub fn layout(mode: u32, tags: &[u8]) -> CheckedDictionary {
    unsafe { mewkoast_layout(mode, tags.as_ptr(), tags.len()) }
}

pub fn draw(layout: SampleLayout, octets: &[u8], rows: &mut [i32]) -> usize {
    unsafe {
        mewkoast_draw(
            layout,
            octets.as_ptr(),
            octets.len(),
            rows.as_mut_ptr(),
            rows.len(),
        )
    }
}

pub fn mapping(tags: &[u8]) -> CheckedMapping {
    unsafe { mewkoast_mapping(tags.as_ptr(), tags.len()) }
}

pub fn levels(dimmer: DimmerMapping, mode: u8, octets: &[u8], levels: &mut [u8]) -> usize {
    unsafe {
        mewkoast_levels(
            dimmer,
            mode,
            octets.as_ptr(),
            octets.len(),
            levels.as_mut_ptr(),
            levels.len(),
        )
    }
}
