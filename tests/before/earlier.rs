//! The calls of the earlier archive, of which each name has `before_` in front.
//! They are declared here and not in tests/calls.rs, because a request may
//! change a call, and the earlier one then keeps the form that it has here.
//! tests/before/run finds out which form that is.

#[cfg_attr(without_fragments, path = "without_fragments.rs")]
#[cfg_attr(not(without_fragments), path = "with_fragments.rs")]
mod form;

pub use form::{begin, message, offer, start};

use crate::calls::Span;

extern "C" {
    fn before_mewkoast_data_section(octets: *const u8, length: usize) -> Span;
}

/// Where the code of the calls stands, in the order of `calls::addresses`.
pub fn addresses() -> [*const (); 5] {
    let [start, message, begin, offer] = form::addresses();
    let section = before_mewkoast_data_section as *const ();
    [start, message, begin, offer, section]
}

pub fn data_section(octets: &[u8]) -> Span {
    // SAFETY: the pointer and the length are those of a slice.
    unsafe { before_mewkoast_data_section(octets.as_ptr(), octets.len()) }
}
