//! Prints, for each field of each struct of tests/tag_calls.rs, tests/calls.rs
//! and tests/receiver/set_calls.rs, its place and size under its name in
//! include/mewkoast.h; then the size of the struct. layout.c prints the same for
//! the header.

#[path = "../calls.rs"]
mod calls;
#[allow(dead_code)]
#[path = "../receiver/set_calls.rs"]
mod set_calls;
#[path = "../tag_calls.rs"]
mod tag_calls;

use calls::{Outcome, Readings, Receiver, Reply, Span};
use set_calls::{SetOutcome, SetReply};
use std::mem::{offset_of, size_of};
use tag_calls::{CheckedDictionary, CheckedMapping, DimmerMapping, SampleLayout};

/// The size of what a field holds.
fn held<S, T>(_: fn(&S) -> &T) -> usize {
    size_of::<T>()
}

macro_rules! print_fields {
    ($name:literal, $type:ident, $($field:ident)*) => {
        $(println!(
            concat!("mewkoast_", $name, " ", stringify!($field), " {} {}"),
            offset_of!($type, $field),
            held(|value: &$type| &value.$field)
        );)*
        println!(concat!("mewkoast_", $name, " {}"), size_of::<$type>());
    };
}

fn main() {
    print_fields!("sample_layout", SampleLayout, roles waves space width colours);
    print_fields!("checked_dictionary", CheckedDictionary, number layout);
    print_fields!("dimmer_mapping", DimmerMapping, bases counts base count);
    print_fields!("checked_mapping", CheckedMapping, number dimmer);
    print_fields!("receiver", Receiver, meters gathered channels);
    print_fields!("reply", Reply, number channel chunk_type timestamp space points lit_points levels);
    print_fields!("outcome", Outcome, receiver reply);
    print_fields!("set_reply", SetReply, place number);
    print_fields!("set_outcome", SetOutcome, receiver reply);
    print_fields!("meters", Readings, lit_time points lit_points);
    print_fields!("span", Span, start length);
}
