//! The situations of split frames in a stream, request C-12, and what holds of
//! all of them.

use crate::random::Random;
use crate::stream::{stream, Stream};
use crate::{gathered, kept, steps};
use std::collections::BTreeMap;

/// Hands on the situations of each message of a stream.
pub fn follow(stream: &Stream, mut note: impl FnMut(String)) {
    steps::follow(stream, |step| {
        gathered::situations(step).into_iter().for_each(&mut note);
        if let Some((outcome, cause)) = kept::situation(step) {
            note(format!("{outcome}, {cause}"));
        }
    });
}

/// Each cause always drops what is gathered, or always leaves it alone, or
/// always puts another frame in its place.
#[test]
fn one_outcome_for_each_cause() {
    let mut random = Random::new(6);
    let mut outcomes: BTreeMap<String, &str> = BTreeMap::new();
    for _ in 0..300 {
        steps::follow(&stream(&mut random, 200), |step| {
            if let Some((outcome, cause)) = kept::situation(step) {
                let known = *outcomes.entry(cause.clone()).or_insert(outcome);
                assert_eq!(outcome, known, "{cause}");
                assert_ne!(outcome, "changed", "{cause}");
            }
        });
    }
    assert!(outcomes.len() > 50);
}

/// Whether the assembly slice has one length for as long as a frame is
/// gathered, worked out from the messages.
fn steady(stream: &Stream) -> bool {
    let mut steady = true;
    steps::follow(stream, |step| {
        let changed = step.offer.lent.assembly != step.past.length;
        steady &= !(changed && step.before.is_some());
    });
    steady
}

/// In 2 to 8 of 100 streams the length changes while a frame is gathered, and
/// in most streams it never changes.
#[test]
fn lengths_of_assembly_slices() {
    let mut random = Random::new(7);
    let (mut unsteady, mut one_length) = (0, 0);
    for _ in 0..500 {
        let stream = stream(&mut random, 200);
        assert_eq!(stream.steady, steady(&stream));
        unsteady += usize::from(!stream.steady);
        let first = stream.offers[0].lent.assembly;
        let mut lengths = stream.offers.iter().map(|offer| offer.lent.assembly);
        one_length += usize::from(lengths.all(|length| length == first));
    }
    println!("{unsteady} of 500 streams unsteady, {one_length} of one length");
    assert!((10..=40).contains(&unsteady), "{unsteady}");
    assert!(one_length > 300, "{one_length}");
}
