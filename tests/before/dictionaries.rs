//! The landing before beside this one: gives the dictionaries of
//! tests/dictionary to the dictionary check of an earlier commit and to the
//! present one, and counts every difference by kind. tests/before/run links the
//! two.
//!
//! usage: before_dictionaries part|whole
//!
//! The exit status is 0 where the run was made, whatever differed.

mod seen;

#[path = "../dictionary/cases.rs"]
mod cases;
// The word of the command is that of the dictionary comparison.
#[path = "../dictionary/extent.rs"]
mod extent;
#[path = "../tag_calls.rs"]
mod tag_calls;

use seen::{named, Kinds};
use std::process::ExitCode;
use tag_calls::CheckedDictionary;

extern "C" {
    /// The call of the earlier archive. It has had one form since the first
    /// commit; where a request changes that, the earlier form is kept here.
    fn before_mewkoast_layout(mode: u32, tags: *const u8, length: usize) -> CheckedDictionary;
}

fn main() -> ExitCode {
    let Some(whole) = extent::whole("before_dictionaries") else {
        return ExitCode::from(2);
    };
    if before_mewkoast_layout as *const () == tag_calls::layout_address() {
        eprintln!("the two archives share a call, so nothing would be compared");
        return ExitCode::FAILURE;
    }
    let mut table = Table::default();
    cases::all(whole, &mut |mode, tags| table.compare(mode, tags));
    table.print();
    ExitCode::SUCCESS
}

/// Differences that are counted together: the numbers of the earlier check and
/// of the present one, and the names of all that differs.
type Kind = ([u8; 2], Vec<&'static str>);

/// What was seen so far.
#[derive(Default)]
struct Table {
    kinds: Kinds<Kind>,
    cases: u64,
    /// Dictionaries that both accepted, or both refused, without a difference.
    accepted: u64,
    refused: u64,
}

impl Table {
    /// Gives one dictionary to both.
    fn compare(&mut self, mode: u32, tags: &[u8]) {
        // SAFETY: the pointer and the length are those of a slice.
        let before = unsafe { before_mewkoast_layout(mode, tags.as_ptr(), tags.len()) };
        let now = tag_calls::layout(mode, tags);
        self.cases += 1;
        if before != now {
            self.kinds
                .add(kind(&before, &now), || cases::shown(mode, tags));
        } else if now.number == 0 {
            self.accepted += 1;
        } else {
            self.refused += 1;
        }
    }

    /// The kinds, the most frequent first, then the totals. The first case comes
    /// last in its line, since it may be long.
    fn print(&self) {
        let kinds = self.kinds.sorted();
        if !kinds.is_empty() {
            println!(
                "{:>9}  {:8}  {:35}  first at",
                "count", "numbers", "what differs"
            );
        }
        for (([before, now], parts), seen) in &kinds {
            println!(
                "{:>9}  {:8}  {:35}  {}",
                seen.count,
                format!("{before} -> {now}"),
                parts.join(", "),
                seen.first
            );
        }
        let alike = self.accepted + self.refused;
        println!(
            "dictionaries: {} cases, {} alike ({} accepted, {} refused), {} differ; {} kinds",
            self.cases,
            alike,
            self.accepted,
            self.refused,
            self.cases - alike,
            kinds.len()
        );
    }
}

/// Fields of the layout under their names in include/mewkoast.h. Where the
/// numbers differ the number alone: one of the two refuses or both do.
/// Where both refuse alike, a field that differs is one that was not left 0.
#[cold]
fn kind(before: &CheckedDictionary, now: &CheckedDictionary) -> Kind {
    let (old, new) = (&before.layout, &now.layout);
    let parts = if before.number != now.number {
        vec!["number"]
    } else {
        named([
            ("roles", old.roles != new.roles),
            ("waves", old.waves != new.waves),
            ("space", old.space != new.space),
            ("width", old.width != new.width),
            ("colours", old.colours != new.colours),
        ])
    };
    ([before.number, now.number], parts)
}
