//! What was run, and what differed.

use crate::set_tally::SetTally;

/// How many differences are printed one by one.
const PRINTED: u64 = 20;

#[derive(Default)]
pub struct Tally {
    /// Messages offered to records left by start or message, by value and in
    /// place.
    pub messages: usize,
    /// Messages offered to broken records, each by value and in place.
    pub broken: usize,
    /// Calls in place on arrays of other lengths than a record's.
    pub lengths: usize,
    /// Those of the messages before which the host altered the assembly slice.
    pub altered: usize,
    /// Those of which the look-back rule was asked.
    pub looked_back: usize,
    /// Messages offered to records with other numbers of what is gathered.
    pub gathered: usize,
    pub sets: SetTally,
    /// How often each number was given, starts not counted.
    numbers: [u64; 27],
    /// Numbers above 26.
    strange: u64,
    differed: u64,
}

impl Tally {
    pub fn number(&mut self, number: u32) {
        match self.numbers.get_mut(number as usize) {
            Some(count) => *count += 1,
            None => self.strange += 1,
        }
    }

    /// Notes a difference if `same` is false, with what `describe` says.
    pub fn same(&mut self, same: bool, describe: impl FnOnce() -> String) -> bool {
        if !same {
            self.differed += 1;
            if self.differed <= PRINTED {
                println!("differs: {}", describe());
            }
        }
        same
    }

    /// Prints the last two lines; true if nothing differed, every number from
    /// 0 to 26 occurred, and every number of a set.
    pub fn finish(&self) -> bool {
        let sets = self.sets.finish();
        let numbers: Vec<String> = self
            .numbers
            .iter()
            .enumerate()
            .map(|(number, count)| format!("{number}: {count}"))
            .collect();
        let never = self.numbers.iter().filter(|count| **count == 0).count();
        println!(
            "receiver: {} messages by value and in place, {} of them after the host altered the assembly slice, {} by the look-back rule, {} to broken records, {} to records with other numbers of what is gathered, {} calls on other lengths; numbers {}; {} never occurred, {} differed",
            self.messages,
            self.altered,
            self.looked_back,
            self.broken,
            self.gathered,
            self.lengths,
            numbers.join(", "),
            never,
            self.differed
        );
        sets && never == 0 && self.strange == 0 && self.differed == 0
    }
}
