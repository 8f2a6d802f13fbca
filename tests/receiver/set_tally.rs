//! What was run of sets.

/// The numbers that a set can get: 0, and those that refuse a record, a size or
/// a message of type 0x00, and other types by 4.
const POSSIBLE: [usize; 18] = [0, 1, 2, 3, 4, 5, 6, 7, 8, 9, 10, 11, 12, 13, 14, 15, 16, 18];

#[derive(Default)]
pub struct SetTally {
    /// Sets offered to records left by start, message or a set, by value and in
    /// place.
    pub sets: usize,
    /// Those that were compared with their messages one by one.
    pub one_by_one: usize,
    /// Accepted sets and lists of calls of which messages behind them showed
    /// what they left, and those messages.
    pub shown: usize,
    pub probes: usize,
    /// Those of which the look-back rule was asked, and messages among them.
    pub looked_back: usize,
    pub messages: usize,
    /// Sets offered to broken records and to others that a host changed.
    pub broken: usize,
    pub changed: usize,
    /// Calls in place on arrays of other lengths than a record's.
    pub lengths: usize,
    /// How often each number was given.
    numbers: [u64; 27],
    /// Numbers above 26.
    strange: u64,
}

impl SetTally {
    pub fn number(&mut self, number: u32) {
        match self.numbers.get_mut(number as usize) {
            Some(count) => *count += 1,
            None => self.strange += 1,
        }
    }

    /// Prints a line; true if every number that a set can get occurred, and no
    /// other one.
    pub fn finish(&self) -> bool {
        let of = |number: &usize| format!("{number}: {}", self.numbers[*number]);
        let numbers: Vec<String> = POSSIBLE.iter().map(of).collect();
        let never = POSSIBLE.iter().filter(|number| self.numbers[**number] == 0);
        let never = never.count();
        let possible: u64 = POSSIBLE.iter().map(|number| self.numbers[*number]).sum();
        let others = self.numbers.iter().sum::<u64>() - possible + self.strange;
        println!(
            "sets: {} by value and in place, {} of them beside their messages one by one, {} accepted ones and lists shown by {} messages behind them, {} by the look-back rule among {} messages, {} to broken records, {} to changed ones, {} calls on other lengths; numbers {}; {} never occurred, {} others did",
            self.sets,
            self.one_by_one,
            self.shown,
            self.probes,
            self.looked_back,
            self.messages,
            self.broken,
            self.changed,
            self.lengths,
            numbers.join(", "),
            never,
            others
        );
        never == 0 && others == 0
    }
}
