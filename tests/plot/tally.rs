//! Counts the cases and tells those that fail.

#[derive(Default)]
pub struct Tally {
    pub cases: usize,
    pub failed: usize,
}

/// Failures beyond so many are counted and not told.
const TOLD: usize = 30;

impl Tally {
    pub fn case(&mut self, name: &str, outcome: Result<(), String>) {
        self.cases += 1;
        if let Err(fault) = outcome {
            self.failed += 1;
            if self.failed <= TOLD {
                println!("plot, {name}: {fault}");
            }
        }
    }

    pub fn truth(&mut self, name: &str, holds: bool) {
        self.case(name, same("", &true, &holds));
    }
}

/// A fault where what is given is not what is expected.
pub fn same<T: PartialEq + std::fmt::Debug>(
    name: &str,
    expected: &T,
    given: &T,
) -> Result<(), String> {
    if expected == given {
        return Ok(());
    }
    let [given, expected] = [given, expected].map(|value| short(&format!("{value:?}")));
    Err(format!("{name} {given}, expected {expected}"))
}

/// The first characters of a long text.
pub fn short(text: &str) -> String {
    let mut short: String = text.chars().take(300).collect();
    if short.len() < text.len() {
        short += " and more";
    }
    short
}
