//! What each number means, in the words of include/mewkoast.h: they stand there
//! once.

const HEADER: &str = include_str!("../../include/mewkoast.h");

/// The lines before and after the table of numbers.
const BEFORE: &str = "A refusal has 0 in all but the number:";
const AFTER: &str = "They are tried in this order";

/// The numbers of the table with their sentences, in its order.
pub fn table() -> Vec<(u8, String)> {
    let mut table: Vec<(u8, String)> = Vec::new();
    let lines = HEADER
        .lines()
        .skip_while(|line| !line.contains(BEFORE))
        .skip(1);
    for line in lines.take_while(|line| !line.contains(AFTER)) {
        let text = line.trim_start_matches(" *").trim();
        let (first, rest) = text.split_once("  ").unwrap_or((text, ""));
        match first.parse() {
            Ok(number) => table.push((number, rest.trim().to_string())),
            Err(_) if text.is_empty() => {}
            Err(_) => {
                if let Some((_, sentence)) = table.last_mut() {
                    sentence.push(' ');
                    sentence.push_str(text);
                }
            }
        }
    }
    table
}

/// The sentence of a number.
pub fn of(number: u8) -> String {
    let found = table().into_iter().find(|(of, _)| *of == number);
    found.map_or_else(String::new, |(_, sentence)| sentence)
}

#[cfg(test)]
mod tests {
    /// Document 01 has checks 1 to 23, and request C-12 adds 24 to 26.
    #[test]
    fn every_number_has_its_sentence() {
        let table = super::table();
        let numbers: Vec<u8> = table.iter().map(|(number, _)| *number).collect();
        assert_eq!(numbers, (1..=26).collect::<Vec<u8>>());
        assert!(table.iter().all(|(_, sentence)| !sentence.is_empty()));
        assert_eq!(super::of(16), "without Routing, the channel is closed");
        assert!(super::of(25).ends_with("the frame is dropped"));
    }
}
