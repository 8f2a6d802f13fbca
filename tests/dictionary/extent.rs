//! The word that a comparison is called with.

/// False for `part` and true for `whole`; for anything else it prints the
/// usage and gives none.
pub fn whole(name: &str) -> Option<bool> {
    let arguments: Vec<String> = std::env::args().skip(1).collect();
    match arguments.as_slice() {
        [word] if word == "part" => Some(false),
        [word] if word == "whole" => Some(true),
        _ => {
            eprintln!("usage: {name} part|whole");
            None
        }
    }
}
