//! A second decoder, written from document 01, requests C-11 to C-14 and C-16
//! of document 02 and source document 003 alone. The tests compare the proved
//! functions with it. What generates messages for the comparisons is in
//! tests/generate.

pub mod calls;
pub mod chunk;
pub mod dictionary;
pub mod dimmer;
pub mod end_to_end;
pub mod gathering;
pub mod listing;
pub mod lookback;
pub mod message;
pub mod receiver;
pub mod route;
pub mod rows;
pub mod set;
mod split;

// The paper's bench table, and more cases worked out by hand.
#[cfg(test)]
mod edges;
#[cfg(test)]
mod first_point;
#[cfg(test)]
mod fragment_cuts;
#[cfg(test)]
mod fragment_drops;
#[cfg(test)]
mod fragment_edges;
#[cfg(test)]
mod fragment_ends;
#[cfg(test)]
mod fragment_list;
#[cfg(test)]
mod fragment_slices;
#[cfg(test)]
mod history;
#[cfg(test)]
mod newer_samples;
#[cfg(test)]
mod newer_tags;
#[cfg(test)]
mod newer_words;
#[cfg(test)]
mod receiver_edges;
#[cfg(test)]
mod receiver_table;
#[cfg(test)]
mod set_channels;
#[cfg(test)]
mod set_checks;
#[cfg(test)]
mod set_edges;
#[cfg(test)]
mod set_gathered;
#[cfg(test)]
mod set_list;
#[cfg(test)]
mod table;
#[cfg(test)]
mod two_checks;
#[cfg(test)]
mod two_checks_list;
