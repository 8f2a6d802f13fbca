//! What the comparisons offer: dictionaries by hand and at random, and streams
//! of messages that fit what the receiver has come to, most of them, with the
//! lengths of the slices lent. Frames come in one message or in fragments. Sets
//! of messages are all accepted or have a wrong one in any place, alone and
//! among messages. The same seed gives the same streams. It uses the decoder of
//! tests/decoder to know what a channel has come to; what is expected of a
//! message is the decoder's to say.

mod asking;
pub mod assembly;
mod between;
mod damage;
mod data;
pub mod dictionaries;
mod draft;
pub mod end_to_end;
mod limits;
pub mod mixed;
pub mod places;
pub mod probes;
pub mod random;
pub mod random_dictionary;
mod samples;
mod sender;
mod set;
mod split;
mod spoiled;
pub mod stream;
mod unknown;
mod words;
pub mod wrong;
mod wrong_octets;

#[cfg(test)]
mod coverage;
#[cfg(test)]
mod first_point;
#[cfg(test)]
mod gathered;
#[cfg(test)]
mod histories;
#[cfg(test)]
mod kept;
#[cfg(test)]
mod newer_tags;
#[cfg(test)]
mod newer_words;
#[cfg(test)]
mod probed;
#[cfg(test)]
mod set_histories;
#[cfg(test)]
mod set_later;
#[cfg(test)]
mod set_places;
#[cfg(test)]
mod set_situations;
#[cfg(test)]
mod set_table;
#[cfg(test)]
mod split_frames;
#[cfg(test)]
mod split_table;
#[cfg(test)]
mod steps;
#[cfg(test)]
mod two_checks;
#[cfg(test)]
mod walked;
