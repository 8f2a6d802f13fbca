//! Captures of network traffic, read and written without other crates: what
//! `from_capture` and `to_capture` have in common. Nothing here is proved. The
//! receiver behind it takes whatever octets come, so a fault here can lose or
//! mix up messages but not harm the receiver.
//!
//! Reading goes through the layers in this order: [`packet`] (the file),
//! `link`, `ip`, `fragments`, `udp`, `hello`, [`messages`], [`clients`]. What a
//! layer does not pass on it names by a [`counts::Reason`], so that each packet
//! of the file is either in a message or in a count.

mod checksum;
pub mod clients;
pub mod counts;
mod fragments;
mod hello;
mod ip;
mod link;
pub mod messages;
mod octets;
pub mod packet;
mod pcap;
mod pcapng;
mod udp;
pub mod write;
