//! Which messages of a capture are one stream: those of one client to one
//! destination, unless all are asked for.

use std::collections::HashMap;
use std::hash::Hash;
use std::net::{IpAddr, SocketAddr};

use crate::counts::{Counts, Reason};
use crate::messages::Message;

/// Whose messages are asked for.
#[derive(Clone, Copy, Debug, PartialEq, Eq)]
pub enum Who {
    /// The client with the most messages.
    Most,
    /// Every client.
    All,
    /// This client.
    Client(SocketAddr),
}

/// The keys with how often each one comes: most first, then first seen.
fn tally<K: Copy + Eq + Hash>(keys: impl Iterator<Item = K>) -> Vec<(K, usize)> {
    let mut places = HashMap::new();
    let mut tally: Vec<(K, usize)> = Vec::new();
    for key in keys {
        let place = *places.entry(key).or_insert(tally.len());
        match tally.get_mut(place) {
            Some((_, number)) => *number += 1,
            None => tally.push((key, 1)),
        }
    }
    // This sort keeps the order of equals.
    tally.sort_by_key(|&(_, number)| std::cmp::Reverse(number));
    tally
}

/// The key that comes most often.
fn most<K: Copy + Eq + Hash>(keys: impl Iterator<Item = K>) -> Option<K> {
    tally(keys).first().map(|&(key, _)| key)
}

/// The messages that were asked for, the others counted. Where no destination
/// is asked for, messages of one client go to that with the most, because
/// messages to two cards are not one stream. Where one is, it goes before the
/// choice of the client: who has the most messages to that destination?
pub fn choose<'a>(
    messages: Vec<Message<'a>>,
    who: Who,
    to: Option<IpAddr>,
    counts: &mut Counts,
) -> Vec<Message<'a>> {
    let asked = |message: &&Message| to.is_none_or(|to| message.to == to);
    let client = match who {
        Who::All => None,
        Who::Client(client) => Some(client),
        Who::Most => most(messages.iter().filter(asked).map(|message| message.client)),
    };
    let of_client = |message: &&Message| Some(message.client) == client;
    let to = to.or_else(|| most(messages.iter().filter(of_client).map(|message| message.to)));
    let keep = |message: &Message| {
        let reason = if client.is_some_and(|client| message.client != client) {
            Reason::OtherClient
        } else if to.is_some_and(|to| message.to != to) {
            Reason::OtherDestination
        } else {
            return true;
        };
        counts.message(reason, message.packets);
        false
    };
    let mut messages = messages;
    messages.retain(keep);
    let wrong = messages.iter().filter(|message| !message.right).count();
    counts.noted(Reason::WrongChecksum, wrong);
    counts.noted(Reason::Repeated, repeated(&messages));
    messages
}

/// A message captured twice comes again after so few others.
const NEAR: usize = 16;

/// How many messages are the same, sequence number and timestamp included, as
/// one shortly before. A port that sees packets come in and go out captures each
/// twice; but a network can double a packet too, and then the card gets both.
fn repeated(messages: &[Message]) -> usize {
    let same = |one: &Message, other: &Message| {
        (one.client, one.to, one.sequence) == (other.client, other.to, other.sequence)
            && one.octets == other.octets
    };
    let again = |(at, message): &(usize, &Message)| {
        let before = messages.iter().take(*at).rev().take(NEAR);
        before.into_iter().any(|one| same(one, message))
    };
    messages.iter().enumerate().filter(again).count()
}

/// A line for each client and destination: "MESSAGES CLIENT DESTINATION".
pub fn list(messages: &[Message]) -> Vec<String> {
    let streams = tally(messages.iter().map(|message| (message.client, message.to)));
    let line = |((client, to), number)| format!("{number} {client} {to}");
    streams.into_iter().map(line).collect()
}

/// A line that says how many messages there are, of whom and to where.
pub fn summary(messages: &[Message]) -> String {
    let clients = tally(messages.iter().map(|message| message.client));
    let destinations = tally(messages.iter().map(|message| message.to));
    let client = match clients.as_slice() {
        [] => return "no messages".to_string(),
        [(client, _)] => client.to_string(),
        more => format!("{} clients", more.len()),
    };
    let to = match destinations.as_slice() {
        [(to, _)] => to.to_string(),
        more => format!("{} destinations", more.len()),
    };
    let plural = if messages.len() == 1 { "" } else { "s" };
    format!("{} message{plural} of {client} to {to}", messages.len())
}
