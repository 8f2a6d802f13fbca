//! The tags of a dictionary one by one, to find the situations of request C-16
//! in it. What a dictionary is accepted or refused for is the decoder's to say.

use crate::unknown::{unknown, Unknown};
use decoder::dictionary::check;
use decoder::message::Routing;

const PRECISION: u16 = 0x4010;
const PREFIX: u16 = 0x5C00;

#[derive(Clone, Copy, Debug)]
pub struct Tag {
    pub word: u16,
    /// How many words of the dictionary stand before it.
    pub place: usize,
    /// None if it is not an unknown tag of a defined group.
    pub unknown: Option<Unknown>,
    /// How many words it skips.
    pub skips: usize,
}

/// The words of a routing to mode 1 or 2, and the tags among them.
#[derive(Clone, Debug)]
pub struct Dictionary {
    pub mode: u8,
    words: Vec<u16>,
    pub tags: Vec<Tag>,
}

impl Dictionary {
    /// None for a routing to another mode.
    pub fn of(routing: &Routing) -> Option<Dictionary> {
        if !matches!(routing.mode, 1 | 2) {
            return None;
        }
        let words = routing.words.chunks_exact(2);
        let words: Vec<u16> = words
            .map(|word| u16::from_be_bytes([word[0], word[1]]))
            .collect();
        let mut tags = Vec::new();
        let mut place = 0;
        while let Some(&word) = words.get(place) {
            let skips = if word < 0x0100 {
                usize::from(word & 0xF)
            } else {
                0
            };
            let unknown = unknown(word);
            tags.push(Tag {
                word,
                place,
                unknown,
                skips,
            });
            place += 1 + skips;
        }
        Some(Dictionary {
            mode: routing.mode,
            words,
            tags,
        })
    }

    fn word(&self, at: usize) -> Option<u16> {
        self.tags.get(at).map(|tag| tag.word)
    }

    /// The tag directly before the one at `at`.
    pub fn before(&self, at: usize) -> Option<&Tag> {
        self.tags.get(at.checked_sub(1)?)
    }

    /// Whether the tag at `at` is the precision of an unknown tag.
    pub fn ignored_precision(&self, at: usize) -> bool {
        let before = self.before(at).and_then(|tag| tag.unknown);
        self.word(at) == Some(PRECISION) && before == Some(Unknown::Octet)
    }

    /// The places of the tags whose octets are ignored, but for NOPs.
    pub fn ignored(&self) -> Vec<usize> {
        let is_ignored = |at: &usize| {
            self.tags[*at].unknown == Some(Unknown::Octet) || self.ignored_precision(*at)
        };
        (0..self.tags.len()).filter(is_ignored).collect()
    }

    /// The places of the tags that have an octet.
    pub fn octets(&self) -> Vec<usize> {
        let has_octet = |at: &usize| matches!(self.tags[*at].word >> 12, 4 | 5);
        (0..self.tags.len()).filter(has_octet).collect()
    }

    /// The prefix that the tag at `at` stands behind, its precision between
    /// them or not.
    pub fn prefix(&self, at: usize) -> Option<usize> {
        let before = at.checked_sub(1)?;
        match self.word(before) {
            Some(PREFIX) => Some(before),
            Some(PRECISION) => before
                .checked_sub(1)
                .filter(|first| self.word(*first) == Some(PREFIX)),
            _ => None,
        }
    }

    /// Whether the words that the tag at `at` skips pass the end.
    pub fn past_end(&self, at: usize) -> bool {
        let tag = &self.tags[at];
        tag.place + tag.skips >= self.words.len()
    }

    /// Whether nothing is refused before the tag at `at`, so that what is wrong
    /// with it decides.
    pub fn reached(&self, at: usize) -> bool {
        let front = self.words[..self.tags[at].place].iter();
        let octets: Vec<u8> = front.flat_map(|word| word.to_be_bytes()).collect();
        matches!(check(u32::from(self.mode), &octets), Ok(_) | Err(12))
    }

    /// The first tag of which something holds.
    pub fn first(&self, holds: impl Fn(&Tag) -> bool) -> Option<usize> {
        self.tags.iter().position(holds)
    }
}
