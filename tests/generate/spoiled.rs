//! Configuration words that each of the numbers 8 to 14 refuses.

use crate::random::Random;
use crate::words::words;
use decoder::message::{Routing, Service};
use decoder::route;
use std::sync::OnceLock;

/// How many there are of each number.
const EACH: usize = 60;

/// Modes and words, by number.
pub struct Spoiled([Vec<(u8, Vec<u8>)>; 7]);

/// They are rare among words at random, so one store serves all sets.
pub fn spoiled() -> &'static Spoiled {
    static STORE: OnceLock<Spoiled> = OnceLock::new();
    STORE.get_or_init(|| Spoiled::new(&mut Random::new(0)))
}

impl Spoiled {
    fn new(random: &mut Random) -> Spoiled {
        let mut spoiled = Spoiled(Default::default());
        while spoiled.0.iter().any(|those| those.len() < EACH) {
            let mode = random.pick(&[1, 2, 4, 6]);
            let words = words(random, mode);
            if let Some(number @ 8..=14) = refused(mode, &words) {
                let those = &mut spoiled.0[number as usize - 8];
                if those.len() < EACH {
                    those.push((mode, words));
                }
            }
        }
        spoiled
    }

    /// A mode and words that the number refuses.
    pub fn pick(&self, random: &mut Random, number: u32) -> &(u8, Vec<u8>) {
        &self.0[number as usize - 8][random.below(EACH)]
    }
}

/// The number that refuses a routing to a mode by these words, on service 0.
pub fn refused(mode: u8, words: &[u8]) -> Option<u32> {
    let routing = Routing {
        service: Service(0),
        mode,
        sdm: 0,
        words,
    };
    route::check(&routing).err()
}
