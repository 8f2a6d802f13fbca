//! How often each kind of difference was seen, and where first.

use std::cmp::Reverse;
use std::collections::BTreeMap;

pub struct Seen {
    pub count: u64,
    pub first: String,
}

pub struct Kinds<K>(BTreeMap<K, Seen>);

impl<K> Default for Kinds<K> {
    fn default() -> Kinds<K> {
        Kinds(BTreeMap::new())
    }
}

impl<K: Ord> Kinds<K> {
    /// Counts a difference; `first` says where it is, and is asked once a kind.
    pub fn add(&mut self, kind: K, first: impl FnOnce() -> String) {
        let seen = self.0.entry(kind).or_insert_with(|| Seen {
            count: 0,
            first: first(),
        });
        seen.count += 1;
    }

    /// The kinds, the most frequent first.
    pub fn sorted(&self) -> Vec<(&K, &Seen)> {
        let mut kinds: Vec<(&K, &Seen)> = self.0.iter().collect();
        kinds.sort_by_key(|(_, seen)| Reverse(seen.count));
        kinds
    }
}

/// The names with which something differs.
pub fn named<const N: usize>(compared: [(&'static str, bool); N]) -> Vec<&'static str> {
    let different = compared.into_iter().filter(|(_, differs)| *differs);
    different.map(|(name, _)| name).collect()
}
