//! What the given Rust text takes of the crate `radix_trie`: a map from whole keys, which needs no tree.

use std::collections::HashMap;
use std::hash::Hash;

/// A map; no question about prefixes is asked of it.
pub struct Trie<K, V>(HashMap<K, V>);

impl<K: Eq + Hash, V> Trie<K, V> {
    /// The map without a key.
    #[allow(clippy::new_without_default)]
    pub fn new() -> Self {
        Trie(HashMap::new())
    }

    /// The value of a key.
    pub fn get(&self, key: &K) -> Option<&V> {
        self.0.get(key)
    }

    /// Sets a key's value and answers what it had before.
    pub fn insert(&mut self, key: K, value: V) -> Option<V> {
        self.0.insert(key, value)
    }

    /// Takes a key away and answers what it had.
    pub fn remove(&mut self, key: &K) -> Option<V> {
        self.0.remove(key)
    }
}
