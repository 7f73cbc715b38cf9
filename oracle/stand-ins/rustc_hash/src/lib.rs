//! Stands in for rustc_hash: the hash map and hash set that lang_ast uses.
//!
//! Different on purpose: `FxHashMap` is a type of its own that also keeps a log of every `insert`, so that one can see
//! from outside which names a scope was given and in what order, the hidden ones too. What goes in through `entry` is
//! not logged, since such a value grows in place. Two maps are equal when they hold the same, whatever their logs. The
//! hash function is std's; lang_ast never looks at the order of a map.

use std::{
    collections::{
        hash_map::{DefaultHasher, Entry},
        HashMap, HashSet,
    },
    fmt,
    hash::{BuildHasherDefault, Hash},
};

type Hasher = BuildHasherDefault<DefaultHasher>;

pub type FxHashSet<T> = HashSet<T, Hasher>;

#[derive(Clone)]
pub struct FxHashMap<K, V> {
    map: HashMap<K, V, Hasher>,
    log: Vec<(K, V)>,
}

impl<K, V> Default for FxHashMap<K, V> {
    fn default() -> Self {
        FxHashMap { map: HashMap::default(), log: Vec::new() }
    }
}

impl<K, V> FxHashMap<K, V> {
    /// Every key and value given to `insert`, in order.
    pub fn log(&self) -> &[(K, V)] {
        &self.log
    }

    pub fn len(&self) -> usize {
        self.map.len()
    }

    pub fn is_empty(&self) -> bool {
        self.map.is_empty()
    }

    pub fn iter(&self) -> impl Iterator<Item = (&K, &V)> {
        self.map.iter()
    }
}

impl<K: Hash + Eq, V> FxHashMap<K, V> {
    /// Sets the value of a key and hands back the one before.
    pub fn insert(&mut self, key: K, value: V) -> Option<V>
    where
        K: Clone,
        V: Clone,
    {
        self.log.push((key.clone(), value.clone()));
        self.map.insert(key, value)
    }

    pub fn get(&self, key: &K) -> Option<&V> {
        self.map.get(key)
    }

    pub fn entry(&mut self, key: K) -> Entry<'_, K, V> {
        self.map.entry(key)
    }

    pub fn shrink_to_fit(&mut self) {
        self.map.shrink_to_fit();
    }
}

impl<K: Hash + Eq, V: PartialEq> PartialEq for FxHashMap<K, V> {
    fn eq(&self, other: &Self) -> bool {
        self.map == other.map
    }
}

impl<K: Hash + Eq, V: Eq> Eq for FxHashMap<K, V> {}

impl<K: fmt::Debug, V: fmt::Debug> fmt::Debug for FxHashMap<K, V> {
    fn fmt(&self, f: &mut fmt::Formatter<'_>) -> fmt::Result {
        self.map.fmt(f)
    }
}
