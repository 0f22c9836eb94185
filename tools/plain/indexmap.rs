//! What the sources use of `indexmap`, over Rust's own maps: for builds without proofs. Where there is no memory a map
//! stays as it is.

use rattle_std::alloc::{AllocError, Global};
use rattle_std::vec::Vec;
use std::borrow::Borrow;
use std::collections::HashMap;
use std::hash::{BuildHasher, Hash, RandomState};
use std::mem::replace;
use std::ops::{Index, IndexMut};

/// Keys in the order in which they came.
struct Keys<K> {
    keys: Vec<K>,
    /// The hash of each key, and the last place before it whose key has the same.
    links: Vec<(u64, Option<usize>)>,
    /// The last place of each hash.
    last: HashMap<u64, usize>,
    hasher: RandomState,
}

impl<K: Hash + Eq> Keys<K> {
    fn new(alloc: Global) -> Keys<K> {
        Keys {
            keys: Vec::new(alloc),
            links: Vec::new(alloc),
            last: HashMap::new(),
            hasher: RandomState::new(),
        }
    }

    fn place_of<Q: Hash + Eq + ?Sized>(&self, key: &Q) -> Option<usize>
    where
        K: Borrow<Q>,
    {
        let mut next = self.last.get(&self.hasher.hash_one(key)).copied();
        while let Some(place) = next {
            if self.keys[place].borrow() == key {
                return Some(place);
            }
            next = self.links[place].1;
        }
        None
    }

    /// Puts a key that isn't there behind all others.
    fn put(&mut self, key: K) -> Result<(), AllocError> {
        let hash = self.hasher.hash_one(&key);
        self.last.try_reserve(1)?;
        self.links.push((hash, self.last.get(&hash).copied()))?;
        if let Err(failed) = self.keys.push(key) {
            self.links.pop();
            return Err(failed.into());
        }
        self.last.insert(hash, self.keys.len() - 1);
        Ok(())
    }

    fn truncate(&mut self, length: usize) {
        for place in (length..self.keys.len()).rev() {
            let (hash, before) = self.links[place];
            match before {
                Some(before) => self.last.insert(hash, before),
                None => self.last.remove(&hash),
            };
        }
        self.keys.truncate(length);
        self.links.truncate(length);
    }
}

/// A map whose keys have places.
pub struct IndexMap<K, V> {
    keys: Keys<K>,
    values: Vec<V>,
}

impl<K: Hash + Eq, V> IndexMap<K, V> {
    pub fn new(alloc: Global) -> IndexMap<K, V> {
        IndexMap {
            keys: Keys::new(alloc),
            values: Vec::new(alloc),
        }
    }

    pub fn len(&self) -> usize {
        self.values.len()
    }

    pub fn is_empty(&self) -> bool {
        self.values.is_empty()
    }

    pub fn get_index_of<Q: Hash + Eq + ?Sized>(&self, key: &Q) -> Option<usize>
    where
        K: Borrow<Q>,
    {
        self.keys.place_of(key)
    }

    pub fn get<Q: Hash + Eq + ?Sized>(&self, key: &Q) -> Option<&V>
    where
        K: Borrow<Q>,
    {
        Some(&self.values[self.keys.place_of(key)?])
    }

    pub fn contains_key<Q: Hash + Eq + ?Sized>(&self, key: &Q) -> bool
    where
        K: Borrow<Q>,
    {
        self.keys.place_of(key).is_some()
    }

    pub fn get_index(&self, place: usize) -> Option<(&K, &V)> {
        Some((self.keys.keys.get(place)?, self.values.get(place)?))
    }

    pub fn insert_full(&mut self, key: K, value: V) -> Result<(usize, Option<V>), AllocError> {
        if let Some(place) = self.keys.place_of(&key) {
            return Ok((place, Some(replace(&mut self.values[place], value))));
        }
        self.keys.put(key)?;
        if let Err(failed) = self.values.push(value) {
            self.keys.truncate(self.values.len());
            return Err(failed.into());
        }
        Ok((self.values.len() - 1, None))
    }

    pub fn insert(&mut self, key: K, value: V) -> Result<Option<V>, AllocError> {
        Ok(self.insert_full(key, value)?.1)
    }

    pub fn truncate(&mut self, length: usize) {
        self.keys.truncate(length);
        self.values.truncate(length);
    }
}

impl<K, V> Index<usize> for IndexMap<K, V> {
    type Output = V;

    fn index(&self, place: usize) -> &V {
        &self.values[place]
    }
}

impl<K, V> IndexMut<usize> for IndexMap<K, V> {
    fn index_mut(&mut self, place: usize) -> &mut V {
        &mut self.values[place]
    }
}

/// A set whose members have places.
pub struct IndexSet<K> {
    keys: Keys<K>,
}

impl<K: Hash + Eq> IndexSet<K> {
    pub fn new(alloc: Global) -> IndexSet<K> {
        IndexSet {
            keys: Keys::new(alloc),
        }
    }

    pub fn len(&self) -> usize {
        self.keys.keys.len()
    }

    pub fn is_empty(&self) -> bool {
        self.keys.keys.is_empty()
    }

    pub fn as_slice(&self) -> &[K] {
        self.keys.keys.as_slice()
    }

    pub fn get_index_of<Q: Hash + Eq + ?Sized>(&self, key: &Q) -> Option<usize>
    where
        K: Borrow<Q>,
    {
        self.keys.place_of(key)
    }

    pub fn contains<Q: Hash + Eq + ?Sized>(&self, key: &Q) -> bool
    where
        K: Borrow<Q>,
    {
        self.keys.place_of(key).is_some()
    }

    pub fn get_index(&self, place: usize) -> Option<&K> {
        self.keys.keys.get(place)
    }

    pub fn insert_full(&mut self, key: K) -> Result<(usize, bool), AllocError> {
        if let Some(place) = self.keys.place_of(&key) {
            return Ok((place, false));
        }
        self.keys.put(key)?;
        Ok((self.len() - 1, true))
    }

    pub fn insert(&mut self, key: K) -> Result<bool, AllocError> {
        Ok(self.insert_full(key)?.1)
    }
}

impl<K> Index<usize> for IndexSet<K> {
    type Output = K;

    fn index(&self, place: usize) -> &K {
        &self.keys.keys[place]
    }
}
