//! An ordered map in the place of the original's, so that a join of two groups has one
//! answer: the original walks a hash map there, in any order.

use std::collections::{BTreeMap, HashMap, btree_map, hash_map};
use std::hash::Hash;
use std::ops::{Deref, DerefMut};

use rayon::iter::IntoParallelIterator;

#[derive(Debug, Clone)]
pub struct FastHashMap<K, V>(BTreeMap<K, V>);

impl<K, V> Default for FastHashMap<K, V> {
    fn default() -> Self {
        Self(BTreeMap::new())
    }
}

impl<K, V> Deref for FastHashMap<K, V> {
    type Target = BTreeMap<K, V>;

    fn deref(&self) -> &Self::Target {
        &self.0
    }
}

impl<K, V> DerefMut for FastHashMap<K, V> {
    fn deref_mut(&mut self) -> &mut Self::Target {
        &mut self.0
    }
}

/// The walk by `for` and `zip`: by rising key.
impl<K, V> IntoIterator for FastHashMap<K, V> {
    type Item = (K, V);
    type IntoIter = btree_map::IntoIter<K, V>;

    fn into_iter(self) -> Self::IntoIter {
        self.0.into_iter()
    }
}

impl<K: Hash + Eq, V> FastHashMap<K, V> {
    /// The original names a hash map's iterator as its own type; a call by name meets this one.
    #[allow(clippy::should_implement_trait)]
    pub fn into_iter(self) -> hash_map::IntoIter<K, V> {
        self.0.into_iter().collect::<HashMap<_, _>>().into_iter()
    }
}

impl<K, V> IntoParallelIterator for FastHashMap<K, V>
where
    K: Hash + Eq + Send,
    V: Send,
{
    type Item = (K, V);
    type Iter = rayon::collections::hash_map::IntoIter<K, V>;

    fn into_par_iter(self) -> Self::Iter {
        let hashed: HashMap<K, V> = self.0.into_iter().collect();
        hashed.into_par_iter()
    }
}
