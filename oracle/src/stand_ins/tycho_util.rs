//! Maps, sets and the transaction trait.

use std::collections::HashSet;

#[cfg(not(feature = "hashed"))]
mod ordered;
#[cfg(not(feature = "hashed"))]
pub use ordered::FastHashMap;

/// The original's own map, where its time is taken: no join is made then.
#[cfg(feature = "hashed")]
pub type FastHashMap<K, V> = std::collections::HashMap<K, V, ahash::RandomState>;

pub mod transactional {
    pub trait Transactional {
        fn begin(&mut self);
        fn commit(&mut self);
        fn rollback(&mut self);
        fn in_tx(&self) -> bool;
    }
}

/// No answer depends on the order of a set, so sets stay hashed.
pub type FastHashSet<K> = HashSet<K, ahash::RandomState>;
