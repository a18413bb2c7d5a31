//! Stand-in for crate `ahash`: the hasher of the standard library under its names.
//!
//! Hashes decide nothing here: operators are told apart by number, not by hash.

use std::collections::hash_map::DefaultHasher;
use std::hash::{BuildHasher, Hasher};

#[derive(Clone, Default)]
pub struct AHasher(DefaultHasher);

impl Hasher for AHasher {
    fn finish(&self) -> u64 {
        self.0.finish()
    }
    fn write(&mut self, bytes: &[u8]) {
        self.0.write(bytes);
    }
}

pub struct RandomState;

impl RandomState {
    pub fn with_seeds(_: u64, _: u64, _: u64, _: u64) -> Self {
        Self
    }
}

impl BuildHasher for RandomState {
    type Hasher = AHasher;

    fn build_hasher(&self) -> AHasher {
        AHasher::default()
    }
}
