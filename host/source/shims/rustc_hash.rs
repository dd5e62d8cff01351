//! Stands for the crate `rustc_hash`: std's map with a hasher that adds, multiplies and turns, as version 2 does.
use std::collections::HashMap;
use std::hash::{BuildHasherDefault, Hasher};

pub type FxHashMap<K, V> = HashMap<K, V, BuildHasherDefault<FxHasher>>;

#[derive(Default, Clone, Copy)]
pub struct FxHasher(u64);

impl FxHasher {
    #[inline]
    fn take(&mut self, word: u64) {
        self.0 = self.0.wrapping_add(word).wrapping_mul(0xf135_7aea_2e62_a9c5);
    }
}

impl Hasher for FxHasher {
    #[inline]
    fn write(&mut self, bytes: &[u8]) {
        bytes.iter().for_each(|&b| self.take(b.into()));
    }
    #[inline]
    fn write_u8(&mut self, x: u8) {
        self.take(x.into());
    }
    #[inline]
    fn write_u32(&mut self, x: u32) {
        self.take(x.into());
    }
    #[inline]
    fn write_u64(&mut self, x: u64) {
        self.take(x);
    }
    #[inline]
    fn write_usize(&mut self, x: usize) {
        self.take(x as u64);
    }
    #[inline]
    fn finish(&self) -> u64 {
        self.0.rotate_left(26)
    }
}
