//! Stands for the crate `arrayvec`: compiled against, not called here.
use std::ops::Deref;

pub struct ArrayVec<T, const N: usize>(Vec<T>);

impl<T, const N: usize> ArrayVec<T, N> {
    pub fn new() -> Self {
        Self(Vec::new())
    }
    pub fn push(&mut self, it: T) {
        assert!(self.0.len() < N);
        self.0.push(it);
    }
}

impl<T, const N: usize> Deref for ArrayVec<T, N> {
    type Target = [T];
    fn deref(&self) -> &[T] {
        &self.0
    }
}

pub struct ArrayString<const N: usize>(String);

impl<const N: usize> ArrayString<N> {
    pub fn new() -> Self {
        Self(String::new())
    }
    pub fn push_str(&mut self, text: &str) {
        assert!(self.0.len() + text.len() <= N);
        self.0.push_str(text);
    }
}

impl<const N: usize> Deref for ArrayString<N> {
    type Target = str;
    fn deref(&self) -> &str {
        &self.0
    }
}
