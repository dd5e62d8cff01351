//! Stands for the crate `text_size`: starts and lengths are u32, a range is start and end.
use std::ops::{Add, Sub};

#[derive(Debug, Default, Clone, Copy, PartialEq, Eq, PartialOrd, Ord, Hash)]
pub struct TextSize(u32);

impl TextSize {
    #[inline]
    pub const fn new(raw: u32) -> TextSize {
        TextSize(raw)
    }
    #[inline]
    pub fn checked_add(self, other: TextSize) -> Option<TextSize> {
        self.0.checked_add(other.0).map(TextSize)
    }
    #[inline]
    pub fn checked_sub(self, other: TextSize) -> Option<TextSize> {
        self.0.checked_sub(other.0).map(TextSize)
    }
}

impl From<u32> for TextSize {
    #[inline]
    fn from(raw: u32) -> TextSize {
        TextSize(raw)
    }
}

impl From<TextSize> for u32 {
    #[inline]
    fn from(size: TextSize) -> u32 {
        size.0
    }
}

impl Add for TextSize {
    type Output = TextSize;
    #[inline]
    fn add(self, other: TextSize) -> TextSize {
        TextSize(self.0 + other.0)
    }
}

impl Sub for TextSize {
    type Output = TextSize;
    #[inline]
    fn sub(self, other: TextSize) -> TextSize {
        TextSize(self.0 - other.0)
    }
}

#[derive(Debug, Default, Clone, Copy, PartialEq, Eq, Hash)]
pub struct TextRange {
    start: TextSize,
    end: TextSize,
}

impl TextRange {
    #[inline]
    pub const fn new(start: TextSize, end: TextSize) -> TextRange {
        assert!(start.0 <= end.0);
        TextRange { start, end }
    }
    #[inline]
    pub const fn at(start: TextSize, len: TextSize) -> TextRange {
        TextRange::new(start, TextSize(start.0 + len.0))
    }
    #[inline]
    pub const fn start(self) -> TextSize {
        self.start
    }
    #[inline]
    pub const fn end(self) -> TextSize {
        self.end
    }
    #[inline]
    pub const fn len(self) -> TextSize {
        TextSize(self.end.0 - self.start.0)
    }
    #[inline]
    pub const fn is_empty(self) -> bool {
        self.start.0 == self.end.0
    }
}

impl Add<TextSize> for TextRange {
    type Output = TextRange;
    #[inline]
    fn add(self, offset: TextSize) -> TextRange {
        let start = self.start.checked_add(offset).expect("TextRange +offset overflowed");
        let end = self.end.checked_add(offset).expect("TextRange +offset overflowed");
        TextRange { start, end }
    }
}
