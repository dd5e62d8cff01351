//! Stored bundles of packed token trees: one leaf exchanged, the size before that, or all of it put in order, by the proved functions of the
//! crate `store`.
//!
//! A bundle is a part table, a symbol table and a buffer of trees (docs/FORMAT.md of the repository). [`Stored::set_token`] gives the buffer of
//! the same list with one leaf exchanged, over tables made afresh: every other tree reads as before. [`Stored::preview`] gives the sizes that
//! this would have, or its refusal. [`Stored::tidy`] gives the buffer of the same list over the same tables in the bytes that the writer makes,
//! whatever forms the old one has. The new buffer passes the check; all that is proved. The old one is not touched.
//!
//! ```
//! use store::{Ident, IdentIsRaw, Leaf, Span, Stored};
//!
//! // a root around `+`, and three parts, the root's two last
//! let mut bundle = Vec::new();
//! for file in [7u32, 1, 2] {
//!     bundle.extend(b"SP");
//!     bundle.extend([file, 0, 0].map(u32::to_le_bytes).concat());
//! }
//! bundle.extend(b"BT\x02\0\0\0\x26\0\0\0");
//! bundle.extend(b"\x04\x40\0\0\x01\0\0\0\0\0\0\0\x1D\x08\x40\0\0\x01\0\0\0\0\0\0\0\x01\0\0\0\x05\0\0\0");
//! bundle.extend(b"\x41\0\x05\0\x56");
//! let stored = Stored::from_bundle(&bundle)?;
//!
//! // in its place the name with symbol 9
//! let span = Span { file: 7, ast_id: 0, context: 0, start: 10, len: 1 };
//! let name = Leaf::Ident(Ident { sym: 9, span, is_raw: IdentIsRaw::No });
//! let sizes = stored.preview(1, name)?;
//! assert_eq!((stored.sizes().symbols, sizes.symbols), (0, 1));
//! let renamed = stored.set_token(1, name)?;
//! assert_eq!(renamed.sizes(), sizes);
//! assert_eq!(renamed.symbols(), [9]);
//! assert_eq!(renamed.bytes()[33..], *b"\x42\0\x05\0\0");
//!
//! // the root is no leaf
//! let refusal = stored.set_token(0, name).unwrap_err();
//! assert_eq!((refusal.number(), refusal.tree()), (10, 0));
//! # Ok::<(), store::Refusal>(())
//! ```
use std::error::Error;
use std::fmt;

mod bundle;
mod leaf;
mod raw;

pub use leaf::{Ident, IdentIsRaw, Leaf, LitKind, Literal, Punct, Spacing, Span};

/// Why something is refused: the number of a row, 1 to 11, and the tree that it names.
#[derive(Clone, Copy, Debug, PartialEq, Eq, Hash)]
pub struct Refusal {
    row: checked::Refusal,
    tree: u32,
}

impl Refusal {
    /// 1 to 11.
    pub fn number(self) -> u32 {
        self.row.number()
    }

    /// 0 where no tree is meant.
    pub fn tree(self) -> u32 {
        self.tree
    }

    /// What the row says.
    pub fn meaning(self) -> &'static str {
        self.row.meaning()
    }
}

impl fmt::Display for Refusal {
    fn fmt(&self, f: &mut fmt::Formatter<'_>) -> fmt::Result {
        write!(f, "refused {} at {}: {}", self.number(), self.tree, self.meaning())
    }
}

impl Error for Refusal {}

/// How much is stored.
#[derive(Clone, Copy, Debug, PartialEq, Eq, Hash)]
pub struct Sizes {
    pub bytes: usize,
    /// The root's two among them; each has three words.
    pub parts: usize,
    pub symbols: usize,
}

/// A buffer that the check passes, with its tables.
#[derive(Clone, Debug, PartialEq, Eq)]
pub struct Stored {
    bytes: Vec<u8>,
    parts: Vec<[u32; 3]>,
    symbols: Vec<u32>,
    trees: u32,
}

impl Stored {
    /// Refused as by `checked::check`, which is asked first.
    pub fn from_bundle(bundle: &[u8]) -> Result<Stored, Refusal> {
        let checked = checked::check(bundle);
        let Some(stored) = bundle::read(bundle) else {
            return Err(Refusal { row: checked.expect_err("a bad bundle"), tree: 0 });
        };
        // the check of a bundle gives no tree, that of a buffer does
        checked.map_err(|row| Refusal { row, tree: stored.refused_tree() })?;
        Ok(stored)
    }

    /// The parts, the symbols, the buffer.
    pub fn to_bundle(&self) -> Vec<u8> {
        bundle::write(self)
    }

    pub fn bytes(&self) -> &[u8] {
        &self.bytes
    }

    /// File, ast id and context of each; the last two are the root's.
    pub fn parts(&self) -> &[[u32; 3]] {
        &self.parts
    }

    pub fn symbols(&self) -> &[u32] {
        &self.symbols
    }

    pub fn trees(&self) -> u32 {
        self.trees
    }

    pub fn sizes(&self) -> Sizes {
        Sizes { bytes: self.bytes.len(), parts: self.parts.len(), symbols: self.symbols.len() }
    }

    /// This list with another leaf as tree `number`, the root being 0. Refused with 10 at a number that is no leaf's, with 2 at a leaf with a
    /// field out of range.
    ///
    /// For the time of the call it takes 189 bytes a tree: work words, and room for the most that there can be to write.
    pub fn set_token(&self, number: u32, leaf: Leaf) -> Result<Stored, Refusal> {
        let trees = self.trees as usize;
        let mut work = work_words(trees);
        let (mut bytes, mut parts, mut symbols) = (vec![0; 33 * trees], vec![[0; 3]; 2 * trees + 2], vec![0; trees]);
        let told = raw::set_token(self, number, &leaf.words(), split(&mut work), &mut bytes, parts.as_flattened_mut(), &mut symbols)?;
        Ok(Stored { bytes: bytes[..told[0]].into(), parts: parts[..told[1]].into(), symbols: symbols[..told[2]].into(), trees: self.trees })
    }

    /// The sizes that [`set_token`](Stored::set_token) would give, or its refusal, with nothing made but work words: 128 bytes a tree for the
    /// time of the call.
    pub fn preview(&self, number: u32, leaf: Leaf) -> Result<Sizes, Refusal> {
        let mut work = work_words(self.trees as usize);
        let [bytes, parts, symbols] = raw::preview(self, number, &leaf.words(), split(&mut work))?;
        Ok(Sizes { bytes, parts, symbols })
    }

    /// This list over these tables in the writer's bytes: spans, symbols, literals and subtrees in the forms that the writer takes, each index
    /// that of its entry's first place. The tables stay, with unused and repeated entries.
    ///
    /// There are never more bytes than before. Tidying again changes nothing, and two with the same tables become equal exactly if they hold
    /// the same list.
    ///
    /// For the time of the call it takes work words, 128 bytes a tree, and room for as many bytes as there are.
    ///
    /// ```
    /// use store::Stored;
    ///
    /// // a root around `+`, whose span has twelve bytes where four would do, and three parts, the root's two last
    /// let mut bundle = Vec::new();
    /// for file in [7u32, 1, 2] {
    ///     bundle.extend(b"SP");
    ///     bundle.extend([file, 0, 0].map(u32::to_le_bytes).concat());
    /// }
    /// bundle.extend(b"BT\x02\0\0\0\x2E\0\0\0");
    /// bundle.extend(b"\x04\x40\0\0\x01\0\0\0\0\0\0\0\x1D\x08\x40\0\0\x01\0\0\0\0\0\0\0\x01\0\0\0\x0D\0\0\0");
    /// bundle.extend(b"\x41\x40\x05\0\x01\0\0\0\0\0\0\0\x56");
    ///
    /// let tidy = Stored::from_bundle(&bundle)?.tidy();
    /// assert_eq!(tidy.bytes()[33..], *b"\x41\0\x05\0\x56");
    /// assert_eq!(tidy.tidy(), tidy);
    /// # Ok::<(), store::Refusal>(())
    /// ```
    #[must_use = "the old one is not touched"]
    pub fn tidy(&self) -> Stored {
        let trees = self.trees as usize;
        let (mut work, mut bytes) = (work_words(trees), vec![0; self.bytes.len()]);
        // proved: no buffer of this list is shorter than the new one, and nothing else is refused
        let len = raw::tidy(self, split(&mut work), &mut bytes).expect("the check passes it, work words and room are there");
        Stored { bytes: bytes[..len].into(), parts: self.parts.clone(), symbols: self.symbols.clone(), trees: self.trees }
    }

    /// The tree that the check's refusal of this buffer names: it comes before any lent run is looked at.
    fn refused_tree(&self) -> u32 {
        raw::tidy(self, [&mut [], &mut [], &mut []], &mut []).expect_err("no room").tree
    }
}

/// As many as so many trees need, in one run.
fn work_words(trees: usize) -> Vec<u32> {
    vec![0; 32 * trees + 32]
}

/// For the list, for tables, for counts and sizes.
fn split(work: &mut [u32]) -> [&mut [u32]; 3] {
    let share = work.len() / 32;
    let (list, others) = work.split_at_mut(16 * share);
    let (tables, counts) = others.split_at_mut(10 * share);
    [list, tables, counts]
}

#[cfg(test)]
mod tests {
    use super::*;

    #[test]
    fn a_refusal_says_row_and_tree() {
        let refusal = Refusal { row: checked::Refusal::of(4).unwrap(), tree: 256 };
        assert_eq!(refusal.to_string(), "refused 4 at 256: too deep");
        assert_eq!((refusal.number(), refusal.tree(), refusal.meaning()), (4, 256, "too deep"));
        let error: Box<dyn Error> = refusal.into();
        assert!(error.to_string().ends_with("too deep"));
    }

    #[test]
    fn nothing_is_a_bad_bundle() {
        for bundle in [b"".as_slice(), b"B", b"BT", b"XX", b"SP", b"SY\0\0\0"] {
            let refusal = Stored::from_bundle(bundle).unwrap_err();
            assert_eq!((refusal.number(), refusal.tree()), (1, 0), "{bundle:?}");
        }
    }
}
