//! The check of a stored bundle of packed token trees, by the proved function of the crate `bundle`.
//!
//! A bundle is a part table, a symbol table and a buffer of trees in one run of bytes (docs/FORMAT.md of the repository). On a buffer
//! that passed, every walk step and every cursor call answers as over the list that the buffer holds; that is proved.
//! So check a bundle once, before anything reads it.
//!
//! ```
//! // a root that holds no tree, with its two parts
//! let mut bundle = Vec::new();
//! for _ in 0..2 {
//!     bundle.extend(b"SP");
//!     bundle.extend([0; 12]);
//! }
//! bundle.extend(b"BT\x01\0\0\0\x21\0\0\0");
//! bundle.extend(b"\0\x40\0\0\x01\0\0\0\0\0\0\0\x1D\x04\x40\0\0\x01\0\0\0\0\0\0\0\0\0\0\0\0\0\0\0");
//! assert_eq!(checked::check(&bundle), Ok(()));
//!
//! // one byte short
//! let refusal = checked::check(&bundle[..bundle.len() - 1]).unwrap_err();
//! assert_eq!(refusal.number(), 1);
//! ```
use std::error::Error;
use std::fmt;

mod raw {
    unsafe extern "C" {
        /// A Rattle slice is handed over as its place and its length.
        pub fn tt_check_bundle(bytes: *const u8, len: usize) -> u32;
    }
}

/// The rows of the scope paper's table, the first one being number 1.
const MEANINGS: [&str; 11] = [
    "size or stated tree count outside the bounds; list words not a multiple of 13, or part words of 3; bad bundle",
    "field out of range",
    "tree 0 is not a subtree holding all others, or a subtree passes the end of the one around it",
    "too deep",
    "part or symbol absent from its table, or the last two parts are not the root's",
    "a lent run is too short",
    "buffer ends inside a tree or before a due one",
    "index outside its table, a descendant using one of the last two parts, a root not using them, \
     or to pack a span index of 2^28 or a symbol index of 2^29 or more",
    "children byte count wrong, or bytes left after the last tree",
    "step not open now, or state and lent list disagree",
    "restore point does not fit",
];

/// Why something is refused: the number of a row, 1 to 11. The check of a bundle gives 1, 2, 3, 4, 7, 8 or 9.
#[derive(Clone, Copy, Debug, PartialEq, Eq, PartialOrd, Ord, Hash)]
pub struct Refusal(u8);

impl Refusal {
    /// The refusal of a row, if there is such a row.
    pub fn of(number: u32) -> Option<Refusal> {
        let row = u8::try_from(number).ok()?;
        (1..=MEANINGS.len()).contains(&usize::from(row)).then_some(Refusal(row))
    }

    /// 1 to 11.
    pub fn number(self) -> u32 {
        self.0.into()
    }

    /// What the row says.
    pub fn meaning(self) -> &'static str {
        MEANINGS[usize::from(self.0) - 1]
    }
}

impl fmt::Display for Refusal {
    fn fmt(&self, f: &mut fmt::Formatter<'_>) -> fmt::Result {
        write!(f, "refused {}: {}", self.0, self.meaning())
    }
}

impl Error for Refusal {}

/// Whether a bundle holds a tree list within the rules, every stored byte count true. A bundle may be of any length; it is only
/// read, nothing outside it is read, and nothing is kept of it, so that threads may call it at once.
pub fn check(bundle: &[u8]) -> Result<(), Refusal> {
    // Safe: place and length are those of a slice that is lent until the call is over, and the function only reads.
    match unsafe { raw::tt_check_bundle(bundle.as_ptr(), bundle.len()) } {
        0 => Ok(()),
        number => Err(Refusal::of(number).expect("the check's number")),
    }
}

#[cfg(test)]
mod tests {
    use super::*;

    #[test]
    fn rows_are_1_to_11() {
        let rows: Vec<u32> = (0..300).chain([256 + 7, u32::MAX]).filter_map(Refusal::of).map(Refusal::number).collect();
        assert_eq!(rows, Vec::from_iter(1..12));
    }

    #[test]
    fn a_refusal_says_its_row() {
        assert_eq!(Refusal(4).to_string(), "refused 4: too deep");
        assert_eq!(Refusal(11).meaning(), "restore point does not fit");
        let error: Box<dyn Error> = Refusal(7).into();
        assert!(error.to_string().contains("before a due one"));
    }

    #[test]
    fn nothing_is_a_bad_bundle() {
        assert_eq!(check(&[]), Err(Refusal(1)));
        assert_eq!(check(&Vec::new()), Err(Refusal(1)));
        assert_eq!(check(&[b'B'][1..]), Err(Refusal(1)));
    }

    #[test]
    fn a_refusal_is_small() {
        assert_eq!(size_of::<Refusal>(), 1);
    }
}
