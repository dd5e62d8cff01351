//! The proved walk, which the library of all functions has: what a tree is, is not read a second time here.
use std::iter;
use store::Stored;

#[link(name = "export", kind = "static")]
unsafe extern "C" {
    fn tt_walk(
        b: *const u8, len: usize, trees: u32,
        parts: *const u32, part_words: usize,
        symbols: *const u32, symbol_words: usize,
        place: usize, number: u32, left: u32, skip: bool,
        next: *mut usize, next_words: usize,
        words: *mut u32, room: usize,
    ) -> u64;
}

/// From the root on, of each tree 16 words: the 13 list words, 1 or 0 for its opening and for its closing span, whether it is loose, and how
/// many of its stored spans are.
pub fn trees(stored: &Stored) -> impl Iterator<Item = [u32; 16]> {
    let (bytes, parts, symbols) = (stored.bytes(), stored.parts().as_flattened(), stored.symbols());
    let (mut at, mut words) = ([0, 0, stored.trees() as usize], [0; 16]);
    iter::from_fn(move || {
        // Safe: places and lengths are those of slices and arrays that are lent until the call is over.
        let reply = unsafe {
            tt_walk(
                bytes.as_ptr(), bytes.len(), stored.trees(),
                parts.as_ptr(), parts.len(), symbols.as_ptr(), symbols.len(),
                at[0], at[1] as u32, at[2] as u32, false,
                at.as_mut_ptr(), at.len(), words.as_mut_ptr(), words.len(),
            )
        };
        // on a buffer that the check passes no step is refused
        (reply == 1).then_some(words)
    })
}
