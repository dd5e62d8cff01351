//! The functions themselves.
use crate::{Refusal, Stored};

mod foreign {
    unsafe extern "C" {
        /// A Rattle slice is handed over as its place and its length, an array by its place.
        pub fn tt_set_token(
            b: *const u8, b_len: usize, trees: u32,
            parts: *const u32, parts_len: usize,
            symbols: *const u32, symbols_len: usize,
            number: u32, leaf: *const [u32; 13],
            list: *mut u32, list_len: usize,
            tables: *mut u32, tables_len: usize,
            counts: *mut u32, counts_len: usize,
            out: *mut u8, out_len: usize,
            out_parts: *mut u32, out_parts_len: usize,
            out_symbols: *mut u32, out_symbols_len: usize,
            told: *mut [usize; 3],
        ) -> u32;
        pub fn tt_preview(
            b: *const u8, b_len: usize, trees: u32,
            parts: *const u32, parts_len: usize,
            symbols: *const u32, symbols_len: usize,
            number: u32, leaf: *const [u32; 13],
            list: *mut u32, list_len: usize,
            tables: *mut u32, tables_len: usize,
            counts: *mut u32, counts_len: usize,
            told: *mut [usize; 3],
        ) -> u32;
        pub fn tt_tidy(
            b: *const u8, b_len: usize, trees: u32,
            parts: *const u32, parts_len: usize,
            symbols: *const u32, symbols_len: usize,
            list: *mut u32, list_len: usize,
            tables: *const u32, tables_len: usize,
            counts: *mut u32, counts_len: usize,
            out: *mut u8, out_len: usize,
            told: *mut [usize; 1],
        ) -> u32;
    }
}

/// What was told, unless the number is a refusal's: then the first of it is the tree.
fn answer<const N: usize>(number: u32, told: [usize; N]) -> Result<[usize; N], Refusal> {
    match number {
        0 => Ok(told),
        number => {
            let row = checked::Refusal::of(number).expect("a refusal's number");
            Err(Refusal { row, tree: told[0].try_into().expect("a tree number") })
        }
    }
}

/// How many bytes, parts and symbols were written. Work words are for the list, for the tables, for counts and then sizes.
pub fn set_token(
    from: &Stored, number: u32, leaf: &[u32; 13], work: [&mut [u32]; 3], bytes: &mut [u8], parts: &mut [u32], symbols: &mut [u32],
) -> Result<[usize; 3], Refusal> {
    let [list, tables, counts] = work;
    let (old_parts, mut told) = (from.parts.as_flattened(), [0; 3]);
    // Safe: places and lengths are those of slices that are lent until the call is over, those that are written to it alone.
    let number = unsafe {
        foreign::tt_set_token(
            from.bytes.as_ptr(), from.bytes.len(), from.trees,
            old_parts.as_ptr(), old_parts.len(),
            from.symbols.as_ptr(), from.symbols.len(),
            number, leaf,
            list.as_mut_ptr(), list.len(),
            tables.as_mut_ptr(), tables.len(),
            counts.as_mut_ptr(), counts.len(),
            bytes.as_mut_ptr(), bytes.len(),
            parts.as_mut_ptr(), parts.len(),
            symbols.as_mut_ptr(), symbols.len(),
            &mut told,
        )
    };
    answer(number, told)
}

/// How many bytes, parts and symbols `set_token` would write. Work words as there.
pub fn preview(from: &Stored, number: u32, leaf: &[u32; 13], work: [&mut [u32]; 3]) -> Result<[usize; 3], Refusal> {
    let [list, tables, counts] = work;
    let (parts, mut told) = (from.parts.as_flattened(), [0; 3]);
    // Safe: as above.
    let number = unsafe {
        foreign::tt_preview(
            from.bytes.as_ptr(), from.bytes.len(), from.trees,
            parts.as_ptr(), parts.len(),
            from.symbols.as_ptr(), from.symbols.len(),
            number, leaf,
            list.as_mut_ptr(), list.len(),
            tables.as_mut_ptr(), tables.len(),
            counts.as_mut_ptr(), counts.len(),
            &mut told,
        )
    };
    answer(number, told)
}

/// How many bytes were written. Work words as in `set_token`; of those for tables only the length is asked.
pub fn tidy(from: &Stored, work: [&mut [u32]; 3], bytes: &mut [u8]) -> Result<usize, Refusal> {
    let [list, tables, counts] = work;
    let (parts, mut told) = (from.parts.as_flattened(), [0]);
    // Safe: as above.
    let number = unsafe {
        foreign::tt_tidy(
            from.bytes.as_ptr(), from.bytes.len(), from.trees,
            parts.as_ptr(), parts.len(),
            from.symbols.as_ptr(), from.symbols.len(),
            list.as_mut_ptr(), list.len(),
            tables.as_ptr(), tables.len(),
            counts.as_mut_ptr(), counts.len(),
            bytes.as_mut_ptr(), bytes.len(),
            &mut told,
        )
    };
    answer(number, told).map(|[bytes]| bytes)
}
