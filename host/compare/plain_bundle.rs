//! The scope paper's bundle and its check's number, a second time, without regard to speed.
use crate::plain_buffer::Buffer;

struct Found<'a> {
    part_words: Vec<u32>,
    symbols: Vec<u32>,
    trees: u32,
    bytes: &'a [u8],
}

/// So many little-endian numbers from the start on, if they are there.
fn numbers(bytes: &[u8], n: usize) -> Option<Vec<u32>> {
    let words = bytes.get(..4 * n)?.chunks(4);
    Some(words.map(|w| u32::from_le_bytes(w.try_into().unwrap())).collect())
}

/// None for a bad bundle.
fn read(bundle: &[u8]) -> Option<Found<'_>> {
    let (mut part_words, mut symbols, mut rest) = (vec![], vec![], bundle);
    loop {
        let (mark, behind) = rest.split_at_checked(2)?;
        match mark {
            b"SP" => part_words.extend(numbers(behind, 3)?),
            b"SY" => symbols.extend(numbers(behind, 1)?),
            b"BT" => {
                let (counts, bytes) = (numbers(behind, 2)?, &behind[8..]);
                let whole = bytes.len() == counts[1] as usize;
                return whole.then_some(Found { part_words, symbols, trees: counts[0], bytes });
            }
            _ => return None,
        }
        rest = &behind[if mark == b"SP" { 12 } else { 4 }..];
    }
}

/// The check's number, 0 for passed.
pub fn number(bundle: &[u8]) -> u64 {
    let Some(found) = read(bundle) else { return 1 };
    let buffer = Buffer { bytes: found.bytes, trees: found.trees.into(), part_words: &found.part_words, symbols: &found.symbols };
    buffer.check().map_or_else(|(number, _)| number, |()| 0)
}
