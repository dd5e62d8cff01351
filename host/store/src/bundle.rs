//! The records of a bundle: parts and symbols in any order, the buffer last.
use crate::Stored;

/// The first little-endian numbers, so many.
fn numbers<const N: usize>(bytes: &[u8]) -> Option<([u32; N], &[u8])> {
    let (taken, behind) = bytes.split_at_checked(4 * N)?;
    Some((std::array::from_fn(|i| u32::from_le_bytes(taken[4 * i..4 * i + 4].try_into().expect("four bytes"))), behind))
}

/// None for a bad bundle; a good one is yet to be checked.
pub fn read(bundle: &[u8]) -> Option<Stored> {
    let (mut parts, mut symbols, mut rest) = (Vec::new(), Vec::new(), bundle);
    loop {
        let (mark, behind) = rest.split_at_checked(2)?;
        match mark {
            b"SP" => {
                let (part, behind) = numbers::<3>(behind)?;
                parts.push(part);
                rest = behind;
            }
            b"SY" => {
                let ([symbol], behind) = numbers(behind)?;
                symbols.push(symbol);
                rest = behind;
            }
            b"BT" => {
                let ([trees, len], bytes) = numbers(behind)?;
                return (bytes.len() == len as usize).then(|| Stored { bytes: bytes.into(), parts, symbols, trees });
            }
            _ => return None,
        }
    }
}

pub fn write(stored: &Stored) -> Vec<u8> {
    let mut bundle = Vec::with_capacity(14 * stored.parts.len() + 6 * stored.symbols.len() + 10 + stored.bytes.len());
    let record = |bundle: &mut Vec<u8>, mark: &[u8], words: &[u32]| {
        bundle.extend(mark);
        words.iter().for_each(|word| bundle.extend(word.to_le_bytes()));
    };
    stored.parts.iter().for_each(|part| record(&mut bundle, b"SP", part));
    stored.symbols.iter().for_each(|&symbol| record(&mut bundle, b"SY", &[symbol]));
    // a buffer has at most 33 bytes a tree
    record(&mut bundle, b"BT", &[stored.trees, stored.bytes.len() as u32]);
    bundle.extend(&stored.bytes);
    bundle
}
