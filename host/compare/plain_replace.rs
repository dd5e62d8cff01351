//! One leaf of a stored buffer exchanged, a second time, without regard to speed.
use crate::plain;
use crate::plain_buffer::Buffer;
use crate::plain_list::{self, Refusal};

/// The list that a buffer holds, or the check's refusal.
pub fn held(b: &Buffer) -> Result<Vec<u32>, Refusal> {
    b.check()?;
    let parts: Vec<[u32; 3]> = b.part_words.chunks(3).map(|w| [w[0], w[1], w[2]]).collect();
    let (mut list, mut at) = (Vec::new(), 0);
    for n in 0..b.trees {
        let read = b.read(n, at).expect("a tree that the check passes");
        list.extend(plain::words(&read.tree, &parts, b.symbols));
        at = read.next;
    }
    Ok(list)
}

/// The new list, its tables, and its bytes over them.
pub struct Replaced {
    pub list: Vec<u32>,
    pub bytes: Vec<u8>,
    pub parts: Vec<u32>,
    pub symbols: Vec<u32>,
}

/// All but row 6, which is a matter of the lent runs.
pub fn set_token(held: &Result<Vec<u32>, Refusal>, number: u32, leaf: &[u32; 13]) -> Result<Replaced, Refusal> {
    let mut list = held.clone()?;
    let Some(tree) = list.chunks_mut(13).nth(number as usize).filter(|w| w[0] < 3) else {
        return Err((10, number.into()));
    };
    if leaf[0] > 2 || !plain_list::fields(leaf) {
        return Err((2, number.into()));
    }
    tree.copy_from_slice(leaf);
    let tables = plain_list::tables(&list);
    let (parts, symbols) = (tables.parts.concat(), tables.symbols);
    let bytes = plain_list::write(&list, &parts, &symbols).expect("a list over its own tables").bytes;
    Ok(Replaced { list, bytes, parts, symbols })
}
