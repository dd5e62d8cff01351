//! Spans in more bytes than they need, by the unmodified source: its reading gives the three numbers, its packing the bytes that they need.
use crate::plain::Report;
use tt::{TokenTree, TopSubtree};

/// 1 if the source packs these three numbers in fewer bytes than so many.
pub fn loose([index, start, len]: [u32; 3], bytes: usize) -> u32 {
    u32::from(TopSubtree::encode_span_bytes(index, start, len, 0, false).len() < bytes)
}

/// The span at a place: 1 if it is loose, and how many bytes it has.
fn span(bytes: &[u8], at: usize) -> (u32, usize) {
    let mut window = [0; 12];
    let behind = &bytes[at..bytes.len().min(at + 12)];
    window[..behind.len()].copy_from_slice(behind);
    let (index, start, len, used) = TopSubtree::decode_span_bytes(&window);
    (loose([index as u32, start, len], used), used)
}

/// The report of the tree at a place, and the place behind it. The source reads unchecked: it must be a tree that can be read.
pub fn tree(top: &TopSubtree, at: usize) -> (Report, usize) {
    let mut walk = top.walk_from(at);
    let (tree, _) = walk.decode();
    let (opening, used) = span(top.bytes(), at);
    let behind = walk.place() - at - used;
    let report = match tree {
        TokenTree::Leaf(_) => [opening, 0, opening],
        // 3 or 5 bytes hold no span
        TokenTree::Subtree(_) if behind <= 5 => [opening; 3],
        TokenTree::Subtree(_) => {
            let (closing, _) = span(top.bytes(), at + used + 1);
            [opening, closing, opening + closing]
        }
    };
    (report, walk.place())
}

/// The report of the last span of the tree at a place.
pub fn last(top: &TopSubtree, at: usize) -> u32 {
    let ([opening, closing, _], _) = tree(top, at);
    match top.walk_from(at).decode().0 {
        TokenTree::Leaf(_) => opening,
        TokenTree::Subtree(_) => closing,
    }
}

/// Those of all trees of a buffer that the check passes, by their numbers.
pub fn all(top: &TopSubtree) -> Vec<Report> {
    let mut at = 0;
    let next = |_| {
        let (report, behind) = tree(top, at);
        at = behind;
        report
    };
    (0..top.trees()).map(next).collect()
}
