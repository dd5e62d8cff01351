//! One tree: every form at its limits, written and read.
use crate::maker::loose;
use crate::pack::held;
use crate::plain::{self, LAST, Loose, Span, Tree};
use crate::proved;
use crate::random::Random;
use crate::reports;
use crate::tally::Tally;
use crate::words;
use tt::{TokenTree, TopSubtree};

pub const INDEX: [u64; 8] = [0, 15, 16, 127, 128, 32767, 32768, 1 << 28];
pub const SYMBOL: [u64; 6] = [0, 63, 64, 8191, 8192, 1 << 29];
pub const START: [u64; 6] = [0, 131071, 131072, 134217727, 134217728, LAST];
const LEN: [u64; 7] = [0, 1, 255, 256, 262143, 262144, LAST];
const DISTANCE: [u64; 8] = [0, 7, 8, 255, 256, 2047, 2048, LAST];
pub const COUNT: [u64; 4] = [0, 255, 256, 1048575];
pub const BYTES: [u64; 6] = [0, 255, 256, 4095, 4096, LAST];
const CHAR: [u64; 8] = [0, 127, 128, 0xD7FF, 0xD800, 0xDFFF, 0xE000, 0x10FFFF];

fn span(r: &mut Random, indices: u64) -> Span {
    let start = r.near(&START, LAST);
    // now and then too long
    let most = if r.one_in(50) { LAST } else { LAST - start };
    Span { index: r.near(&INDEX, indices), start, len: r.near(&LEN, most) }
}

/// A tree with fields near every limit, now and then one out of range; indices up to the given ones.
fn tree(r: &mut Random, parts: u64, symbols: u64) -> Tree {
    let odd = r.one_in(50);
    let open = span(r, parts);
    match r.below(4) {
        0 => {
            let char = if r.one_in(2) { r.below(128) } else { r.near(&CHAR, if odd { LAST } else { 0x10FFFF }) };
            Tree::Punct { span: open, char, spacing: r.below(if odd { 5 } else { 3 }) }
        }
        1 => Tree::Ident { span: open, symbol: r.near(&SYMBOL, symbols), raw: r.below(if odd { 4 } else { 2 }) },
        2 => {
            let kind = r.below(if odd { 14 } else { 11 });
            let raw_count = if odd || matches!(kind, 5 | 7 | 9) { r.near(&[0, 1, 2, 255], 255) } else { 0 };
            let suffix = r.near(&[0, 15, 16, 255], if odd { 300 } else { 255 });
            Tree::Literal { span: open, symbol: r.near(&SYMBOL, symbols), kind, raw_count, suffix }
        }
        _ => {
            let open = if r.one_in(2) { Span { len: 1.min(LAST - open.start), ..open } } else { open };
            let mut close = span(r, parts);
            if !r.one_in(8) {
                // close behind open, so that the short forms come about
                let distance = r.near(&DISTANCE, LAST - open.start);
                close.start = open.start + distance;
                close.len = if r.one_in(8) { close.len.min(LAST - close.start) } else { open.len.min(LAST - close.start) };
                if !r.one_in(3) {
                    close.index = open.index;
                }
            }
            Tree::Subtree { open, close, count: r.near(&COUNT, 1048575), kind: r.below(if odd { 6 } else { 4 }) }
        }
    }
}

pub fn indices(tree: &Tree) -> [u32; 3] {
    match *tree {
        Tree::Punct { span, .. } => [span.index as u32, 0, 0],
        Tree::Ident { span, symbol, .. } | Tree::Literal { span, symbol, .. } => [span.index as u32, 0, symbol as u32],
        Tree::Subtree { open, close, .. } => [open.index as u32, close.index as u32, 0],
    }
}

/// Words that stand for indices: part i is (i, 1, 2), symbol i is i.
pub fn index_words(tree: &Tree) -> [u32; 13] {
    let [open, close, symbol] = indices(tree);
    let flat = match *tree {
        Tree::Punct { span, char, spacing } => Tree::Punct { span: Span { index: 0, ..span }, char, spacing },
        Tree::Ident { span, raw, .. } => Tree::Ident { span: Span { index: 0, ..span }, symbol: 0, raw },
        Tree::Literal { span, kind, raw_count, suffix, .. } => {
            Tree::Literal { span: Span { index: 0, ..span }, symbol: 0, kind, raw_count, suffix }
        }
        Tree::Subtree { open, close, count, kind } => {
            Tree::Subtree { open: Span { index: 0, ..open }, close: Span { index: 1, ..close }, count, kind }
        }
    };
    plain::words(&flat, &[[open, 1, 2], [close, 1, 2]], &[symbol])
}

fn packs(tree: &Tree) -> bool {
    let [open, close, symbol] = indices(tree);
    open < 1 << 28 && close < 1 << 28 && symbol < 1 << 29
}

/// The source's bytes of a tree with these children bytes, which are 0 where it has no children; `after` holds zeros but at 1.
pub fn source_bytes(tree: &Tree, words_of: &[u32; 13], children: u32, after: &mut [u32]) -> Box<[u8]> {
    let [open, close, symbol] = indices(tree);
    let maps = TopSubtree::chosen_maps(&[([open, 1, 2], open as usize), ([close, 1, 2], close as usize)], &[(symbol, symbol as usize)]);
    let count = match *tree {
        Tree::Subtree { count, .. } => count as usize,
        _ => 0,
    };
    after[1] = children;
    TopSubtree::encode_tree(words::tree(words_of), &maps, &mut after[..count + 2])
}

/// Trees written: the source's bytes, or refusal 2, 8 or 6.
pub fn write(tally: &mut Tally, trees: u64) {
    let mut r = Random::new(2);
    let mut after = vec![0; 1048578];
    for _ in 0..trees {
        let t = tree(&mut r, LAST, LAST);
        let words_of = index_words(&t);
        let children = match t {
            Tree::Subtree { count: 0, .. } => 0,
            Tree::Subtree { .. } => r.near(&BYTES, LAST - 100) as u32,
            _ => 0,
        };
        let refusal = if !plain::in_range(&t) || words_of[2] >= 1 << 24 {
            Some(2)
        } else if !packs(&t) {
            Some(8)
        } else {
            None
        };
        let bytes = if refusal.is_none() { source_bytes(&t, &words_of, children, &mut after) } else { Box::default() };
        let own = refusal.is_some() || plain::write(&t, children.into(), Loose::default()) == *bytes;
        let ok = held(refusal, &bytes, |out, at| proved::encode_tree(out, at, &words_of, indices(&t), children));
        tally.case(ok && own, || format!("{t:?} children {children} {refusal:?} {bytes:02x?}"));
    }
}

/// Roots written.
pub fn write_roots(tally: &mut Tally, trees: u64) {
    let mut r = Random::new(3);
    let mut after = vec![0; 1048578];
    for _ in 0..trees {
        let first = r.near(&INDEX, 1 << 21) as u32;
        let (mut open, mut close) = (span(&mut r, LAST), span(&mut r, LAST));
        (open.index, close.index) = (u64::from(first), u64::from(first) + 1);
        let (count, kind) = (r.near(&COUNT, 1048575), r.below(5));
        let children = if count == 0 { 0 } else { r.near(&BYTES, LAST - 100) as u32 };
        let t = Tree::Subtree { open, close, count, kind };
        let words_of = index_words(&t);
        let refusal = if plain::in_range(&t) { None } else { Some(2) };
        let bytes: Box<[u8]> = if refusal.is_none() {
            let TokenTree::Subtree(root) = words::tree(&words_of) else { unreachable!() };
            after[1] = children;
            TopSubtree::encode_root(root, first, &after)
        } else {
            Box::default()
        };
        let own = refusal.is_some() || plain::write_root(open, close, count, kind, children.into()) == *bytes;
        let numbers = |s: Span| [s.index as u32, s.start as u32, s.len as u32];
        let ok = held(refusal, &bytes, |out, at| {
            proved::encode_root(out, at, numbers(open), numbers(close), count as u32, kind as u32, children)
        });
        tally.case(ok && own, || format!("root {t:?} children {children} {refusal:?} {bytes:02x?}"));
    }
}

/// Tables, and the source's buffer over them with one tree at its front.
pub struct Tables {
    parts: Vec<[u32; 3]>,
    part_words: Vec<u32>,
    symbols: Vec<u32>,
    top: TopSubtree,
}

/// So many parts, the root's two among them, and 10,000 symbols.
pub fn tables(parts: u32) -> Tables {
    let parts: Vec<[u32; 3]> = (0..parts).map(|i| [i, i % 7, i % 3]).collect();
    let symbols: Vec<u32> = (0..10000).map(|i| 3 * i + 5).collect();
    Tables { part_words: parts.concat(), top: TopSubtree::of(0, &[], &parts, &symbols), parts, symbols }
}

impl Tables {
    pub fn part_words(&self) -> &[u32] {
        &self.part_words
    }

    pub fn symbols(&self) -> &[u32] {
        &self.symbols
    }

    /// The source's buffer.
    pub fn source(&self) -> &TopSubtree {
        &self.top
    }

    /// The tree that the source reads.
    pub fn put(&mut self, tree: &[u8]) {
        self.top.set_bytes(&[tree, &[0; 64]].concat());
    }
}

/// Every reading of tree n at a place against the plain one, and against the source where it is admitted.
pub fn reads_alike(t: &Tables, bytes: &[u8], at: usize, n: u32) -> bool {
    let mut got = [0xAAAA; 17];
    let short = proved::decode_tree(bytes, &t.part_words, &t.symbols, n, at, &mut got[..16]) == Err(6) && got == [0xAAAA; 17];
    let reply = proved::decode_tree(bytes, &t.part_words, &t.symbols, n, at, &mut got);
    short && match plain::read(bytes, at, n.into(), t.parts.len() as u64, t.symbols.len() as u64) {
        Err(number) => reply == Err(number) && got == [0xAAAA; 17],
        Ok(read) => {
            let want = plain::words(&read.tree, &t.parts, &t.symbols);
            let mut walk = t.top.walk_from(0);
            let (source, source_children) = walk.decode();
            let (report, behind) = reports::tree(&t.top, 0);
            reply == Ok(read.next)
                && got[..13] == want
                && u64::from(got[13]) == read.children
                && got[14..] == read.report
                && words::words(&source) == want
                && u64::from(source_children) == read.children
                && report == read.report
                && [walk.place(), behind] == [read.next as usize - at; 2]
        }
    }
}

/// One tree over tables of every size about row 1's bounds: 1 outside them, else what is read.
pub fn sizes(tally: &mut Tally) {
    let mut root = [0; 33];
    root[..5].copy_from_slice(&[0, 0x40, 0, 0, 1]);
    root[12] = 0x1D;
    root[13..18].copy_from_slice(&[0, 0x40, 0, 0, 1]);
    let (most, many) = (3 * 2097152, 1048576);
    let (parts, symbols) = (vec![9; most + 3], vec![9; many + 1]);
    for part_words in (0..12).chain(most - 1..most + 4) {
        for count in [0, 1, many, many + 1] {
            for n in [0, 1] {
                let mut got = [0xAAAA; 17];
                let reply = proved::decode_tree(&root, &parts[..part_words], &symbols[..count], n, 0, &mut got);
                let sized = part_words % 3 == 0 && (6..=most).contains(&part_words) && count <= many;
                let want = plain::read(&root, 0, n.into(), part_words as u64 / 3, count as u64);
                let same = match want {
                    _ if !sized => reply == Err(1) && got == [0xAAAA; 17],
                    Err(number) => reply == Err(number) && got == [0xAAAA; 17],
                    Ok(read) => reply == Ok(read.next) && got[14..] == read.report,
                };
                tally.case(same, || format!("tree {n} over {part_words} part words, {count} symbols: {reply:?}"));
            }
        }
    }
}

/// Trees read in every form, the writer's choice or not, each also cut short at every byte and with a byte changed.
pub fn read(tally: &mut Tally, trees: u64) {
    let mut r = Random::new(4);
    let mut t = tables(40002);
    for i in 0..trees {
        let root = i % 16 == 0;
        let how = loose(&mut r);
        let (parts, symbols) = if r.one_in(20) { (40010, 10010) } else { (39999, 9999) };
        let tree = tree(&mut r, parts, symbols);
        let children = r.near(&BYTES, LAST);
        let how = if root { Loose { span: 12, close: 12, forms: 9, ..how } } else { how };
        if matches!(tree, Tree::Literal { kind, .. } if kind > 31) || matches!(tree, Tree::Punct { char, .. } if char > LAST) {
            continue;
        }
        let mut bytes = plain::write(&tree, children, how);
        if !root {
            let written = plain::write(&tree, children, Loose::default()).len();
            tally.case(written <= bytes.len(), || format!("{tree:?} in {} bytes, written in {written}", bytes.len()));
        }
        let n = if root { 0 } else { 1 + r.below(3) as u32 };
        let at = r.below(4) as usize;
        let whole = bytes.len();
        t.put(&bytes);
        for cut in 0..=whole + 1 {
            // at whole + 1 one byte is changed
            if cut == whole + 1 {
                let place = r.below(whole as u64) as usize;
                bytes[place] ^= 1 << r.below(8);
                t.put(&bytes);
            }
            let mut buffer = vec![0x5A; at];
            buffer.extend(&bytes[..cut.min(whole)]);
            tally.case(reads_alike(&t, &buffer, at, n), || format!("tree {n} at {at} of {buffer:02x?}"));
        }
    }
}
