//! The scope paper's rows, tables and writer for whole lists, a second time, without regard to speed.
use crate::plain::{self, LAST, Loose, Span, Tree};
use std::collections::HashMap;

pub const TREES: usize = 1048576;

/// A refusal's number and the tree that it names.
pub type Refusal = (u64, u64);

fn at(list: &[u32], n: usize) -> &[u32] {
    &list[13 * n..13 * n + 13]
}

/// The tree of 13 words, with indices that mean nothing yet.
fn tree(w: &[u32]) -> Tree {
    let [a, b] = [w[1], w[2]].map(u64::from);
    let span = |from: usize, index: u64| Span { index, start: w[from + 3].into(), len: w[from + 4].into() };
    match w[0] {
        0 => Tree::Punct { span: span(3, 0), char: a, spacing: b },
        1 => Tree::Ident { span: span(3, 0), symbol: 0, raw: b },
        2 => Tree::Literal { span: span(3, 0), symbol: 0, kind: b % 256, raw_count: b / 256 % 256, suffix: b / 65536 },
        _ => Tree::Subtree { open: span(3, 0), close: span(8, 0), count: a, kind: b },
    }
}

/// Row 2 of one tree.
pub fn fields(w: &[u32]) -> bool {
    w[0] <= 3 && plain::in_range(&tree(w)) && (w[0] == 3 || w[8..] == [0; 5])
}

/// Row 1 of the list alone.
pub fn sized(list: &[u32]) -> bool {
    list.len() % 13 == 0 && (1..=TREES).contains(&(list.len() / 13))
}

/// Rows 2 to 4.
pub fn rules(list: &[u32]) -> Result<(), Refusal> {
    let k = list.len() / 13;
    if let Some(n) = (0..k).find(|&n| !fields(at(list, n))) {
        return Err((2, n as u64));
    }
    let counts: Vec<Option<u64>> = list.chunks(13).map(|w| (w[0] == 3).then(|| w[1].into())).collect();
    nest(&counts)
}

/// Rows 3 and 4, by each tree's descendants if it is a subtree.
pub fn nest(counts: &[Option<u64>]) -> Result<(), Refusal> {
    if counts[0] != Some(counts.len() as u64 - 1) {
        return Err((3, 0));
    }
    let mut ends: Vec<u64> = Vec::new();
    for (n, count) in (0..).zip(counts) {
        while ends.last().is_some_and(|&e| e <= n) {
            ends.pop();
        }
        if let Some(count) = count {
            let end = n + 1 + count;
            if ends.last().is_some_and(|&e| e < end) {
                return Err((3, n));
            }
            if ends.len() == 256 {
                return Err((4, n));
            }
            ends.push(end);
        }
    }
    Ok(())
}

// ---- tables

pub struct Tables {
    pub parts: Vec<[u32; 3]>,
    pub part_counts: Vec<u32>,
    pub symbols: Vec<u32>,
    pub symbol_counts: Vec<u32>,
}

/// Distinct keys with their counts: first appearance, above the limit falling count.
fn table<K: Copy + Eq + std::hash::Hash>(keys: impl Iterator<Item = K>, limit: usize) -> Vec<(K, u32)> {
    let mut ranks: HashMap<K, usize> = HashMap::new();
    let mut table: Vec<(K, u32)> = Vec::new();
    for key in keys {
        let rank = *ranks.entry(key).or_insert(table.len());
        if rank == table.len() {
            table.push((key, 0));
        }
        table[rank].1 += 1;
    }
    if table.len() > limit {
        // stable: ties keep their order
        table.sort_by_key(|&(_, count)| std::cmp::Reverse(count));
    }
    table
}

fn part(w: &[u32], from: usize) -> [u32; 3] {
    [w[from], w[from + 1], w[from + 2]]
}

/// The tables of a list that rows 1 to 4 pass.
pub fn tables(list: &[u32]) -> Tables {
    let below = || list.chunks(13).skip(1);
    let parts = table(below().flat_map(|w| [Some(part(w, 3)), (w[0] == 3).then(|| part(w, 8))]).flatten(), 15);
    let symbols = table(below().filter(|w| w[0] == 1 || w[0] == 2).map(|w| w[1]), 63);
    Tables {
        part_counts: parts.iter().map(|&(_, n)| n).collect(),
        parts: parts.into_iter().map(|(p, _)| p).chain([part(list, 3), part(list, 8)]).collect(),
        symbol_counts: symbols.iter().map(|&(_, n)| n).collect(),
        symbols: symbols.into_iter().map(|(s, _)| s).collect(),
    }
}

// ---- writer

pub struct Written {
    pub work: Vec<u32>,
    pub bytes: Vec<u8>,
}

fn first_places<K: Copy + Eq + std::hash::Hash>(keys: impl Iterator<Item = K>) -> HashMap<K, u64> {
    let mut places = HashMap::new();
    for (i, key) in keys.enumerate() {
        places.entry(key).or_insert(i as u64);
    }
    places
}

/// Rows 1 to 5, then the work words and the bytes.
pub fn write(list: &[u32], part_words: &[u32], symbols: &[u32]) -> Result<Written, Refusal> {
    Ok(bytes(&trees(list, part_words, symbols)?, &mut Loose::default))
}

/// The trees with their indices, where rows 1 to 5 pass.
pub fn trees(list: &[u32], part_words: &[u32], symbols: &[u32]) -> Result<Vec<Tree>, Refusal> {
    let parts: Vec<[u32; 3]> = part_words.chunks_exact(3).map(|w| part(w, 0)).collect();
    if !sized(list) || part_words.len() % 3 != 0 || !(2..=2 * TREES).contains(&parts.len()) || symbols.len() > TREES {
        return Err((1, 0));
    }
    rules(list)?;
    let k = list.len() / 13;
    if parts[parts.len() - 2..] != [part(list, 3), part(list, 8)] {
        return Err((5, 0));
    }
    let part_places = first_places(parts[..parts.len() - 2].iter().copied());
    let symbol_places = first_places(symbols.iter().copied());
    let mut trees = Vec::new();
    for n in 0..k {
        let w = at(list, n);
        let mut t = tree(w);
        let found = (|| {
            match &mut t {
                Tree::Punct { span, .. } => span.index = *part_places.get(&part(w, 3))?,
                Tree::Ident { span, symbol, .. } | Tree::Literal { span, symbol, .. } => {
                    span.index = *part_places.get(&part(w, 3))?;
                    *symbol = *symbol_places.get(&w[1])?;
                }
                Tree::Subtree { open, close, .. } if n == 0 => {
                    (open.index, close.index) = (parts.len() as u64 - 2, parts.len() as u64 - 1);
                }
                Tree::Subtree { open, close, .. } => {
                    open.index = *part_places.get(&part(w, 3))?;
                    close.index = *part_places.get(&part(w, 8))?;
                }
            }
            Some(())
        })();
        found.ok_or((5, n as u64))?;
        trees.push(t);
    }
    Ok(trees)
}

/// Work words and bytes; how each tree below the root is written is asked for, from the last to the first.
pub fn bytes(trees: &[Tree], how: &mut dyn FnMut() -> Loose) -> Written {
    let k = trees.len();
    let mut work = vec![0u32; k + 1];
    let mut pieces = Vec::new();
    for n in (0..k).rev() {
        let piece = match trees[n] {
            Tree::Subtree { open, close, count, kind } => {
                let children = u64::from(work[n + 1] - work[n + 1 + count as usize]);
                if n == 0 { plain::write_root(open, close, count, kind, children) } else { plain::write(&trees[n], children, how()) }
            }
            leaf => plain::write(&leaf, 0, how()),
        };
        work[n] = work[n + 1] + piece.len() as u32;
        pieces.push(piece);
    }
    pieces.reverse();
    assert!(u64::from(work[0]) <= LAST);
    Written { work, bytes: pieces.concat() }
}
