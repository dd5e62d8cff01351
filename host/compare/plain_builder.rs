//! The scope paper's builder, a second time, without regard to speed.
use crate::plain_list::{self, Refusal, TREES};
use crate::proved::Builder;
use crate::steps::Step;

fn fits(span: &[u32]) -> bool {
    span[3].checked_add(span[4]).is_some()
}

/// Row 2 of the words of a leaf.
fn leaf_fits(words: &[u32; 13]) -> bool {
    words[0] != 3 && plain_list::fields(words)
}

fn subtree_words(kind: u32, open: &[u32], close: &[u32]) -> [u32; 13] {
    let mut words = [3, 0, kind, 0, 0, 0, 0, 0, 0, 0, 0, 0, 0];
    words[3..8].copy_from_slice(open);
    words[8..].copy_from_slice(close);
    words
}

/// A refused one is a builder of no trees.
pub fn new(list: &mut [u32], kind: u32, spans: &[u32; 10]) -> (Result<(), Refusal>, Builder) {
    let mut b = Builder { count: 0, depth: 0, opened: [0; 256] };
    if kind > 3 || !fits(&spans[..5]) || !fits(&spans[5..]) {
        return (Err((2, 0)), b);
    }
    if list.len() < 13 {
        return (Err((6, 0)), b);
    }
    list[..13].copy_from_slice(&subtree_words(kind, &spans[..5], &spans[5..]));
    b.count = 1;
    (Ok(()), b)
}

/// Row 10.
pub fn disagrees(b: &Builder, list: &[u32]) -> bool {
    let count = b.count as usize;
    if count == 0 || count > TREES || count > list.len() / 13 || b.depth > 255 || list[0] != 3 {
        return true;
    }
    let open = &b.opened[..b.depth];
    let rising = open.windows(2).all(|w| w[0] < w[1]);
    let subtrees = open.iter().all(|&m| 1 <= m && m < b.count && list[13 * m as usize] == 3);
    !(rising && subtrees)
}

/// One more tree: rows 1 and 6.
fn add(b: &mut Builder, list: &mut [u32], words: [u32; 13]) -> Result<(), Refusal> {
    let n = b.count as usize;
    if n == TREES {
        return Err((1, n as u64));
    }
    if n == list.len() / 13 {
        return Err((6, n as u64));
    }
    list[13 * n..13 * n + 13].copy_from_slice(&words);
    b.count += 1;
    Ok(())
}

pub fn step(b: &mut Builder, list: &mut [u32], step: &Step) -> Result<(), Refusal> {
    let count = u64::from(b.count);
    if let Step::Restore(point) = *step {
        return restore(b, list, point);
    }
    if disagrees(b, list) {
        return Err((10, count));
    }
    match step {
        Step::Push(words) => {
            if !leaf_fits(words) {
                return Err((2, count));
            }
            add(b, list, *words)
        }
        Step::Open(kind, span) => {
            if *kind > 3 || !fits(span) {
                return Err((2, count));
            }
            if b.depth == 255 {
                return Err((4, count));
            }
            add(b, list, subtree_words(*kind, span, span))?;
            b.opened[b.depth] = count as u32;
            b.depth += 1;
            Ok(())
        }
        Step::Close(span) => {
            if b.depth == 0 {
                return Err((10, count));
            }
            if !fits(span) {
                return Err((2, count));
            }
            b.depth -= 1;
            let m = b.opened[b.depth] as usize;
            list[13 * m + 1] = b.count - 1 - m as u32;
            list[13 * m + 8..13 * m + 13].copy_from_slice(span);
            Ok(())
        }
        Step::Restore(_) => unreachable!(),
    }
}

pub fn point(b: &Builder, list: &[u32]) -> Result<[u32; 2], Refusal> {
    if disagrees(b, list) { Err((10, 0)) } else { Ok([b.count, b.depth as u32]) }
}

/// Whether a closed subtree before a point reaches past it.
pub fn reaches_past(b: &Builder, list: &[u32], trees: u32) -> bool {
    let open = &b.opened[..b.depth];
    (1..u64::from(trees)).any(|i| {
        let w = &list[13 * i as usize..];
        w[0] == 3 && !open.contains(&(i as u32)) && i + 1 + u64::from(w[1]) > trees.into()
    })
}

fn restore(b: &mut Builder, list: &[u32], [trees, opens]: [u32; 2]) -> Result<(), Refusal> {
    if disagrees(b, list) {
        return Err((10, 0));
    }
    if trees == 0 {
        return Err((11, 0));
    }
    if trees >= b.count {
        return Ok(());
    }
    let before = b.opened[..b.depth].iter().filter(|&&m| m < trees).count();
    if reaches_past(b, list, trees) || before != opens as usize {
        return Err((11, 0));
    }
    (b.count, b.depth) = (trees, before);
    Ok(())
}

/// The list that is written.
pub fn list_to_build(b: &Builder, list: &[u32], skip: bool) -> Result<Vec<u32>, Refusal> {
    if disagrees(b, list) || b.depth > 0 {
        return Err((10, 0));
    }
    let trees = &list[..13 * b.count as usize];
    if skip && b.count >= 2 && trees[13] == 3 && trees[14] == b.count - 2 {
        return Ok(trees[13..].to_vec());
    }
    let mut whole = trees.to_vec();
    whole[1] = b.count - 1;
    Ok(whole)
}
