//! One leaf of a stored buffer exchanged: the source's new list, and its tables as sets.
use crate::maker::{Maker, loose};
use crate::plain_list;
use crate::stored::{Stored, few_tables};
use crate::tally::panics;
use crate::text::Text;
use crate::words;
use tt::{TokenTree, TopSubtree};

const SMALL: usize = 12;

/// The tree number and the leaf; `!`, or `t`, the list, the parts below the root, sorted, with the root's two behind them, the symbols, sorted.
fn exchanged(text: &mut Text, top: &TopSubtree, number: u32, leaf: &[u32; 13]) {
    text.line("token");
    text.number(number);
    text.tree(leaf);
    let TokenTree::Leaf(leaf) = words::tree(leaf) else { unreachable!() };
    let mut top = top.clone();
    if panics(|| top.set_token(number as usize, leaf)) {
        text.word("!");
        return;
    }
    text.word("t");
    words::trees(&top).iter().for_each(|tree| text.tree(&words::words(tree)));
    let (mut parts, mut symbols) = (top.part_list(), top.symbol_list());
    let below = parts.len() - 2;
    (parts[..below].sort(), symbols.sort());
    text.number(parts.len());
    text.numbers(&parts.concat());
    text.number(symbols.len());
    text.numbers(&symbols);
}

/// Of the list's parts and symbols, or with a new one, or the one that is there.
fn some_leaf(m: &mut Maker, tree: &[u32]) -> [u32; 13] {
    let bytes = m.r.pick(&[4, 4, 8, 12]);
    let mut leaf = m.leaf(bytes);
    match m.r.below(6) {
        0 => leaf[3] = 1 << 24,
        1 if leaf[0] > 0 => leaf[1] = u32::MAX,
        2 if tree[0] < 3 => leaf.copy_from_slice(tree),
        _ => {}
    }
    leaf
}

/// Leaves at places of leaves; one at that of a subtree or past the count.
fn some(text: &mut Text, m: &mut Maker, top: &TopSubtree, list: &[u32], times: usize) {
    let trees = list.len() / 13;
    let at = |n: usize| &list[13 * n..13 * n + 13];
    let (leaves, others): (Vec<usize>, Vec<usize>) = (0..trees).partition(|&n| list[13 * n] < 3);
    for _ in 0..if leaves.is_empty() { 0 } else { times } {
        let number = m.r.pick(&leaves);
        let leaf = some_leaf(m, at(number));
        exchanged(text, top, number as u32, &leaf);
    }
    let past = [trees as u32, trees as u32 + 1, u32::MAX];
    let number = if m.r.one_in(2) { m.r.pick(&others) as u32 } else { m.r.pick(&past) };
    let leaf = some_leaf(m, at(0));
    exchanged(text, top, number, &leaf);
}

/// The source's buffer of a list over its own tables, or one in any form over tables in any order with more entries than are used.
fn one(text: &mut Text, m: &mut Maker, list: &[u32], own: bool, times: usize) {
    let stored = if own {
        Stored::own(list)
    } else {
        let (parts, symbols) = few_tables(m, list);
        let indexed = plain_list::trees(list, &parts, &symbols).expect("a list that rows 1 to 5 pass");
        let bytes = plain_list::bytes(&indexed, &mut || loose(&mut m.r)).bytes;
        Stored { trees: list.len() / 13, parts, symbols, bytes }
    };
    stored.line(text, "buffer");
    some(text, m, &stored.source(), list, times);
}

/// A root around idents: so many, each with a part, a symbol or both of its own, and one that has the first one's.
fn flat(entries: u32, parts: bool, symbols: bool) -> Vec<u32> {
    let idents = (0..=entries).flat_map(|n| {
        let (part, symbol) = (if parts { n % entries } else { 0 }, if symbols { n % entries } else { 0 });
        [1, 100 + symbol, 0, part, 1, 1, n, 1, 0, 0, 0, 0, 0]
    });
    [3, entries + 1, 3, 0, 0, 0, 0, 0, 0, 0, 0, 0, 0].into_iter().chain(idents).collect()
}

/// An entry more in the table, as many, one less.
fn grown_and_shrunk(text: &mut Text, list: &[u32]) {
    let (stored, trees) = (Stored::own(list), list.len() / 13);
    stored.line(text, "buffer");
    let top = stored.source();
    let new = [1, 99, 1, 99, 1, 1, 7, 3, 0, 0, 0, 0, 0];
    exchanged(text, &top, trees as u32 - 1, &new);
    exchanged(text, &top, 2, &new);
    exchanged(text, &top, 2, list[13..26].try_into().unwrap());
}

/// Small lists, then some about the sizes from which tables are sorted, and the deepest nesting.
pub fn run(text: &mut Text) {
    let (mut small, mut seed) = (0, 1_000_000);
    while small < 120 {
        let mut m = Maker::new(seed);
        let list = m.list();
        if list.len() <= 13 * SMALL && (small < 4 || list.chunks(13).any(|w| w[0] < 3)) {
            one(text, &mut m, &list, small % 2 == 0, 3);
            small += 1;
        }
        seed += 1;
    }
    for entries in [14, 15, 16] {
        grown_and_shrunk(text, &flat(entries, true, false));
    }
    for entries in [62, 63, 64] {
        grown_and_shrunk(text, &flat(entries, false, true));
    }
    let mut m = Maker::new(seed);
    let mut deepest = m.nested(256);
    deepest.chunks_mut(13).for_each(|w| w[1] += 1);
    deepest.extend(m.leaf(8));
    one(text, &mut m, &deepest, true, 1);
}
