//! Lists: the source's tables, bytes and counts; then what it answers over those bytes, and over the same list in other forms.
use crate::buffers;
use crate::maker::{Maker, loose};
use crate::plain_list;
use crate::text::Text;
use crate::words;
use tt::TopSubtree;

const SMALL: usize = 30;

fn parts_of(top: &TopSubtree) -> Vec<u32> {
    top.part_list().concat()
}

/// The list, the source's tables, its bytes and the sizes that it keeps while it writes, from tree 1 on.
fn written(text: &mut Text, list: &[u32]) -> TopSubtree {
    let trees: Vec<_> = list.chunks(13).map(words::tree).collect();
    text.line("list");
    text.number(trees.len());
    list.chunks(13).for_each(|w| text.tree(w));
    let top = TopSubtree::from_serialized(trees.clone());
    let (parts, symbols) = (top.part_list(), top.symbol_list());
    text.line("tables");
    text.number(parts.len());
    text.numbers(&parts.concat());
    text.number(symbols.len());
    text.numbers(&symbols);
    let (bytes, after) = TopSubtree::encode_list(trees, &TopSubtree::maps(&parts, &symbols));
    assert_eq!(*bytes, *top.bytes());
    text.line("bytes");
    text.bytes(&bytes);
    text.line("sizes");
    text.numbers(&after[1..]);
    top
}

/// Parts and symbols below the root with their counts, sorted: the source's order is that of its hashes.
fn counts(text: &mut Text, list: &[u32]) {
    let below: Vec<_> = list.chunks(13).skip(1).map(words::tree).collect();
    let (mut parts, mut symbols) = TopSubtree::counts(&below);
    (parts.sort(), symbols.sort());
    text.line("counts");
    text.number(parts.len());
    for (part, n) in parts {
        text.numbers(&part);
        text.number(n);
    }
    text.number(symbols.len());
    for (symbol, n) in symbols {
        text.number(symbol);
        text.number(n);
    }
}

/// The same list and tables, each tree in any form that holds it.
fn rewritten(text: &mut Text, m: &mut Maker, list: &[u32], top: &TopSubtree) -> TopSubtree {
    let (parts, symbols) = (parts_of(top), top.symbol_list());
    let trees = plain_list::trees(list, &parts, &symbols).expect("a list that rows 1 to 5 pass");
    let bytes = plain_list::bytes(&trees, &mut || loose(&mut m.r)).bytes;
    text.line("loose");
    text.bytes(&bytes);
    TopSubtree::of(trees.len(), &bytes, &top.part_list(), &symbols)
}

fn one(text: &mut Text, m: &mut Maker, list: &[u32]) {
    let top = written(text, list);
    counts(text, list);
    buffers::read(text, &mut m.r, &top);
    buffers::rewritten(text, &mut m.r, &top);
    if list.len() <= 13 * SMALL {
        let top = rewritten(text, m, list, &top);
        buffers::read(text, &mut m.r, &top);
    }
}

/// Small lists; beside them some at the limits of a subtree's children bytes, and the deepest nesting.
pub fn run(text: &mut Text) {
    let (mut small, mut large, mut seed) = (0, 0, 0);
    while small < 300 {
        let mut m = Maker::new(seed);
        let list = if seed % 8 == 0 { m.limit_list() } else { m.list() };
        let trees = list.len() / 13;
        if trees <= SMALL || (trees < 300 && large < 16) {
            one(text, &mut m, &list);
            if trees <= SMALL { small += 1 } else { large += 1 }
        }
        seed += 1;
    }
    let mut m = Maker::new(seed);
    let deepest = m.nested(256);
    one(text, &mut m, &deepest);
}
