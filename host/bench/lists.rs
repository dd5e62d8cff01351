//! Tables and writing of whole lists. Few entries are 12 parts and 400 symbols, many 20,000 and 60,000.
use crate::list::{Shape, list_of};
use crate::proved;
use crate::timing::row;
use crate::words;
use std::hint::black_box;
use tt::{TokenTree, TopSubtree};

/// One list, what the source makes of it, and the runs lent for it.
struct Input {
    words: Vec<u32>,
    trees: Vec<TokenTree>,
    top: TopSubtree,
    parts: Vec<u32>,
    symbols: Vec<u32>,
    runs: [Vec<u32>; 4],
    work: Vec<u32>,
    out: Vec<u8>,
}

impl Input {
    fn new(shape: &Shape, seed: u64) -> Input {
        let list = list_of(shape, seed);
        let trees: Vec<TokenTree> = list.chunks(13).map(words::tree).collect();
        let top = TopSubtree::from_serialized(trees.clone());
        let n = trees.len();
        Input {
            parts: top.part_list().concat(),
            symbols: top.symbol_list(),
            words: list,
            trees,
            top,
            runs: [vec![0; 6 * n + 6], vec![0; 2 * n], vec![0; n], vec![0; n]],
            work: vec![0; n + 1],
            out: vec![0; 41 * n],
        }
    }

    fn make(&mut self) -> (usize, usize) {
        let [a, b, c, d] = &mut self.runs;
        let (parts, symbols) = proved::tables(&self.words, a, b, c, d).unwrap();
        (parts as usize, symbols as usize)
    }
}

/// The lists of one shape in turn: of short ones so many that the processor does not learn them by heart.
fn one(shape: &Shape, name: &str) {
    let count = (300_000 / shape.trees).clamp(1, 300);
    let mut inputs: Vec<Input> = (0..count).map(|seed| Input::new(shape, 5 + seed as u64)).collect();
    let n = count * shape.trees;
    let lists: Vec<Vec<TokenTree>> = inputs.iter().map(|i| i.trees.clone()).collect();

    row(
        &format!("tables, {name}"),
        n,
        || {
            for i in &mut inputs {
                black_box(i.make());
            }
        },
        || (),
        |()| {
            for list in &lists {
                black_box(TopSubtree::counts(&list[1..]));
            }
        },
    );

    let maps: Vec<_> = inputs.iter().map(|i| TopSubtree::maps(&i.top.part_list(), &i.symbols)).collect();
    let written = row(
        &format!("writing over given tables, {name}"),
        n,
        || {
            for i in &mut inputs {
                black_box(proved::encode_list(&i.words, &i.parts, &i.symbols, &mut i.work, &mut i.out).unwrap());
            }
        },
        || lists.clone(),
        |lists| {
            for (list, maps) in lists.into_iter().zip(&maps) {
                black_box(TopSubtree::encode_list(list, maps));
            }
        },
    );
    assert!(!written || inputs.iter().all(|i| i.out[..i.top.bytes().len()] == *i.top.bytes()));

    row(
        &format!("tables and writing, {name}"),
        n,
        || {
            for i in &mut inputs {
                let (p, s) = i.make();
                let (parts, symbols) = (&i.runs[0][..3 * p], &i.runs[2][..s]);
                black_box(proved::encode_list(&i.words, parts, symbols, &mut i.work, &mut i.out).unwrap());
            }
        },
        || lists.clone(),
        |lists| {
            for list in lists {
                black_box(TopSubtree::from_serialized(list));
            }
        },
    );
}

/// Starts begin again at 60,000, or grow: then spans of four bytes give way to longer ones.
pub fn run() {
    for trees in [1_000, 30_000, 200_000, 1_048_576] {
        for (tables, parts, symbols) in [("few", 12, 400), ("many", 20_000, 60_000)] {
            one(&Shape { trees, parts, symbols, wrap: 60_000 }, &format!("{trees} trees, {tables} entries"));
            one(&Shape { trees, parts, symbols, wrap: u32::MAX }, &format!("{trees} trees, {tables} entries, growing starts"));
        }
    }
}
