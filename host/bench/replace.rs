//! One leaf exchanged: an ident in the middle of a list gets a new symbol. Ours begins with the check of the buffer. Its runs are lent again
//! and again, as a host would do it; the source makes its own in the call. Then the size before, beside the exchange: the source has none.
use crate::buffers::{Buffer, Case, cases};
use crate::proved::{self, Lent, Runs, work_words};
use crate::timing::{asked, best, printed, rows_with};
use crate::words;
use std::hint::black_box;
use tt::{Leaf, TokenTree, TopSubtree};

/// Symbols of the lists begin at 1000.
const NEW: u32 = 999;

struct Input<'a> {
    buffer: &'a Buffer,
    number: u32,
    words: [u32; 13],
    leaf: Leaf,
}

pub fn list_of(top: &TopSubtree) -> Vec<[u32; 13]> {
    words::trees(top).iter().map(words::words).collect()
}

/// The first ident behind the middle.
fn input(buffer: &Buffer) -> Input<'_> {
    let list = list_of(&buffer.top);
    let number = (list.len() / 2..list.len()).find(|&n| list[n][0] == 1).expect("an ident");
    let mut words = list[number];
    words[1] = NEW;
    let TokenTree::Leaf(leaf) = words::tree(&words) else { unreachable!() };
    Input { buffer, number: number as u32, words, leaf }
}

/// Ours reads as the source's.
fn same(i: &Input<'_>, runs: &mut Runs) -> bool {
    let [bytes, parts, symbols] = proved::set_token(i.buffer.lent(), i.number, &i.words, runs).unwrap();
    let (bytes, parts, symbols) = (&runs.bytes[..bytes], &runs.parts[..3 * parts], &runs.symbols[..symbols]);
    proved::check_buffer(bytes, i.buffer.trees, parts, symbols).unwrap();
    let part_list: Vec<[u32; 3]> = parts.chunks(3).map(|w| [w[0], w[1], w[2]]).collect();
    let mut top = i.buffer.top.clone();
    top.set_token(i.number as usize, i.leaf.clone());
    list_of(&TopSubtree::of(i.buffer.trees as usize, bytes, &part_list, symbols)) == list_of(&top)
}

/// Enough for so many trees.
fn runs(trees: usize) -> Runs {
    let work = work_words(trees).map(|n| vec![0; n]);
    Runs { work, bytes: vec![0; 33 * trees], parts: vec![0; 6 * trees], symbols: vec![0; trees] }
}

fn one(case: &Case) {
    let inputs: Vec<Input<'_>> = case.buffers.iter().map(input).collect();
    let most = case.buffers.iter().map(|b| b.trees as usize).max().unwrap();
    let mut runs = runs(most);
    assert!(inputs.iter().all(|i| same(i, &mut runs)));
    rows_with(
        ["set_token", &case.name],
        case.trees(),
        || {
            for i in &inputs {
                let lent: Lent<'_> = i.buffer.lent();
                black_box(proved::set_token(lent, i.number, &i.words, &mut runs).unwrap());
            }
        },
        ("our check", || inputs.iter().for_each(|i| i.buffer.check())),
        || inputs.iter().map(|i| (i.buffer.top.clone(), i.leaf.clone())).collect::<Vec<_>>(),
        |tops| {
            for (i, (top, leaf)) in inputs.iter().zip(tops) {
                top.set_token(i.number as usize, leaf.clone());
            }
        },
    );
}

/// The preview beside replacing, in turn.
fn preview(case: &Case) {
    let what = format!("preview beside set_token, {}", case.name);
    if !asked(&what) {
        return;
    }
    let inputs: Vec<Input<'_>> = case.buffers.iter().map(input).collect();
    let most = case.buffers.iter().map(|b| b.trees as usize).max().unwrap();
    let (mut runs, mut work) = (runs(most), work_words(most).map(|n| vec![0; n]));
    for i in &inputs {
        let told = proved::preview(i.buffer.lent(), i.number, &i.words, &mut work);
        assert_eq!(told, proved::set_token(i.buffer.lent(), i.number, &i.words, &mut runs));
    }
    let [before, after] = best([
        &mut || inputs.iter().for_each(|i| _ = black_box(proved::preview(i.buffer.lent(), i.number, &i.words, &mut work).unwrap())),
        &mut || inputs.iter().for_each(|i| _ = black_box(proved::set_token(i.buffer.lent(), i.number, &i.words, &mut runs).unwrap())),
    ]);
    printed(&what, case.trees(), before, after);
}

pub fn run() {
    for case in cases(&[(1_000, 300), (30_000, 1), (1_048_576, 1)]) {
        one(&case);
        preview(&case);
    }
}
