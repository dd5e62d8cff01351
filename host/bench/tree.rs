//! One span, one tree.
use crate::list::{Shape, list};
use crate::proved;
use crate::random::Random;
use crate::timing::row;
use crate::words;
use std::hint::black_box;
use tt::TopSubtree;

const MANY: usize = 1_000_000;

pub fn spans() {
    let mut r = Random::new(6);
    let forms: [(&str, [u64; 3], [u64; 3]); 3] = [
        ("4", [0, 0, 0], [16, 1 << 17, 256]),
        ("8", [0, 1 << 17, 0], [1 << 15, (1 << 27) - (1 << 17), 1 << 18]),
        ("12", [0, 1 << 27, 0], [1 << 20, 1 << 30, 1 << 20]),
    ];
    for (bytes, least, range) in forms {
        let spans: Vec<[u32; 3]> = (0..MANY).map(|_| std::array::from_fn(|i| (least[i] + r.below(range[i])) as u32)).collect();
        let mut out = vec![0; 12 * MANY];
        let mut written = 0;
        row(
            &format!("span of {bytes} bytes, written"),
            MANY,
            || {
                let mut at = 0;
                for &span in &spans {
                    at += proved::encode_span(&mut out, at, span, 0, false).unwrap() as usize;
                }
                written = at;
            },
            || (),
            |()| _ = black_box(TopSubtree::encode_spans(&spans)),
        );
        let packed = out[..written].to_vec();
        row(
            &format!("span of {bytes} bytes, read"),
            MANY,
            || {
                let (mut at, mut sum, mut w) = (0, 0, [0; 5]);
                while at < packed.len() {
                    at = proved::decode_span(&packed, at, &mut w).unwrap() as usize;
                    sum += u64::from(w[0]) + u64::from(w[1]) + u64::from(w[2]);
                }
                black_box(sum);
            },
            || (),
            |()| _ = black_box(TopSubtree::decode_spans(&packed)),
        );
    }
}

pub fn trees() {
    let words_of = list(&Shape { trees: 30_000, parts: 12, symbols: 400, wrap: 60_000 });
    let trees: Vec<[u32; 13]> = words_of.chunks(13).map(|w| w.try_into().unwrap()).collect();
    let top = TopSubtree::from_serialized(trees.iter().map(|w| words::tree(w)).collect());
    let (parts, symbols) = (top.part_list(), top.symbol_list());
    let part_words = parts.concat();
    let n = trees.len();
    row(
        "tree, read one by one",
        n,
        || {
            let (mut at, mut w) = (0, [0; 17]);
            for i in 0..n {
                at = proved::decode_tree(top.bytes(), &part_words, &symbols, i as u32, at, &mut w).unwrap() as usize;
                black_box(&w);
            }
            assert_eq!(at, top.bytes().len());
        },
        || (),
        |()| {
            let mut walk = top.walk_from(0);
            while let Some(tree) = walk.advance() {
                black_box(&tree);
            }
        },
    );
    // indices and children bytes are at hand here; the source looks each index up in a map
    let maps = TopSubtree::maps(&parts, &symbols);
    let index = |w: &[u32]| parts.iter().position(|p| p == w).unwrap_or(0) as u32;
    let symbol = |s: u32| symbols.iter().position(|&x| x == s).unwrap_or(0) as u32;
    let (_, after) = TopSubtree::encode_list(trees.iter().map(|w| words::tree(w)).collect(), &maps);
    let ready: Vec<([u32; 13], [u32; 3], u32)> = (1..n)
        .map(|i| {
            let w = trees[i];
            let children = if w[0] == 3 { after[i + 1] - after[i + 1 + w[1] as usize] } else { 0 };
            (w, [index(&w[3..6]), if w[0] == 3 { index(&w[8..11]) } else { 0 }, symbol(w[1])], children)
        })
        .collect();
    let mut out = vec![0; top.bytes().len()];
    let list: Vec<_> = trees.iter().map(|w| words::tree(w)).collect();
    let written = row(
        "tree, written one by one",
        n,
        || {
            let mut at = 33;
            for (w, indices, children) in &ready {
                at += proved::encode_tree(&mut out, at, w, *indices, *children).unwrap() as usize;
            }
            assert_eq!(at, top.bytes().len());
        },
        || list.clone(),
        |list| _ = black_box(TopSubtree::encode_list(list, &maps)),
    );
    assert!(!written || out[33..] == top.bytes()[33..]);
}
