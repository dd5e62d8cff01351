//! Buffers put in order, as the writer made them and with every span in twelve bytes. Beside it our check, our walk and our writing over the
//! same tables: tidying reads and writes as these do, one after the other. The runs are lent again and again. The source reads the trees and
//! writes them over maps that are made outside the time.
use crate::buffers::{Buffer, Case, cases, loose_cases};
use crate::proved::{self, work_words};
use crate::replace::list_of;
use crate::timing::{asked, best, printed};
use crate::walks::walk_all;
use crate::words;
use std::hint::black_box;
use tt::TopSubtree;

/// How much of the writing's time tidying may take beside the check's and the walk's.
const SHARE: f64 = 1.05;

fn one(case: &Case) {
    if !asked(&format!("tidy, {}", case.name)) {
        return;
    }
    let buffers = &case.buffers;
    let most = buffers.iter().map(|b| b.trees as usize).max().unwrap();
    let (mut work, mut out) = (work_words(most).map(|n| vec![0; n]), vec![0; 33 * most]);
    let (mut sizes, mut written) = (vec![0; most + 1], vec![0; 33 * most]);
    let lists: Vec<Vec<u32>> = buffers.iter().map(|b| list_of(&b.top).concat()).collect();
    let maps: Vec<_> = buffers.iter().map(|b| TopSubtree::maps(&b.top.part_list(), &b.symbols)).collect();
    let source = |i: usize| TopSubtree::encode_list(words::trees(&buffers[i].top), &maps[i]).0;
    for (i, b) in buffers.iter().enumerate() {
        let bytes = proved::tidy(b.lent(), &mut work, &mut out).unwrap();
        assert!(out[..bytes] == *source(i));
    }
    let times = best([
        &mut || buffers.iter().for_each(|b| _ = black_box(proved::tidy(b.lent(), &mut work, &mut out).unwrap())),
        &mut || buffers.iter().for_each(Buffer::check),
        &mut || _ = black_box(buffers.iter().map(walk_all).fold(0, u64::wrapping_add)),
        &mut || {
            for (b, list) in buffers.iter().zip(&lists) {
                black_box(proved::encode_list(list, &b.parts, &b.symbols, &mut sizes, &mut written).unwrap());
            }
        },
        &mut || (0..buffers.len()).for_each(|i| _ = black_box(source(i))),
    ]);
    rows(case, times);
}

/// Ours beside the source's, then beside what is allowed.
fn rows(case: &Case, [ours, check, walk, writing, source]: [f64; 5]) {
    let (name, units) = (&case.name, case.trees());
    let [a, b, c] = [check, walk, writing].map(|time| time / units as f64);
    printed(&format!("tidy, {name}"), units, ours, source);
    let allowed = format!("tidy beside our check ({a:.2}), walk ({b:.2}) and {SHARE} of writing ({c:.2}), {name}");
    printed(&allowed, units, ours, check + walk + SHARE * writing);
}

pub fn run() {
    let sizes = [(1_000, 300), (30_000, 1), (1_048_576, 1)];
    cases(&sizes).for_each(|case| one(&case));
    loose_cases(&sizes).for_each(|case| one(&case));
}
