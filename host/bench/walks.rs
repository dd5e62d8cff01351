//! Walks and cursors to the end of stored buffers. Both sides add up the 13 list words of every tree that is handed back.
use crate::buffers::{Buffer, Case, cases, check, loose, source_walk};
use crate::proved::{self, Lent, REFUSED, Stack};
use crate::timing::short_row;
use crate::words;
use span::Span;
use std::hint::black_box;
use tt::{Leaf, TokenTree, TopSubtree};

const BUMP_OR_END: u32 = 2;
const TOKEN_TREE: u32 = 3;

/// The root's bytes.
const ROOT: usize = 33;

// ---- ours, the loop compiled with its steps as the source's is

mod raw {
    macro_rules! loops {
        ($($name:ident($($more:ident: $kind:ty),*);)*) => {
            unsafe extern "C" {
                $(pub fn $name(
                    b: *const u8, len: usize, trees: u32,
                    parts: *const u32, part_words: usize,
                    symbols: *const u32, symbol_words: usize,
                    $($more: $kind),*
                ) -> u64;)*
            }
        };
    }
    loops! {
        tt_walk_all();
        tt_skip_all(place: usize, number: u32, left: u32);
        tt_cursor_all();
        tt_cursor_by_value_all();
    }
}

macro_rules! whole {
    ($name:ident, $b:expr $(, $more:expr)*) => {{
        let b: &Buffer = $b;
        let (bytes, parts, symbols) = (b.top.bytes(), &b.parts, &b.symbols);
        let sum = unsafe {
            raw::$name(
                bytes.as_ptr(), bytes.len(), b.trees,
                parts.as_ptr(), parts.len(), symbols.as_ptr(), symbols.len()
                $(, $more)*
            )
        };
        assert!(sum < REFUSED);
        sum
    }};
}

/// A walk to the end: the list words added up.
pub fn walk_all(b: &Buffer) -> u64 {
    whole!(tt_walk_all, b)
}

// ---- ours, each step through the C interface

/// From a place to the end; the trees handed back.
fn step_by_step(b: Lent, from: (usize, u32, u32), skip: bool) -> usize {
    let (mut at, mut next, mut words, mut trees) = (from, [0; 3], [0; 16], 0);
    while proved::walk(b, at, skip, &mut next, &mut words).unwrap() == 1 {
        black_box(&words);
        at = (next[0], next[1] as u32, next[2] as u32);
        trees += 1;
    }
    trees
}

/// `token_tree` and `bump_or_end` in turn.
fn cursor_step_by_step(by_value: bool, b: Lent) {
    let (mut at, mut stack, mut next, mut words) = ((0, 0, 0), Stack::EMPTY, [0; 3], [0; 32]);
    while at.1 < b.trees || at.2 > 0 {
        proved::cursor(by_value, b, TOKEN_TREE, at, &mut stack, &mut next, &mut words).unwrap();
        black_box(&words);
        proved::cursor(by_value, b, BUMP_OR_END, at, &mut stack, &mut next, &mut words).unwrap();
        at = (next[0], next[1] as u32, next[2]);
    }
}

// ---- the source's

fn span_sum(s: &Span) -> u64 {
    words::span_words(s).iter().map(|&w| u64::from(w)).sum()
}

/// The list words added up, without making them where that is not needed.
fn sum_of(tree: &TokenTree) -> u64 {
    match tree {
        TokenTree::Leaf(Leaf::Punct(p)) => u64::from(p.char) + p.spacing as u64 + span_sum(&p.span),
        TokenTree::Leaf(Leaf::Ident(i)) => 1 + u64::from(i.sym.0) + i.is_raw as u64 + span_sum(&i.span),
        TokenTree::Leaf(Leaf::Literal(_)) => words::words(tree).iter().map(|&w| u64::from(w)).sum(),
        TokenTree::Subtree(s) => {
            3 + u64::from(s.len) + s.delimiter.kind as u64 + span_sum(&s.delimiter.open) + span_sum(&s.delimiter.close)
        }
    }
}

fn added(sum: u64, tree: &TokenTree) -> u64 {
    (sum + sum_of(tree)) % (1 << 32)
}

fn source_sum(top: &TopSubtree) -> u64 {
    let (mut walk, mut sum) = (top.walk_from(0), 0);
    while let Some(tree) = walk.advance() {
        sum = added(sum, &tree);
    }
    sum
}

fn source_skip_sum(top: &TopSubtree) -> u64 {
    let (mut walk, mut sum) = (top.walk_from(ROOT), 0);
    while let Some(tree) = walk.advance_skip_subtree() {
        sum = added(sum, &tree);
    }
    sum
}

fn source_skip(top: &TopSubtree) -> usize {
    let (mut walk, mut steps) = (top.walk_from(ROOT), 0);
    while let Some(tree) = walk.advance_skip_subtree() {
        black_box(&tree);
        steps += 1;
    }
    steps
}

fn source_cursor_sum(top: &TopSubtree) -> u64 {
    let (mut cursor, mut sum) = (top.as_token_trees().cursor(), 0);
    while !cursor.eof() {
        if let Some(tree) = cursor.token_tree() {
            sum = added(sum, &tree);
        }
        cursor.bump_or_end();
    }
    sum
}

fn source_cursor(top: &TopSubtree) {
    let mut cursor = top.as_token_trees().cursor();
    while !cursor.eof() {
        black_box(&cursor.token_tree());
        cursor.bump_or_end();
    }
}

// ---- rows

fn all(case: &Case, mut f: impl FnMut(&Buffer) -> u64) -> u64 {
    case.buffers.iter().map(|b| f(b)).fold(0, u64::wrapping_add)
}

fn whole(case: &Case) {
    let (name, trees) = (&case.name, case.trees());
    let steps: usize = case.buffers.iter().map(|b| source_skip(&b.top)).sum();
    let walk = walk_all;
    let skip = |b: &Buffer| whole!(tt_skip_all, b, ROOT, 1, b.trees - 1);
    let lent = |b: &Buffer| whole!(tt_cursor_all, b);
    let by_value = |b: &Buffer| whole!(tt_cursor_by_value_all, b);
    let sum = all(case, |b| source_sum(&b.top));
    assert_eq!(all(case, walk), sum);
    assert_eq!(all(case, lent), sum);
    assert_eq!(all(case, by_value), sum);
    assert_eq!(all(case, skip), all(case, |b| source_skip_sum(&b.top)));
    let rows: [(&str, usize, &dyn Fn(&Buffer) -> u64, &dyn Fn(&TopSubtree) -> u64); 4] = [
        ("walk", trees, &walk, &source_sum),
        ("skip", steps, &skip, &source_skip_sum),
        ("cursor lent", trees, &lent, &source_cursor_sum),
        ("cursor by value", trees, &by_value, &source_cursor_sum),
    ];
    for (what, units, ours, source) in rows {
        short_row(&format!("{what}, {name}"), units, || _ = black_box(all(case, ours)), || _ = black_box(all(case, |b| source(&b.top))));
    }
}

/// The source's trees are handed over and not looked at; ours are added up all the same.
fn bare(case: &Case) {
    let (name, trees) = (&case.name, case.trees());
    let steps: usize = case.buffers.iter().map(|b| source_skip(&b.top)).sum();
    let rows: [(&str, usize, &dyn Fn(&Buffer) -> u64, &dyn Fn(&TopSubtree)); 4] = [
        ("walk", trees, &walk_all, &source_walk),
        ("skip", steps, &|b| whole!(tt_skip_all, b, ROOT, 1, b.trees - 1), &|top| _ = source_skip(top)),
        ("cursor lent", trees, &|b| whole!(tt_cursor_all, b), &source_cursor),
        ("cursor by value", trees, &|b| whole!(tt_cursor_by_value_all, b), &source_cursor),
    ];
    for (what, units, ours, source) in rows {
        short_row(
            &format!("{what}, the source's trees not added up, {name}"),
            units,
            || _ = black_box(all(case, ours)),
            || case.buffers.iter().for_each(|b| source(&b.top)),
        );
    }
}

fn through_c(case: &Case) {
    let (name, b) = (&case.name, &case.buffers[0]);
    let (lent, n, below) = (b.lent(), b.trees as usize, (ROOT, 1, b.trees - 1));
    let passed = step_by_step(lent, below, true);
    let walk = || assert_eq!(step_by_step(lent, (0, 0, b.trees), false), n);
    short_row(&format!("walk, step by step through C, {name}"), n, walk, || source_walk(&b.top));
    let skip = || _ = black_box(step_by_step(lent, below, true));
    short_row(&format!("skip, step by step through C, {name}"), passed, skip, || _ = source_skip(&b.top));
    for (by_value, form) in [(false, "lent"), (true, "by value")] {
        let ours = || cursor_step_by_step(by_value, lent);
        short_row(&format!("cursor {form}, step by step through C, {name}"), n, ours, || source_cursor(&b.top));
    }
}

pub fn run() {
    for case in cases(&[(1_000, 300), (30_000, 1), (200_000, 1), (1_048_576, 1)]).chain([loose(30_000)]) {
        check(&case);
        whole(&case);
        if case.name.ends_with("few entries, starts wrap") {
            bare(&case);
        }
        if case.name == "30000 trees, few entries, starts wrap" {
            through_c(&case);
        }
    }
}
