//! The builder: a list made step by step, then built. Root rewriting. Every step of ours is a call through the C interface, which copies
//! the builder in and out.
use crate::list::{Shape, list};
use crate::proved::{self, Builder};
use crate::steps::{Step, steps_of, take};
use crate::timing::row;
use crate::words;
use std::hint::black_box;
use tt::{DelimSpan, Delimiter, DelimiterKind, Leaf, TokenTree, TopSubtree, TopSubtreeBuilder};

#[derive(Clone)]
enum SourceStep {
    Push(Leaf),
    Open(DelimiterKind, span::Span),
    Close(span::Span),
}

/// A list's steps as the source takes them.
fn source_steps(list: &[u32], steps: &[Step]) -> Vec<SourceStep> {
    let mut leaves = list.chunks(13).filter(|w| w[0] != 3).map(words::tree);
    steps
        .iter()
        .map(|step| match step {
            Step::Push(_) => match leaves.next() {
                Some(TokenTree::Leaf(leaf)) => SourceStep::Push(leaf),
                _ => unreachable!(),
            },
            Step::Open(kind, span) => SourceStep::Open(words::delimiter_kind(*kind), words::span(span)),
            Step::Close(span) => SourceStep::Close(words::span(span)),
            Step::Restore(_) => unreachable!(),
        })
        .collect()
}

fn source_takes(delimiter: Delimiter, steps: Vec<SourceStep>) -> TopSubtreeBuilder {
    let mut b = TopSubtreeBuilder::new(delimiter);
    for step in steps {
        match step {
            SourceStep::Push(leaf) => b.push(leaf),
            SourceStep::Open(kind, span) => b.open(kind, span),
            SourceStep::Close(span) => b.close(span),
        }
    }
    b
}

fn builder(trees: usize) {
    let list = list(&Shape { trees, parts: 12, symbols: 400, wrap: 60_000 });
    let n = list.len() / 13;
    let steps = steps_of(&list);
    let theirs = source_steps(&list, &steps);
    let spans: [u32; 10] = list[3..13].try_into().unwrap();
    let delimiter = Delimiter { open: words::span(&spans[..5]), close: words::span(&spans[5..]), kind: words::delimiter_kind(list[2]) };
    let mut run = vec![0; list.len()];
    let made = |run: &mut [u32]| {
        let mut b = Builder::new(run, list[2], &spans).1;
        steps.iter().for_each(|step| take(&mut b, run, step).unwrap());
        b
    };
    row(
        &format!("builder's steps, {trees} trees"),
        n,
        || _ = black_box(made(&mut run)),
        || theirs.clone(),
        |steps| _ = black_box(source_takes(delimiter, steps)),
    );
    let mut runs = [vec![0; 6 * n + 6], vec![0; 2 * n], vec![0; n], vec![0; n]];
    let (mut work, mut out) = (vec![0; n + 1], vec![0; 41 * n]);
    row(
        &format!("builder's steps, tables and build, {trees} trees"),
        n,
        || {
            let b = made(&mut run);
            // the tables are asked of a list whose root has its count
            run[1] = n as u32 - 1;
            let [a, c, d, e] = &mut runs;
            let (p, s) = proved::tables(&run, a, c, d, e).unwrap();
            black_box(b.build(&run, false, &a[..3 * p as usize], &d[..s as usize], &mut work, &mut out).unwrap());
        },
        || theirs.clone(),
        |steps| _ = black_box(source_takes(delimiter, steps).build()),
    );
    // over the source's tables the bytes are the source's
    let top = source_takes(delimiter, theirs).build();
    let b = made(&mut run);
    let size = b.build(&run, false, &top.part_list().concat(), &top.symbol_list(), &mut work, &mut out).unwrap();
    assert!(out[..size as usize] == *top.bytes());
}

/// By the call. Ours checks the whole buffer first.
fn root(trees: usize) {
    let words_of = list(&Shape { trees, parts: 12, symbols: 400, wrap: 60_000 });
    let mut top = TopSubtree::from_serialized(words_of.chunks(13).map(words::tree).collect());
    let (mut bytes, mut parts, symbols) = (top.bytes().to_vec(), top.part_list().concat(), top.symbol_list());
    let n = top.trees() as u32;
    row(
        &format!("root's kind rewritten, {trees} trees, a call"),
        1,
        || proved::set_kind(&mut bytes, n, &parts, &symbols, black_box(1)).unwrap(),
        || (),
        |()| black_box(&mut top).set_top_subtree_delimiter_kind(words::delimiter_kind(black_box(1))),
    );
    let spans = [9, 0, 0, 70, 1, 9, 0, 1, 90, 1];
    let delimiter = DelimSpan { open: words::span(&spans[..5]), close: words::span(&spans[5..]) };
    row(
        &format!("root's spans rewritten, {trees} trees, a call"),
        1,
        || proved::set_spans(&mut bytes, n, &mut parts, &symbols, black_box(&spans)).unwrap(),
        || (),
        |()| black_box(&mut top).set_top_subtree_delimiter_span(black_box(delimiter)),
    );
    assert!(*top.bytes() == *bytes && top.part_list().concat() == parts);
}

pub fn run() {
    for trees in [1_000, 30_000, 200_000, 1_048_576] {
        builder(trees);
    }
    for trees in [1_000, 30_000, 200_000, 1_048_576] {
        root(trees);
    }
}
