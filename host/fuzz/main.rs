//! Bundles damaged in every way, through the host crate, beside the plain check. Run at the top of the repository.
// the modules of the comparison have more than is used here
#![allow(dead_code)]
mod bundles;
mod fence;
#[path = "../compare/maker.rs"]
mod maker;
#[path = "../compare/plain.rs"]
mod plain;
#[path = "../compare/plain_buffer.rs"]
mod plain_buffer;
#[path = "../compare/plain_bundle.rs"]
mod plain_bundle;
#[path = "../compare/plain_list.rs"]
mod plain_list;
#[path = "../compare/random.rs"]
mod random;

use bundles::Bundle;
use fence::Fence;
use plain::{Span, Tree};

/// How often each number was the answer, and how often it was not the plain check's.
struct Run {
    fence: Fence,
    answers: [u64; 12],
    differences: u64,
}

impl Run {
    fn bundles(&self) -> u64 {
        self.answers.iter().sum()
    }

    fn hold(&mut self, bundle: &[u8]) {
        let at_end = self.bundles() % 2 == 0;
        let held = self.fence.hold(bundle, at_end);
        let answer = checked::check(held).map_or_else(|refusal| refusal.number(), |()| 0);
        let wanted = plain_bundle::number(bundle);
        if u64::from(answer) != wanted || held != bundle {
            self.differences += 1;
            let hex: String = bundle.iter().take(400).map(|b| format!("{b:02x}")).collect();
            println!("  differs: {answer}, wanted {wanted}: {hex}");
        }
        self.answers[answer as usize] += 1;
    }
}

/// Every byte changed to every other value, every cut, every byte left out, every byte put in at every place.
fn everywhere(run: &mut Run, bundle: &[u8]) {
    let mut changed = bundle.to_vec();
    for at in 0..bundle.len() {
        for value in (0..=255).filter(|&v| v != bundle[at]) {
            changed[at] = value;
            run.hold(&changed);
        }
        changed[at] = bundle[at];
        run.hold(&bundle[..at]);
        run.hold(&[&bundle[..at], &bundle[at + 1..]].concat());
    }
    for at in 0..=bundle.len() {
        for value in 0..=255 {
            run.hold(&[&bundle[..at], &[value], &bundle[at..]].concat());
        }
    }
}

/// So many trees, parts and symbols: a root around puncts.
fn sized(trees: u32, parts: usize, symbols: usize) -> Bundle {
    let span = |index: usize| Span { index: index as u64, start: 1, len: 1 };
    let root = Tree::Subtree { open: span(parts - 2), close: span(parts - 1), count: trees as u64 - 1, kind: 3 };
    let list: Vec<Tree> = [root].into_iter().chain((1..trees).map(|_| Tree::Punct { span: span(0), char: 43, spacing: 0 })).collect();
    let bytes = plain_list::bytes(&list, &mut Default::default).bytes;
    let records = [vec![vec![1, 2, 3]; parts], vec![vec![4]; symbols]].concat();
    Bundle { records, trees, bytes }
}

/// At each limit of the sizes and one past it; each also damaged.
fn limits(run: &mut Run) {
    const MOST: usize = 1 << 20;
    let mut all: Vec<Bundle> = [255, 256, 257, 258].map(bundles::nested).into();
    all.extend([(1, 2, 0), (1, 2, MOST), (1, 2, MOST + 1), (1, 2 * MOST, 0), (1, 2 * MOST + 1, 0)].map(|(t, p, s)| sized(t, p, s)));
    all.extend([MOST, MOST + 1].map(|trees| sized(trees as u32, 3, 0)));
    let mut r = random::Random::new(1);
    for b in all {
        run.hold(&b.stored());
        for _ in 0..3 {
            run.hold(&bundles::damaged(&mut r, &b));
        }
    }
}

fn stored() -> Vec<Vec<u8>> {
    let bytes = |hex: String| hex.split_whitespace().map(|x| u8::from_str_radix(x, 16).unwrap()).collect();
    let case = |name| bytes(std::fs::read_to_string(format!("crates/lister/cases/{name}.hex")).expect("the lister's cases"));
    let mut all: Vec<Vec<u8>> = ["worked", "every_sort", "long_forms"].map(case).into();
    all.push(std::fs::read("examples/tariff.bundle").expect("the example"));
    all
}

fn main() {
    let many: u64 = std::env::args().nth(1).map_or(1_000_000, |x| x.parse().expect("how many bundles"));
    let mut run = Run { fence: Fence::new(), answers: [0; 12], differences: 0 };
    stored().iter().for_each(|bundle| everywhere(&mut run, bundle));
    let every_place = run.bundles();
    limits(&mut run);
    let mut seed = 0;
    while run.bundles() < many {
        let (mut r, whole) = bundles::passing(seed);
        for _ in 0..8.min(many - run.bundles()) {
            run.hold(&bundles::damaged(&mut r, &whole));
        }
        seed += 1;
    }
    println!("{} bundles, {every_place} of them stored ones changed at every place, {} differences", run.bundles(), run.differences);
    for (number, &n) in (0..).zip(&run.answers) {
        println!("  {number}: {n} ({:.2} %)", n as f64 * 100.0 / run.bundles() as f64);
        // what the check of a bundle can give
        assert_eq!(n > 0, [0, 1, 2, 3, 4, 7, 8, 9].contains(&number), "answer {number}");
    }
    std::process::exit(i32::from(run.differences > 0));
}
