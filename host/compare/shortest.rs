//! Nothing shorter than the writer's bytes: one tree at every limit in every way, and stored buffers beside what they are put in order to.
use crate::buffers::stored;
use crate::plain::{self, Loose, Span, Tree};
use crate::proved;
use crate::tally::Tally;
use crate::tidy::{by_source, flipped, put_in_order};
use crate::tree::{self, index_words, indices, source_bytes};
use crate::ways::{lengths, pairs};

// ---- whole buffers

/// Those that the check passes, each also with a bit changed that keeps it so: in a run of its own length it is put in order, in the source's
/// bytes, whose number is within the bounds.
pub fn buffers(tally: &mut Tally, buffers: u64) {
    for seed in 0..buffers {
        let (mut r, s) = stored(seed);
        if s.plain().check().is_err() {
            continue;
        }
        for s in [flipped(&mut r, &s), Some(s)].into_iter().flatten() {
            let (trees, (_, bytes)) = (s.trees as usize, by_source(&s));
            tally.answered(if bytes.len() < s.bytes.len() { "longer" } else { "as long" }.into());
            let within = (33 + 5 * (trees - 1)..=33 * trees).contains(&bytes.len()) && bytes.len() <= s.bytes.len();
            tally.case(within && put_in_order(&s) == *bytes, || format!("buffer {seed}: {} of {}", bytes.len(), s.bytes.len()));
        }
    }
    tally.assert_answered(&["longer", "as long"], buffers / 8);
}

// ---- one tree

/// A tree with its indices and children bytes, and how many bytes the writer and the shortest way spend on it.
struct Spent {
    places: [u32; 3],
    children: u64,
    written: usize,
    least: usize,
}

impl Spent {
    /// Nothing where source, proved function and plain version do not write the same.
    fn of(tree: &Tree, children: u64, after: &mut [u32]) -> Option<Spent> {
        let words = index_words(tree);
        let bytes = source_bytes(tree, &words, children as u32, after);
        let mut out = [0; 33];
        let reply = proved::encode_tree(&mut out, 0, &words, indices(tree), children as u32);
        let proved = reply == Ok(bytes.len() as u64) && out[..bytes.len()] == *bytes;
        let alike = proved && plain::write(tree, children, Loose::default()) == *bytes;
        let least = lengths(tree, children).min().expect("every tree can be written");
        alike.then(|| Spent { places: indices(tree), children, written: bytes.len(), least })
    }

    /// Whether the writer may come to this where the other one is read: no place is later, equal ones are still equal, no more children bytes.
    fn before(&self, other: &Spent) -> bool {
        let [open, close, _] = self.places;
        let equal = other.places[0] != other.places[1] || open == close;
        equal && self.children <= other.children && self.places.iter().zip(other.places).all(|(a, b)| *a <= b)
    }
}

/// One tree at all its places: the writer takes the shortest way, and at earlier places with fewer children bytes no more.
fn hold(tally: &mut Tally, what: &str, all: Vec<Option<Spent>>) {
    let spent: Vec<&Spent> = all.iter().flatten().collect();
    tally.case(spent.len() == all.len(), || format!("{what}: other bytes"));
    for read in &spent {
        let shortest = read.written == read.least && spent.iter().all(|s| !s.before(read) || s.written <= read.least);
        tally.case(shortest, || format!("{what} at {:?}, {} children bytes: {} of {}", read.places, read.children, read.written, read.least));
    }
}

const LEN: [u64; 7] = [0, 1, 2, 255, 256, 262143, 262144];
/// Close start less open start; none is below zero.
const DISTANCE: [Option<u64>; 10] =
    [Some(0), Some(7), Some(8), Some(255), Some(256), Some(2047), Some(2048), Some(131072), Some(134217728), None];

/// The limits that one tree's functions are tried at, but for those that are past the range.
fn limits() -> (&'static [u64], &'static [u64], &'static [u64]) {
    (&tree::INDEX[..7], &tree::SYMBOL[..5], &tree::START[..5])
}

/// Every sort of leaf, its numbers near the limits of the forms, with a span and a symbol to be given.
fn leaves() -> Vec<Tree> {
    let span = Span { index: 0, start: 0, len: 0 };
    let mut all: Vec<Tree> = (0..2).map(|raw| Tree::Ident { span, symbol: 0, raw }).collect();
    all.extend(pairs(&[0, 127, 128, 0x10FFFF], &[0, 1, 2]).into_iter().map(|(char, spacing)| Tree::Punct { span, char, spacing }));
    for kind in 0..11 {
        let raw: &[u64] = if matches!(kind, 5 | 7 | 9) { &[0, 1, 2, 255] } else { &[0] };
        let literal = |(raw_count, suffix)| Tree::Literal { span, symbol: 0, kind, raw_count, suffix };
        all.extend(pairs(raw, &[0, 15, 16, 255]).into_iter().map(literal));
    }
    all
}

/// The leaf with this span and symbol.
fn placed(mut leaf: Tree, to: Span, at: u64) -> Tree {
    match &mut leaf {
        Tree::Punct { span, .. } => *span = to,
        Tree::Ident { span, symbol, .. } | Tree::Literal { span, symbol, .. } => (*span, *symbol) = (to, at),
        Tree::Subtree { .. } => unreachable!("no leaf"),
    }
    leaf
}

fn every_leaf(tally: &mut Tally, after: &mut [u32]) {
    let (indices, symbols, starts) = limits();
    for leaf in leaves() {
        let symbols: &[u64] = if matches!(leaf, Tree::Punct { .. }) { &[0] } else { symbols };
        for (start, len) in pairs(starts, &LEN) {
            let at = |(index, symbol)| placed(leaf, Span { index, start, len }, symbol);
            let all = pairs(indices, symbols).into_iter().map(|places| Spent::of(&at(places), 0, after)).collect();
            hold(tally, &format!("{leaf:?} from {start}, length {len}"), all);
        }
    }
}

fn every_subtree(tally: &mut Tally, after: &mut [u32]) {
    let (indices, _, starts) = limits();
    let lens = [&LEN.map(|len| [len, len])[..], &[[0, 1], [1, 0], [1, 256]]].concat();
    for ((start, distance), [opening, closing]) in pairs(&pairs(starts, &DISTANCE), &lens) {
        let Some(end) = distance.map_or(start.checked_sub(1), |d| Some(start + d)) else { continue };
        for count in &tree::COUNT[..3] {
            // without descendants there are no children bytes
            let children: &[u64] = if *count > 0 { &tree::BYTES[..5] } else { &[0] };
            let at = |open, close| Tree::Subtree {
                open: Span { index: open, start, len: opening },
                close: Span { index: close, start: end, len: closing },
                count: *count,
                kind: 1,
            };
            let all = pairs(&pairs(indices, indices), children).into_iter();
            let all = all.map(|((open, close), bytes)| Spent::of(&at(open, close), bytes, after)).collect();
            hold(tally, &format!("subtree of {count} from {start} to {end}, lengths {opening} and {closing}"), all);
        }
    }
}

pub fn trees(tally: &mut Tally) {
    let mut after = vec![0; 300];
    every_leaf(tally, &mut after);
    every_subtree(tally, &mut after);
}
