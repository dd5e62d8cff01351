//! Every way of writing a tree that the check admits: each number of bytes of its spans and its symbol, each form, the bits that nobody looks
//! at, and each place of an entry that stands more than once.
use crate::maker::loose;
use crate::plain::{self, Loose, Span, Tree};
use crate::random::Random;
use std::collections::{BTreeSet, HashMap};
use std::hash::Hash;
use std::rc::Rc;

pub fn pairs<A: Copy, B: Copy>(all: &[A], beside: &[B]) -> Vec<(A, B)> {
    all.iter().flat_map(|&a| beside.iter().map(move |&b| (a, b))).collect()
}

// ---- one tree with its indices

/// How a tree is written, each choice beside each other. One that its sort does not have changes nothing.
fn choices(tree: &Tree) -> Vec<Loose> {
    let mut all = Vec::new();
    for (span, forms) in pairs(&[4, 8, 12], &[0, 1, 2, 3]) {
        let how = Loose { span, forms, ..Loose::default() };
        match tree {
            // the last form of a subtree is 101, which alone has a close span
            Tree::Subtree { .. } if forms == 3 => {
                all.extend(pairs(&[4, 8, 12], &[0, 1, 2, 3]).into_iter().map(|(close, close_extra)| Loose { close, close_extra, ..how }));
            }
            Tree::Subtree { .. } => all.push(how),
            _ if forms < 2 => all.extend(pairs(&[1, 2, 4], &[0, 1]).into_iter().map(|(symbol, tag)| Loose { symbol, tag, ..how })),
            _ => {}
        }
    }
    all
}

fn written(tree: &Tree, children: u64) -> BTreeSet<Vec<u8>> {
    choices(tree).into_iter().map(|how| plain::write(tree, children, how)).collect()
}

/// How many bytes it takes in each of these ways.
pub fn lengths(tree: &Tree, children: u64) -> impl Iterator<Item = usize> {
    choices(tree).into_iter().map(move |how| plain::write(tree, children, how).len())
}

/// The root's only choice is the extra bits of its close span.
fn root(tree: &Tree, children: u64, close_extra: u64) -> Vec<u8> {
    plain::write(tree, children, Loose { span: 12, close: 12, close_extra, forms: 3, ..Loose::default() })
}

// ---- over tables

/// By the first place of an entry all places of it.
pub struct Ways {
    parts: HashMap<u64, Vec<u64>>,
    symbols: HashMap<u64, Vec<u64>>,
}

fn all_places<K: Eq + Hash>(keys: impl Iterator<Item = K>) -> HashMap<u64, Vec<u64>> {
    let (mut firsts, mut all) = (HashMap::new(), HashMap::<u64, Vec<u64>>::new());
    for (place, key) in (0..).zip(keys) {
        all.entry(*firsts.entry(key).or_insert(place)).or_default().push(place);
    }
    all
}

impl Ways {
    pub fn over(parts: &[u32], symbols: &[u32]) -> Ways {
        let below = &parts[..parts.len() - 6];
        Ways { parts: all_places(below.chunks(3)), symbols: all_places(symbols.iter()) }
    }

    /// A tree below the root that names first places, with its entries at any of their places.
    fn placed(&self, tree: &Tree) -> Vec<Tree> {
        let at = |span: Span, index: u64| Span { index, ..span };
        let parts = |span: Span| &self.parts[&span.index];
        match *tree {
            Tree::Punct { span, char, spacing } => parts(span).iter().map(|&p| Tree::Punct { span: at(span, p), char, spacing }).collect(),
            Tree::Ident { span, symbol, raw } => {
                let places = pairs(parts(span), &self.symbols[&symbol]);
                places.into_iter().map(|(p, symbol)| Tree::Ident { span: at(span, p), symbol, raw }).collect()
            }
            Tree::Literal { span, symbol, kind, raw_count, suffix } => {
                let places = pairs(parts(span), &self.symbols[&symbol]);
                places.into_iter().map(|(p, symbol)| Tree::Literal { span: at(span, p), symbol, kind, raw_count, suffix }).collect()
            }
            Tree::Subtree { open, close, count, kind } => {
                let places = pairs(parts(open), parts(close));
                places.into_iter().map(|(p, q)| Tree::Subtree { open: at(open, p), close: at(close, q), count, kind }).collect()
            }
        }
    }

    /// Every way of writing a tree below the root.
    pub fn every(&self, tree: &Tree, children: u64) -> Vec<Vec<u8>> {
        self.placed(tree).iter().flat_map(|tree| written(tree, children)).collect()
    }

    /// One of them.
    pub fn any(&self, r: &mut Random, tree: &Tree, children: u64) -> Vec<u8> {
        let mut tree = *tree;
        let mut moved = |index: &mut u64, all: &HashMap<u64, Vec<u64>>| *index = r.pick(&all[&*index]);
        match &mut tree {
            Tree::Punct { span, .. } => moved(&mut span.index, &self.parts),
            Tree::Ident { span, symbol, .. } | Tree::Literal { span, symbol, .. } => {
                moved(&mut span.index, &self.parts);
                moved(symbol, &self.symbols);
            }
            Tree::Subtree { open, close, .. } => {
                let same = open.index == close.index;
                moved(&mut open.index, &self.parts);
                moved(&mut close.index, &self.parts);
                // at one place the short forms come about
                if same && r.one_in(2) {
                    close.index = open.index;
                }
            }
        }
        plain::write(&tree, children, loose(r))
    }
}

// ---- whole buffers

/// Where a tree's children bytes come from: how many bytes stand from each tree on to the end.
fn children(trees: &[Tree], after: &[u64], n: usize) -> u64 {
    match trees[n] {
        Tree::Subtree { count, .. } => after[n + 1] - after[n + 1 + count as usize],
        _ => 0,
    }
}

/// The bytes of a list. How each tree below the root is written is asked for, from the last to the first, by its number and its children bytes.
pub fn buffer(trees: &[Tree], close_extra: u64, mut write: impl FnMut(usize, u64) -> Vec<u8>) -> Vec<u8> {
    let (mut after, mut pieces) = (vec![0; trees.len() + 1], Vec::new());
    for n in (0..trees.len()).rev() {
        let children = children(trees, &after, n);
        let piece = if n == 0 { root(&trees[0], children, close_extra) } else { write(n, children) };
        after[n] = after[n + 1] + piece.len() as u64;
        pieces.push(piece);
    }
    pieces.reverse();
    pieces.concat()
}

/// Every buffer of a list, made from its last tree to its first.
pub struct Every<'a> {
    ways: &'a Ways,
    trees: &'a [Tree],
    /// The ways of each tree by its number and its children bytes.
    met: HashMap<(usize, u64), Rc<Vec<Vec<u8>>>>,
}

impl Every<'_> {
    pub fn of<'a>(ways: &'a Ways, trees: &'a [Tree]) -> Every<'a> {
        Every { ways, trees, met: HashMap::new() }
    }

    pub fn each(&mut self, give: &mut dyn FnMut(Vec<u8>)) {
        self.from(self.trees.len() - 1, &[], &mut vec![0; self.trees.len() + 1], give);
    }

    fn from(&mut self, n: usize, behind: &[u8], after: &mut [u64], give: &mut dyn FnMut(Vec<u8>)) {
        let children = children(self.trees, after, n);
        if n == 0 {
            (0..4).for_each(|close_extra| give([root(&self.trees[0], children, close_extra), behind.to_vec()].concat()));
            return;
        }
        let (ways, trees) = (self.ways, self.trees);
        let all = self.met.entry((n, children)).or_insert_with(|| Rc::new(ways.every(&trees[n], children))).clone();
        for way in all.iter() {
            after[n] = after[n + 1] + way.len() as u64;
            self.from(n - 1, &[&way[..], behind].concat(), after, give);
        }
    }
}
