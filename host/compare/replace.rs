//! One leaf of a stored buffer exchanged: the size before, the new buffer and tables in every room, beside the plain version and the source's
//! `set_token`.
use crate::buffers::{Stored, stored};
use crate::maker::{Maker, loose};
use crate::plain_list::{self, Refusal};
use crate::plain_replace::{Replaced, held, set_token};
use crate::proved::{self, Runs, work_words};
use crate::random::Random;
use crate::tally::{Tally, panics};
use crate::words;
use tt::{TokenTree, TopSubtree};

// ---- what is held to what

/// Words of each lent run: three of work words, then bytes, part words, symbols.
type Room = [usize; 6];

/// A buffer that some leaf is exchanged in, with the list it holds or the check's refusal.
struct Given {
    what: String,
    stored: Stored,
    held: Result<Vec<u32>, Refusal>,
    source: Option<TopSubtree>,
    /// Whether every run is tried too short by one, or only one of them.
    every_room: bool,
}

impl Given {
    fn of(what: String, stored: Stored) -> Given {
        let (held, source) = (held(&stored.plain()), stored.source());
        Given { what, held, source, every_room: stored.trees < 2000, stored }
    }

    /// Exact; to spare; each run too short by one; a short work run and no output; nothing at all.
    fn rooms(&self, r: &mut Random, want: &Result<Replaced, Refusal>) -> Vec<Room> {
        // a stated tree count out of bounds is refused in any room
        let work = work_words((self.stored.trees as usize).min(plain_list::TREES));
        let outputs = want.as_ref().map_or_else(|_| [0; 3].map(|_| r.below(90) as usize), |w| [w.bytes.len(), w.parts.len(), w.symbols.len()]);
        let exact: Room = [work, outputs].concat().try_into().unwrap();
        let spare = exact.map(|n| n + r.below(40) as usize);
        let mut short: Vec<Room> = Vec::new();
        for run in (0..6).filter(|&run| want.is_ok() && exact[run] > 0) {
            let mut room = if r.one_in(2) { exact } else { spare };
            room[run] = exact[run] - 1;
            short.push(room);
        }
        if !self.every_room && !short.is_empty() {
            short = vec![r.pick(&short)];
        }
        let mut no_output = exact;
        no_output[r.below(3) as usize] -= 1;
        no_output[3..].fill(0);
        [vec![exact, spare, no_output, [0; 6]], short].concat()
    }

    /// The reply and all lent contents in one room; else what differs.
    fn in_room(&self, tally: &mut Tally, number: u32, leaf: &[u32; 13], want: &Result<Replaced, Refusal>, room: Room) -> Option<String> {
        let [a, b, c, bytes, parts, symbols] = room;
        let mut runs = Runs {
            work: [a, b, c].map(|n| vec![0xAAAA_AAAA; n]),
            bytes: vec![0xAA; bytes],
            parts: vec![0xAAAA_AAAA; parts],
            symbols: vec![0xAAAA_AAAA; symbols],
        };
        let mut after = runs.clone();
        let work = work_words(self.stored.trees as usize);
        let work_fits = (0..3).all(|i| work[i] <= room[i]);
        let expected = match want {
            Err(refusal) => Err(*refusal),
            Ok(_) if !work_fits => Err((6, 0)),
            Ok(w) if bytes < w.bytes.len() || parts < w.parts.len() || symbols < w.symbols.len() => Err((6, 0)),
            Ok(w) => {
                after.bytes[..w.bytes.len()].copy_from_slice(&w.bytes);
                after.parts[..w.parts.len()].copy_from_slice(&w.parts);
                after.symbols[..w.symbols.len()].copy_from_slice(&w.symbols);
                Ok([w.bytes.len(), w.parts.len() / 3, w.symbols.len()])
            }
        };
        tally.answered(expected.map_or_else(|(number, _)| format!("refused {number}"), |_| "exchanged".into()));
        let reply = proved::set_token(self.stored.lent(), number, leaf, &mut runs);
        if want.is_ok() && work_fits {
            // what the work words hold is open, but not behind their share
            for (after, (run, n)) in after.work.iter_mut().zip(runs.work.iter().zip(work)) {
                after[..n].copy_from_slice(&run[..n]);
            }
        }
        let runs_differ = if runs == after { "" } else { ", other contents" };
        (reply != expected || runs != after).then(|| format!("{reply:?} in room {room:?}, wanted {expected:?}{runs_differ}"))
    }

    /// What is told before, and all work words, of which there are so many; else what differs.
    fn before(&self, tally: &mut Tally, number: u32, leaf: &[u32; 13], want: &Result<Replaced, Refusal>, room: [usize; 3]) -> Option<String> {
        let mut runs = room.map(|n| vec![0xAAAA_AAAA; n]);
        let mut after = runs.clone();
        let work = work_words(self.stored.trees as usize);
        let expected = match want {
            Err(refusal) => Err(*refusal),
            Ok(_) if (0..3).any(|i| room[i] < work[i]) => Err((6, 0)),
            Ok(w) => Ok([w.bytes.len(), w.parts.len() / 3, w.symbols.len()]),
        };
        tally.answered(expected.map_or_else(|(number, _)| format!("preview refused {number}"), |_| "previewed".into()));
        let reply = proved::preview(self.stored.lent(), number, leaf, &mut runs);
        if expected.is_ok() {
            // what the work words hold is open, but not behind their share
            for (after, (run, n)) in after.iter_mut().zip(runs.iter().zip(work)) {
                after[..n].copy_from_slice(&run[..n]);
            }
        }
        let runs_differ = if runs == after { "" } else { ", other contents" };
        (reply != expected || runs != after).then(|| format!("preview {reply:?} in room {room:?}, wanted {expected:?}{runs_differ}"))
    }

    /// A leaf put at a tree number, in all rooms, and the size before in the work words of these; then by the source.
    fn exchange(&self, tally: &mut Tally, r: &mut Random, number: u32, leaf: &[u32; 13]) {
        let want = set_token(&self.held, number, leaf);
        let rooms = self.rooms(r, &want);
        let mut works: Vec<[usize; 3]> = rooms.iter().map(|room| [room[0], room[1], room[2]]).collect();
        works.sort();
        works.dedup();
        let told: Vec<String> = works.into_iter().filter_map(|room| self.before(tally, number, leaf, &want, room)).collect();
        tally.case(told.is_empty(), || format!("{}: tree {number} becomes {leaf:?}: {}", self.what, told[0]));
        let differs: Vec<String> = rooms.into_iter().filter_map(|room| self.in_room(tally, number, leaf, &want, room)).collect();
        tally.case(differs.is_empty(), || format!("{}: tree {number} becomes {leaf:?}: {}", self.what, differs[0]));
        // a bad leaf has no value in the source
        if let Some(top) = &self.source
            && leaf[0] < 3
            && plain_list::fields(leaf)
        {
            tally.answered(format!("source's {}", if want.is_ok() { "exchanged" } else { "panic" }));
            let alike = source_alike(tally, top, number, leaf, &want);
            tally.case(alike, || format!("source's, {}: tree {number} becomes {leaf:?}", self.what));
        }
    }
}

fn sorted<T: Ord>(mut entries: Vec<T>) -> Vec<T> {
    entries.sort();
    entries
}

/// Parts below the root and symbols that are few enough for a tree to have one size whatever their order.
const ANY_ORDER: (usize, usize) = (16, 64);

/// The source's list and its sets of parts and symbols are ours, and our writer's bytes over its tables are its own; so is the byte length
/// that we tell, where the order does not matter. Where ours is 10, it gives up.
fn source_alike(tally: &mut Tally, top: &TopSubtree, number: u32, leaf: &[u32; 13], want: &Result<Replaced, Refusal>) -> bool {
    let TokenTree::Leaf(leaf) = words::tree(leaf) else { unreachable!() };
    let mut top = top.clone();
    let Ok(want) = want else { return panics(|| top.set_token(number as usize, leaf)) };
    top.set_token(number as usize, leaf);
    let list: Vec<u32> = words::trees(&top).iter().flat_map(words::words).collect();
    let (parts, symbols) = (top.part_list(), top.symbol_list());
    let own_parts: Vec<[u32; 3]> = want.parts.chunks(3).map(|w| [w[0], w[1], w[2]]).collect();
    let below = own_parts.len() - 2;
    let tables = parts.len() == own_parts.len()
        && parts[below..] == own_parts[below..]
        && sorted(parts[..below].to_vec()) == sorted(own_parts[..below].to_vec())
        && sorted(symbols.clone()) == sorted(want.symbols.clone());
    let (mut work, mut out) = (vec![0; top.trees() + 1], vec![0; top.bytes().len()]);
    let wrote = proved::encode_list(&list, &parts.concat(), &symbols, &mut work, &mut out);
    let as_long = want.bytes.len() == out.len();
    tally.answered(format!("source's bytes {}", if as_long { "as many" } else { "of another number" }));
    let as_long = as_long || below > ANY_ORDER.0 || symbols.len() > ANY_ORDER.1;
    list == want.list && tables && wrote == Ok(out.len() as u64) && *out == *top.bytes() && as_long
}

// ---- every small list

pub const A: [u32; 3] = [1, 0, 0];
pub const B: [u32; 3] = [1, 4, 2];
pub const C: [u32; 3] = [7, 0, 9];

const fn leaf(head: [u32; 3], part: [u32; 3], start: u32, len: u32) -> [u32; 13] {
    [head[0], head[1], head[2], part[0], part[1], part[2], start, len, 0, 0, 0, 0, 0]
}

/// Of every sort, packed in every way; parts and symbols are shared by some.
pub const LEAVES: [[u32; 13]; 6] = [
    leaf([0, 43, 0], A, 10, 1),
    leaf([0, 0x2028, 1], B, 131_072, 1),
    leaf([1, 5, 0], A, 12, 300),
    leaf([1, 6, 1], C, 14, 2),
    leaf([2, 5, 4 + 65536 * 3], B, 16, 4),
    leaf([2, 7, 9 + 256 * 3 + 65536 * 20], A, 1 << 28, 5),
];

/// The runs of so many trees, each tree as its descendants if it is a subtree.
pub fn forests(trees: usize) -> Vec<Vec<Option<usize>>> {
    if trees == 0 {
        return vec![vec![]];
    }
    let mut all: Vec<Vec<Option<usize>>> = forests(trees - 1).into_iter().map(|rest| [vec![None], rest].concat()).collect();
    for inside in 0..trees {
        for children in forests(inside) {
            for rest in forests(trees - 1 - inside) {
                all.push([vec![Some(inside)], children.clone(), rest].concat());
            }
        }
    }
    all
}

/// The list of a forest below a root, its leaves given by their digits in a number.
pub fn small_list(forest: &[Option<usize>], mut choice: usize) -> Vec<u32> {
    let mut list = vec![3, forest.len() as u32, 3, 1, 0, 0, 0, 9, 2, 0, 0, 40, 0];
    for (n, tree) in forest.iter().enumerate() {
        match tree {
            None => {
                list.extend(LEAVES[choice % LEAVES.len()]);
                choice /= LEAVES.len();
            }
            Some(count) => {
                list.extend([3, *count as u32, n as u32 % 4]);
                list.extend([A, B][n % 2]);
                list.extend([20, 1]);
                list.extend(A);
                list.extend([22, 1]);
            }
        }
    }
    list
}

/// The buffer of a list over its own tables.
fn own(list: &[u32]) -> Stored {
    let tables = plain_list::tables(list);
    over(list, tables.parts.concat(), tables.symbols)
}

fn over(list: &[u32], parts: Vec<u32>, symbols: Vec<u32>) -> Stored {
    let bytes = plain_list::write(list, &parts, &symbols).expect("a list that rows 1 to 5 pass").bytes;
    Stored { bytes, trees: (list.len() / 13) as u32, parts, symbols }
}

/// All lists of up to five trees, every sort of leaf at every leaf's place: at each place and right behind the last each of them in turn,
/// and the words of a subtree.
pub fn every_small_list(tally: &mut Tally) {
    let mut r = Random::new(31);
    let subtree = [3, 0, 0, 1, 0, 0, 5, 1, 1, 0, 0, 8, 1];
    for forest in (0..5).flat_map(forests) {
        let leaves = forest.iter().filter(|tree| tree.is_none()).count();
        for choice in 0..LEAVES.len().pow(leaves as u32) {
            let mut given = Given::of(format!("{forest:?} of leaves {choice}"), own(&small_list(&forest, choice)));
            given.every_room = forest.len() < 4;
            for number in 0..forest.len() as u32 + 2 {
                for leaf in LEAVES.iter().chain([&subtree]) {
                    given.exchange(tally, &mut r, number, leaf);
                }
            }
        }
    }
    tally.assert_answered(&["exchanged", "refused 2", "refused 6", "refused 10", "source's exchanged", "source's panic"], 10_000);
    tally.assert_answered(&["previewed", "preview refused 2", "preview refused 6", "preview refused 10"], 10_000);
}

// ---- random lists

/// Now and then the number of a subtree, of the root, or at and past the count.
fn some_number(r: &mut Random, given: &Given) -> u32 {
    let trees = given.stored.trees;
    let leaves: Vec<u32> = match &given.held {
        Ok(list) => (0..trees).filter(|&n| list[13 * n as usize] < 3).collect(),
        Err(_) => vec![],
    };
    match r.below(10) {
        0 => r.pick(&[0, trees, trees.wrapping_add(1), 1 << 20, u32::MAX]),
        1 | 2 => r.below(u64::from(trees) + 1) as u32,
        _ if leaves.is_empty() => r.below(u64::from(trees) + 1) as u32,
        _ => r.pick(&leaves),
    }
}

/// Out of range in a word, or in several.
fn spoil(r: &mut Random, leaf: &mut [u32; 13]) {
    match r.below(6) {
        0 => leaf[0] = r.pick(&[3, 4, 256, u32::MAX]),
        1 => leaf[1] = r.pick(&[0xD800, 0xDFFF, 0x11_0000, u32::MAX]),
        2 => leaf[2] = r.pick(&[2, 3, 11, 255, 256 + 4, 256 + 10, 256 << 16, u32::MAX]),
        3 => (leaf[6], leaf[7]) = r.pick(&[(u32::MAX, 1), (1, u32::MAX), (1 << 31, 1 << 31)]),
        4 => leaf[8 + r.below(5) as usize] = r.pick(&[1, 1 << 31]),
        _ => leaf[r.below(13) as usize] = r.next() as u32,
    }
}

/// With parts and symbols of the list or new ones, the same leaf again, or a bad one.
fn some_leaf(m: &mut Maker, given: &Given, number: u32) -> [u32; 13] {
    let bytes = m.r.pick(&[4, 4, 8, 12]);
    let mut leaf = m.leaf(bytes);
    match m.r.below(8) {
        0 => leaf[3..6].copy_from_slice(&[1 << 24, m.r.below(3) as u32, u32::MAX]),
        1 if leaf[0] > 0 => leaf[1] = 0xFFFF_FFF0 + m.r.below(3) as u32,
        2 => {
            let there = given.held.as_ref().ok().and_then(|list| list.chunks(13).nth(number as usize));
            if let Some(tree) = there {
                leaf.copy_from_slice(tree);
            }
        }
        3 => spoil(&mut m.r, &mut leaf),
        _ => {}
    }
    leaf
}

/// The writer's buffers, loose ones and damaged ones, over tables in another order with unused and repeated entries.
pub fn random(tally: &mut Tally, buffers: u64) {
    for seed in 0..buffers {
        let (r, s) = stored(seed);
        // leaves are drawn from as many parts and symbols as the list's
        let mut m = Maker::new(seed);
        m.r = r;
        let mut given = Given::of(format!("buffer {seed}"), s);
        given.every_room = m.r.one_in(4);
        for _ in 0..if given.held.is_ok() { 4 } else { 1 } {
            let number = some_number(&mut m.r, &given);
            let leaf = some_leaf(&mut m, &given, number);
            let mut r = Random::new(m.r.next());
            given.exchange(tally, &mut r, number, &leaf);
        }
    }
    let refusals = [1, 2, 3, 6, 7, 8, 9, 10].map(|n| format!("refused {n}"));
    tally.assert_answered(&["exchanged", "source's exchanged", "source's panic"], buffers / 10);
    tally.assert_answered(&refusals.each_ref().map(String::as_str), buffers / 200);
    let before = refusals.map(|refusal| format!("preview {refusal}"));
    tally.assert_answered(&["previewed"], buffers / 10);
    tally.assert_answered(&before.each_ref().map(String::as_str), buffers / 200);
}

/// Each field of a leaf at its limits and past them, for a leaf, a subtree and the root, at the count and far past it; in a buffer that the
/// check passes, in a loose one, in damaged ones.
pub fn bad_leaves(tally: &mut Tally) {
    let mut r = Random::new(32);
    let fine = small_list(&[None, Some(1), None, None], 2 + 6 * 4);
    let trees = plain_list::trees(&fine, &own(&fine).parts, &own(&fine).symbols).unwrap();
    let mut buffers = vec![own(&fine), own(&fine), own(&fine), own(&fine)];
    buffers[1].bytes = plain_list::bytes(&trees, &mut || loose(&mut r)).bytes;
    assert!(buffers[0].bytes.len() <= buffers[1].bytes.len());
    buffers[2].bytes.pop();
    buffers[3].trees += 1;
    for (i, stored) in buffers.into_iter().enumerate() {
        let given = Given::of(format!("bad leaves, buffer {i}"), stored);
        for leaf in at_limits() {
            for number in (0..7).chain([1 << 20, u32::MAX]) {
                given.exchange(tally, &mut r, number, &leaf);
            }
        }
    }
    tally.assert_answered(&["exchanged", "refused 2", "refused 10", "refused 7"], 100);
    tally.assert_answered(&["previewed", "preview refused 2", "preview refused 10", "preview refused 7"], 100);
}

fn at_limits() -> Vec<[u32; 13]> {
    let mut all = LEAVES.to_vec();
    for leaf in LEAVES {
        let mut with = |word: usize, values: &[u32]| {
            for &value in values {
                let mut other = leaf;
                other[word] = value;
                all.push(other);
            }
        };
        with(0, &[0, 1, 2, 3, 4, 256, u32::MAX]);
        with(1, &[0, 127, 128, 0xD7FF, 0xD800, 0xDFFF, 0xE000, 0x10_FFFF, 0x11_0000, u32::MAX]);
        with(2, &[0, 1, 2, 3, 4, 10, 11, 255, 256, 256 + 1, 256 + 5, 255 * 256 + 7, 255 * 256 + 8, 255 << 16, 256 << 16, u32::MAX]);
        with(7, &[0, u32::MAX - leaf[6], (u32::MAX - leaf[6]).wrapping_add(1), u32::MAX]);
        with(6, &[0, u32::MAX - leaf[7], u32::MAX - leaf[7] + 1, u32::MAX]);
        for word in 8..13 {
            with(word, &[1, u32::MAX]);
        }
    }
    all
}

// ---- lent runs

/// Each run at every length up to some words more than it needs, and each two of them too short by one.
pub fn every_length(tally: &mut Tally) {
    for (forest, choice) in [(vec![None], 0), (vec![None], 2), (vec![None, Some(1), None], 2 + 6 * 5)] {
        let given = Given::of(format!("every length, {forest:?} of leaves {choice}"), own(&small_list(&forest, choice)));
        for leaf in &LEAVES {
            let want = set_token(&given.held, 1, leaf);
            let w = want.as_ref().expect("a leaf for a leaf");
            let exact: Room = [work_words(forest.len() + 1), [w.bytes.len(), w.parts.len(), w.symbols.len()]].concat().try_into().unwrap();
            for (a, b) in (0..6).flat_map(|a| (0..6).map(move |b| (a, b))) {
                for length in 0..exact[a] + 4 {
                    let mut room = exact;
                    room[a] = length;
                    if a != b {
                        room[b] = exact[b].saturating_sub(1);
                    }
                    let told = given.before(tally, 1, leaf, &want, [room[0], room[1], room[2]]);
                    let differs = told.or_else(|| given.in_room(tally, 1, leaf, &want, room));
                    tally.case(differs.is_none(), || format!("{}: tree 1 becomes {leaf:?}: {}", given.what, differs.unwrap()));
                }
            }
        }
    }
    tally.assert_answered(&["exchanged", "refused 6", "previewed", "preview refused 6"], 100);
}

// ---- at the limits of sizes

/// So many trees with exactly so many parts and symbols below the root. The first trees bring one after the other, the others are drawn, the
/// later ones less often; some trees are subtrees, whose closing part is the opening one of another.
pub fn sized_list(r: &mut Random, trees: usize, parts: u64, symbols: u64) -> Vec<u32> {
    let mut list = vec![3, trees as u32 - 1, 3, 0, 0, 0, 0, 9, 0, 0, 1, 40, 0];
    let mut draw = |n: u64, of: u64| {
        let most = r.below(of) + 1;
        if n < of { n as u32 } else { r.below(most) as u32 }
    };
    for n in 0..trees as u64 - 1 {
        let (part, symbol) = (draw(n, parts), draw(n, symbols));
        // those that bring a symbol are no subtrees
        if n >= symbols && n % 7 == 3 {
            list.extend([3, 0, 0, part, 1, 1, n as u32, 1, draw(n, parts), 1, 1, n as u32 + 3, 1]);
        } else {
            list.extend(leaf([1 + n as u32 % 2, symbol.wrapping_mul(2_654_435_761), 0], [part, 1, 1], n as u32, 4));
        }
    }
    list
}

/// A symbol that no list here has.
const NEW: u32 = 99;

/// At one place: part and symbol each as they are, those of another tree, new ones.
fn nine_leaves(list: &[u32], number: usize, other: usize) -> Vec<[u32; 13]> {
    let (here, there) = (&list[13 * number..][..13], &list[13 * other..][..13]);
    let mut all = Vec::new();
    for part in [&here[3..6], &there[3..6], &[1 << 30, 0, 0]] {
        for symbol in [here[1], there[1], NEW] {
            all.push(leaf([1, symbol, 1], part.try_into().unwrap(), 7, 3));
        }
    }
    all
}

/// Trees, parts and symbols on both sides of each limit of a form and of the ways to look up.
pub fn limit_sizes() -> Vec<(usize, u64, u64)> {
    let mut sizes = Vec::new();
    sizes.extend([14, 15, 16, 17, 126, 127, 128, 129].map(|parts| (400, parts, 20)));
    sizes.extend([62, 63, 64, 65].map(|symbols| (200, 3, symbols)));
    for trees in [1023, 1024, 1025, 1026, 8191, 8192, 8193, 32_767, 32_768, 32_769] {
        sizes.extend([(trees, 12, 400), (trees, trees as u64 - 1, trees as u64 - 1)]);
    }
    sizes.extend([1023, 1024, 1025].map(|entries| (2500, entries, entries)));
    sizes.extend([8190, 8191, 8192, 8193].map(|symbols| (9000, 20, symbols)));
    sizes.extend([32_767, 32_768, 32_769].map(|parts| (34_000, parts, 20)));
    sizes.extend([65_535, 65_536, 65_537].map(|entries| (66_000, entries, entries)));
    sizes
}

/// Leaves that bring or share a part and a symbol: the first, the last that brings a symbol, the last one.
pub fn limits(tally: &mut Tally) {
    let mut r = Random::new(33);
    for (trees, parts, symbols) in limit_sizes() {
        let list = sized_list(&mut r, trees, parts, symbols);
        let mut tables = plain_list::tables(&list);
        assert_eq!((tables.parts.len() as u64 - 2, tables.symbols.len() as u64), (parts, symbols));
        assert!(!tables.symbols.contains(&NEW));
        if r.one_in(2) {
            tables.parts[..parts as usize].reverse();
            tables.symbols.reverse();
        }
        let given = Given::of(format!("{trees} trees, {parts} parts, {symbols} symbols"), over(&list, tables.parts.concat(), tables.symbols));
        let last = (1..trees).rev().find(|&n| list[13 * n] < 3).unwrap();
        for number in [1, symbols as usize, last] {
            let other = if number == 1 { last } else { 1 };
            // of the longest lists each leaf in one place
            for (i, leaf) in nine_leaves(&list, number, other).iter().enumerate() {
                if trees < 30_000 || i % 3 == number % 3 {
                    given.exchange(tally, &mut r, number as u32, leaf);
                }
            }
        }
    }
}
