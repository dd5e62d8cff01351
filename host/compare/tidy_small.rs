//! Small lists put in order, from every buffer that reads as them: tables have every entry twice, near each other or far apart.
use crate::buffers::Stored;
use crate::plain::{self, Loose, Tree};
use crate::plain_list;
use crate::proved::{self, work_words};
use crate::random::Random;
use crate::replace::{A, B, C, LEAVES, forests, small_list};
use crate::tally::Tally;
use crate::tidy::Given;
use crate::ways::{Every, Ways, buffer};
use crate::words;
use tt::TopSubtree;

/// Part and start of the opening span, part and start of the closing one, length: all forms hold it; 000 with control bits, and 101; 010 and
/// 101; 000 with its longest distance, in twelve bytes, and 101.
const SUBTREES: [([u32; 3], u32, [u32; 3], u32, u32); 4] =
    [(A, 20, A, 22, 1), (A, 5, A, 264, 1), (B, 20, A, 30, 4), (C, 1 << 28, C, (1 << 28) + 2047, 1)];

/// In how many ways the trees of a forest can be chosen.
fn choices(forest: &[Option<usize>]) -> usize {
    forest.iter().map(|tree| if tree.is_some() { SUBTREES.len() } else { LEAVES.len() }).product()
}

/// The list of a forest below a root, its trees given by their digits in a number.
fn chosen_list(forest: &[Option<usize>], mut choice: usize) -> Vec<u32> {
    let mut list = small_list(&[], 0);
    list[1] = forest.len() as u32;
    for tree in forest {
        match tree {
            None => {
                list.extend(LEAVES[choice % LEAVES.len()]);
                choice /= LEAVES.len();
            }
            Some(count) => {
                let (opening, start, closing, end, len) = SUBTREES[choice % SUBTREES.len()];
                list.extend([3, *count as u32, choice as u32 % 4]);
                list.extend([&opening[..], &[start, len], &closing, &[end, len]].concat());
                choice /= SUBTREES.len();
            }
        }
    }
    list
}

/// A list over its tables, what the source writes of it, and the runs lent for it.
struct Small {
    list: Vec<u32>,
    trees: Vec<Tree>,
    ways: Ways,
    stored: Stored,
    top: TopSubtree,
    want: Box<[u8]>,
    work: [Vec<u32>; 3],
}

/// Every entry twice, so many others in between.
fn twice<T: Clone>(entries: &[T], between: usize, other: impl Fn(usize) -> T) -> Vec<T> {
    [entries, &(0..between).map(other).collect::<Vec<T>>(), entries].concat()
}

impl Small {
    fn of(list: Vec<u32>, [parts_between, symbols_between]: [usize; 2]) -> Small {
        let mut parts = twice(&[A, B, C], parts_between, |i| [50, i as u32, 0]);
        parts.extend([[list[3], list[4], list[5]], [list[8], list[9], list[10]]]);
        let symbols = twice(&[5, 6, 7], symbols_between, |i| 100 + i as u32);
        let maps = TopSubtree::maps(&parts, &symbols);
        let (want, _) = TopSubtree::encode_list(list.chunks(13).map(words::tree).collect(), &maps);
        let trees = plain_list::trees(&list, &parts.concat(), &symbols).expect("a list that rows 1 to 5 pass");
        let top = TopSubtree::of(trees.len(), &[], &parts, &symbols);
        let work = work_words(trees.len()).map(|n| vec![0xAAAA_AAAA; n]);
        let stored = Stored { bytes: vec![], trees: trees.len() as u32, parts: parts.concat(), symbols };
        Small { ways: Ways::over(&stored.parts, &stored.symbols), list, trees, stored, top, want, work }
    }

    /// The check passes a buffer, the source reads the list from it, and it is put in order as the source writes that list, in no more bytes.
    fn alike(&mut self, bytes: Vec<u8>) -> bool {
        self.top.set_bytes(&bytes);
        self.stored.bytes = bytes;
        let mut walk = self.top.walk_from(0);
        let read = self.list.chunks(13).all(|tree| walk.advance().is_some_and(|read| words::words(&read) == tree)) && walk.advance().is_none();
        let passes = self.stored.plain().check() == Ok(());
        let mut out = vec![0xAA; self.want.len() + 3];
        let reply = proved::tidy(self.stored.lent(), &mut self.work, &mut out);
        let written = out.split_at(self.want.len()) == (&self.want, &[0xAA; 3]);
        let no_longer = self.want.len() <= self.stored.bytes.len();
        read && passes && no_longer && reply == Ok(self.want.len()) && written && self.work[1].iter().all(|&w| w == 0xAAAA_AAAA)
    }

    fn hold(&mut self, tally: &mut Tally, bytes: Vec<u8>) {
        tally.answered(if *bytes == *self.want { "in order" } else { "loose" }.into());
        let alike = self.alike(bytes);
        tally.case(alike, || format!("{:02x?} over {:?}, {:?}", self.stored.bytes, self.stored.parts, self.stored.symbols));
    }

    /// Every tree in every way, beside every other.
    fn every(&mut self, tally: &mut Tally) {
        let mut all = Vec::new();
        Every::of(&self.ways, &self.trees).each(&mut |bytes| all.push(bytes));
        all.into_iter().for_each(|bytes| self.hold(tally, bytes));
    }

    /// The buffer with tree n in a given way, the others as the writer has them or, by a seed, in any way; and the children bytes of tree n.
    fn with(&self, n: usize, way: &[u8], seed: Option<u64>) -> (Vec<u8>, u64) {
        let (mut r, mut met) = (seed.map(Random::new), 0);
        let bytes = buffer(&self.trees, seed.unwrap_or(0) % 4, |i, children| match &mut r {
            _ if i == n => {
                met = children;
                way.to_vec()
            }
            Some(r) => self.ways.any(r, &self.trees[i], children),
            None => plain::write(&self.trees[i], children, Loose::default()),
        });
        (bytes, met)
    }

    /// Each tree in every way, in one buffer of the others.
    fn each_tree(&mut self, tally: &mut Tally, r: &mut Random) {
        for n in 1..self.trees.len() {
            let seed = r.one_in(2).then(|| r.next());
            let (_, children) = self.with(n, &[], seed);
            for way in self.ways.every(&self.trees[n], children) {
                let (bytes, _) = self.with(n, &way, seed);
                self.hold(tally, bytes);
            }
        }
    }
}

/// Parts and symbols between the two places of an entry: none; so many that the second place needs a longer span, symbol or form.
const BETWEEN: [[usize; 2]; 4] = [[0, 0], [14, 62], [126, 62], [32_766, 8_190]];

/// All lists of up to three trees, in every buffer that reads as them; those of up to two over all tables.
pub fn every_way(tally: &mut Tally) {
    for forest in (0..3).flat_map(forests) {
        for choice in 0..choices(&forest) {
            let tables = if forest.len() < 2 { &BETWEEN[..] } else { &BETWEEN[..1] };
            tables.iter().for_each(|&between| Small::of(chosen_list(&forest, choice), between).every(tally));
        }
    }
    tally.assert_answered(&["in order"], 100);
    tally.assert_answered(&["loose"], 1_000_000);
}

/// All lists of up to four trees, and of five with subtrees of one distance: each tree in every way, the last of these buffers in every room.
pub fn each_tree(tally: &mut Tally) {
    let mut r = Random::new(44);
    for forest in (1..5).flat_map(forests) {
        let leaves = forest.iter().filter(|tree| tree.is_none()).count() as u32;
        let lists = if forest.len() < 4 { choices(&forest) } else { LEAVES.len().pow(leaves) };
        for choice in 0..lists {
            let list = if forest.len() < 4 { chosen_list(&forest, choice) } else { small_list(&forest, choice) };
            let between = r.pick(&BETWEEN[..3]);
            let mut small = Small::of(list, between);
            small.each_tree(tally, &mut r);
            Given::of(format!("{forest:?} of trees {choice}"), small.stored).hold(tally, &mut r);
        }
    }
    tally.assert_answered(&["in order", "loose", "refused 6"], 1_000);
}
