//! Stored buffers: the writer's, loose ones in forms that the writer would not choose, and damaged ones.
use crate::maker::{Maker, loose};
use crate::plain::{Distance, read_span};
use crate::plain_buffer::{Buffer, Seen};
use crate::plain_list;
use crate::proved::{self, Lent};
use crate::random::Random;
use crate::reports;
use crate::tally::Tally;
use tt::TopSubtree;

#[derive(Clone, PartialEq, Eq)]
pub struct Stored {
    pub bytes: Vec<u8>,
    pub trees: u32,
    pub parts: Vec<u32>,
    pub symbols: Vec<u32>,
}

impl Stored {
    pub fn plain(&self) -> Buffer<'_> {
        Buffer { bytes: &self.bytes, trees: self.trees.into(), part_words: &self.parts, symbols: &self.symbols }
    }

    pub fn lent(&self) -> Lent<'_> {
        Lent { bytes: &self.bytes, trees: self.trees, parts: &self.parts, symbols: &self.symbols }
    }

    /// The source's buffer, checked or not: it reads unchecked.
    pub fn unchecked(&self) -> TopSubtree {
        let parts: Vec<[u32; 3]> = self.parts.chunks_exact(3).map(|w| [w[0], w[1], w[2]]).collect();
        TopSubtree::of(self.trees as usize, &self.bytes, &parts, &self.symbols)
    }

    /// The source's buffer, if the check passes it.
    pub fn source(&self) -> Option<TopSubtree> {
        self.plain().check().ok()?;
        Some(self.unchecked())
    }
}

/// A stored buffer, by its seed, beside the source's.
#[derive(Clone, Copy)]
pub struct Case<'a> {
    pub seed: u64,
    pub stored: &'a Stored,
    pub top: &'a TopSubtree,
}

impl Case<'_> {
    /// What the plain reader says of the spans of a tree that it reads at a place is what the source says; counted by its sort below the root.
    pub fn reported(&self, tally: &mut Tally, seen: &Seen, place: u64) -> bool {
        if place > 0 {
            tally.answered(format!("report {:?} of a {}", &seen[13..], if seen[0] == 3 { "subtree" } else { "leaf" }));
        }
        seen[13..] == reports::tree(self.top, place as usize).0
    }
}

/// Every report that a tree below the root can have.
pub const REPORTS: [&str; 7] = [
    "report [0, 0, 0] of a leaf", "report [1, 0, 1] of a leaf",
    "report [0, 0, 0] of a subtree", "report [1, 1, 1] of a subtree",
    "report [1, 0, 1] of a subtree", "report [0, 1, 1] of a subtree", "report [1, 1, 2] of a subtree",
];

/// By turns the writer's, a loose one, and one of these damaged.
pub fn stored(seed: u64) -> (Random, Stored) {
    let mut m = Maker::new(seed);
    let list = if seed % 40 == 0 { m.limit_list() } else if seed % 40 == 1 { m.nested(256) } else { m.list() };
    let (parts, symbols) = m.tables_for(&list);
    let trees = plain_list::trees(&list, &parts, &symbols).expect("a list that rows 1 to 5 pass");
    let written = if seed % 4 == 0 {
        plain_list::bytes(&trees, &mut Default::default)
    } else {
        plain_list::bytes(&trees, &mut || loose(&mut m.r))
    };
    let mut s = Stored { bytes: written.bytes, trees: trees.len() as u32, parts, symbols };
    if seed % 4 > 1 {
        for _ in 0..1 + m.r.below(2) {
            damage(&mut m.r, &mut s);
        }
    }
    (m.r, s)
}

/// A tree in 000: its number, its stored length, the place of its control byte.
#[derive(Clone, Copy)]
pub struct Bracket {
    pub tree: u64,
    pub len: u32,
    pub control: usize,
}

/// Those of a buffer as far as the trees can be read, their distance by OR. Of the last one not all bytes need be there.
pub fn brackets(s: &Stored) -> Vec<Bracket> {
    let (buffer, mut at, mut all) = (s.plain(), 0, vec![]);
    for tree in 0..s.trees.into() {
        if let Ok(([_, _, len, 0, _], control)) = read_span(&s.bytes, at as usize) {
            all.extend(s.bytes.get(control).filter(|&c| c % 8 == 0).map(|_| Bracket { tree, len, control }));
        }
        let Ok(read) = buffer.read_by(Distance::Or, tree, at) else { break };
        at = read.next;
    }
    all
}

/// A subtree in 000 has other distance bits, if there is one.
pub fn other_bits(r: &mut Random, s: &mut Stored) {
    let all = brackets(s);
    if !all.is_empty() {
        s.bytes[r.pick(&all).control] ^= 32 * (1 + r.below(7) as u8);
    }
}

pub fn damage(r: &mut Random, s: &mut Stored) {
    let place = r.below(s.bytes.len().max(1) as u64) as usize;
    match r.below(12) {
        0..3 if !s.bytes.is_empty() => s.bytes[place] ^= 1 << r.below(8),
        3 if !s.bytes.is_empty() => s.bytes[place] = r.next() as u8,
        4 => s.bytes.truncate(place),
        5 => s.bytes.extend([0, 5, 1][..r.below(4) as usize].iter()),
        6 => s.trees = if r.one_in(2) { s.trees.wrapping_sub(1) } else { s.trees + 1 },
        7 => {
            let less = r.pick(&[1, 3, 6]).min(s.parts.len());
            s.parts.truncate(s.parts.len() - less);
        }
        8 => s.parts.extend([1, 2, 3]),
        9 => {
            s.symbols.pop();
        }
        10 => other_bits(r, s),
        // some bytes are gone
        _ => {
            let to = (place + r.below(12) as usize).min(s.bytes.len());
            s.bytes.drain(place.min(to)..to);
        }
    }
}

pub fn check(tally: &mut Tally, buffers: u64) {
    let mut passed = 0;
    for seed in 0..buffers {
        let (_, s) = stored(seed);
        let want = s.plain().check();
        passed += u64::from(want.is_ok());
        let sizes = proved::check(&s.bytes, s.trees, s.parts.len() / 3, s.symbols.len());
        let same = proved::check_buffer(&s.bytes, s.trees, &s.parts, &s.symbols) == want && (s.parts.len() % 3 != 0 || sizes == want);
        tally.case(same, || format!("buffer {seed}: {want:?}"));
    }
    assert!(passed * 3 > buffers && passed * 3 < 2 * buffers, "{passed} of {buffers} pass");
}
