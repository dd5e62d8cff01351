//! The scope paper's check, walk and cursor over a stored buffer, a second time, without regard to speed.
use crate::plain::{self, Distance, Read, Tree};
use crate::plain_list::{Refusal, TREES, nest};

/// A stored buffer with its stated tree count and its tables.
#[derive(Clone, Copy)]
pub struct Buffer<'a> {
    pub bytes: &'a [u8],
    pub trees: u64,
    pub part_words: &'a [u32],
    pub symbols: &'a [u32],
}

/// The 13 list words of a tree, then its report.
pub type Seen = [u32; 16];

#[derive(Clone, Copy, Debug, PartialEq, Eq)]
pub enum Answer<T = Seen> {
    Done,
    None,
    One(T),
    Two(T, T),
    Refused(u64, u64),
}

impl<T> Answer<T> {
    pub fn map<U>(self, f: impl Fn(T) -> U) -> Answer<U> {
        match self {
            Answer::Done => Answer::Done,
            Answer::None => Answer::None,
            Answer::One(t) => Answer::One(f(t)),
            Answer::Two(t, u) => Answer::Two(f(t), f(u)),
            Answer::Refused(r, n) => Answer::Refused(r, n),
        }
    }

    /// "refused 7", or what is handed back.
    pub fn sort(&self) -> String {
        match self {
            Answer::Done => "done".into(),
            Answer::None => "none".into(),
            Answer::One(_) => "one".into(),
            Answer::Two(..) => "two".into(),
            Answer::Refused(r, _) => format!("refused {r}"),
        }
    }
}

impl Buffer<'_> {
    pub fn sized(&self) -> bool {
        let parts = self.part_words.len() / 3;
        self.part_words.len() % 3 == 0
            && (1..=TREES as u64).contains(&self.trees)
            && (2..=2 * TREES).contains(&parts)
            && self.symbols.len() <= TREES
    }

    pub fn read(&self, n: u64, at: u64) -> Result<Read, u64> {
        self.read_by(Distance::Repeated, n, at)
    }

    pub fn read_by(&self, by: Distance, n: u64, at: u64) -> Result<Read, u64> {
        plain::read_by(by, self.bytes, at as usize, n, (self.part_words.len() / 3) as u64, self.symbols.len() as u64)
    }

    fn seen(&self, read: &Read) -> Seen {
        let parts: Vec<[u32; 3]> = self.part_words.chunks_exact(3).map(|w| [w[0], w[1], w[2]]).collect();
        let mut seen = [0; 16];
        seen[..13].copy_from_slice(&plain::words(&read.tree, &parts, self.symbols));
        seen[13..].copy_from_slice(&read.report);
        seen
    }

    pub fn check(&self) -> Result<(), Refusal> {
        self.check_by(Distance::Repeated)
    }

    pub fn check_by(&self, by: Distance) -> Result<(), Refusal> {
        if !self.sized() {
            return Err((1, 0));
        }
        let (mut trees, mut places, mut children) = (Vec::new(), vec![0], Vec::new());
        for n in 0..self.trees {
            let read = self.read_by(by, n, places[n as usize]).map_err(|r| (r, n))?;
            trees.push(read.tree);
            places.push(read.next);
            children.push(read.children);
        }
        if places[trees.len()] != self.bytes.len() as u64 {
            return Err((9, self.trees));
        }
        let counts: Vec<Option<u64>> = trees.iter().map(count).collect();
        nest(&counts)?;
        let wrong = |n: &usize| counts[*n].is_some_and(|c| places[n + 1] + children[*n] != places[n + 1 + c as usize]);
        (0..trees.len()).find(wrong).map_or(Ok(()), |n| Err((9, n as u64)))
    }
}

/// The descendants of a subtree.
pub fn count(tree: &Tree) -> Option<u64> {
    match *tree {
        Tree::Subtree { count, .. } => Some(count),
        _ => None,
    }
}

// ---- walk

#[derive(Clone, Copy, Debug, PartialEq, Eq)]
pub struct Walk {
    pub place: u64,
    pub number: u64,
    pub left: u64,
}

/// The place of the tree that has a last span, the span's five words, and 1 if fewer bytes hold it.
#[derive(Clone, Copy, Debug, PartialEq, Eq)]
pub struct Last {
    pub place: u64,
    pub words: [u32; 6],
}

impl Buffer<'_> {
    pub fn fresh_walk(&self) -> Walk {
        Walk { place: 0, number: 0, left: self.trees }
    }

    /// The tree read, or why not, and the next walk.
    fn step(&self, w: Walk, skip: bool) -> (Result<Option<Read>, Refusal>, Walk) {
        if !self.sized() {
            return (Err((1, 0)), w);
        }
        if w.place > self.bytes.len() as u64 || w.number + w.left > self.trees {
            return (Err((10, 0)), w);
        }
        if w.left == 0 {
            return (Ok(None), w);
        }
        let read = match self.read(w.number, w.place) {
            Ok(read) => read,
            Err(r) => return (Err((r, w.number)), w),
        };
        let (mut trees, mut place) = (1, read.next);
        if let (true, Some(c)) = (skip, count(&read.tree)) {
            if c >= w.left {
                return (Err((3, w.number)), w);
            }
            if read.next + read.children > self.bytes.len() as u64 {
                return (Err((9, w.number)), w);
            }
            (trees, place) = (1 + c, read.next + read.children);
        }
        (Ok(Some(read)), Walk { place, number: w.number + trees, left: w.left - trees })
    }

    pub fn walk(&self, w: Walk, skip: bool) -> (Answer, Walk) {
        let (read, next) = self.step(w, skip);
        let answer = match read {
            Ok(Some(read)) => Answer::One(self.seen(&read)),
            Ok(None) => Answer::None,
            Err((r, n)) => Answer::Refused(r, n),
        };
        (answer, next)
    }

    /// The last span of the trees that a walk has left.
    pub fn last_span(&self, mut w: Walk) -> Result<Option<Last>, Refusal> {
        loop {
            let (read, next) = self.step(w, true);
            let Some(read) = read? else { return Ok(None) };
            if next.left > 0 {
                w = next;
            } else if count(&read.tree).is_some_and(|c| c > 0) {
                w = self.step(w, false).1;
            } else {
                let seen = self.seen(&read);
                let (from, report) = if seen[0] == 3 { (8, seen[14]) } else { (3, seen[13]) };
                let mut words = [report; 6];
                words[..5].copy_from_slice(&seen[from..from + 5]);
                return Ok(Some(Last { place: w.place, words }));
            }
        }
    }
}

// ---- cursor

#[derive(Clone, Copy, Debug, PartialEq, Eq)]
pub struct Open {
    pub number: u64,
    pub count: u64,
    pub place: u64,
}

impl Open {
    fn end(&self) -> u64 {
        self.number + 1 + self.count
    }
}

/// The open subtrees stand last opened last.
#[derive(Clone, Debug, PartialEq, Eq)]
pub struct Cursor {
    pub number: u64,
    pub place: u64,
    pub open: Vec<Open>,
}

#[derive(Clone, Copy, Debug, PartialEq, Eq)]
pub enum Call {
    Bump,
    End,
    BumpOrEnd,
    TokenTree,
    PeekTwoLeaves,
}

pub const CALLS: [Call; 5] = [Call::Bump, Call::End, Call::BumpOrEnd, Call::TokenTree, Call::PeekTwoLeaves];

impl Buffer<'_> {
    fn agrees(&self, c: &Cursor) -> bool {
        let mut fits = c.number <= self.trees && c.place <= self.bytes.len() as u64 && c.open.len() <= 256;
        let (mut from, mut at, mut to) = (c.number, c.place, c.number);
        for o in c.open.iter().rev() {
            fits &= o.number < from && o.place < at && to <= o.end();
            (from, at, to) = (o.number, o.place, o.end());
        }
        fits
    }

    fn bump(&self, c: &mut Cursor) -> Result<Answer, Refusal> {
        if c.number >= self.trees {
            return Ok(Answer::Done);
        }
        let read = self.read(c.number, c.place).map_err(|r| (r, c.number))?;
        if let Some(count) = count(&read.tree) {
            if c.open.len() >= 256 {
                return Err((4, c.number));
            }
            c.open.push(Open { number: c.number, count, place: c.place });
        }
        (c.number, c.place) = (c.number + 1, read.next);
        Ok(Answer::Done)
    }

    fn call(&self, call: Call, c: &mut Cursor) -> Result<Answer, Refusal> {
        let closing = c.open.last().is_some_and(|o| o.end() == c.number);
        let within = |n: u64| n < self.trees && c.open.last().is_none_or(|o| n < o.end());
        match call {
            Call::Bump if closing => Err((10, 0)),
            Call::Bump => self.bump(c),
            Call::End => {
                let o = *c.open.last().filter(|_| closing).ok_or((10u64, 0u64))?;
                let read = self.read(o.number, o.place).map_err(|r| (r, o.number))?;
                if count(&read.tree) != Some(o.count) {
                    return Err((10, 0));
                }
                c.open.pop();
                Ok(Answer::One(self.seen(&read)))
            }
            Call::BumpOrEnd if closing => {
                c.open.pop();
                Ok(Answer::Done)
            }
            Call::BumpOrEnd => self.bump(c),
            Call::TokenTree if !within(c.number) => Ok(Answer::None),
            Call::TokenTree => {
                let read = self.read(c.number, c.place).map_err(|r| (r, c.number))?;
                Ok(Answer::One(self.seen(&read)))
            }
            Call::PeekTwoLeaves if !within(c.number + 1) => Ok(Answer::None),
            Call::PeekTwoLeaves => {
                let first = self.read(c.number, c.place).map_err(|r| (r, c.number))?;
                if count(&first.tree).is_some() {
                    return Ok(Answer::None);
                }
                let second = self.read(c.number + 1, first.next).map_err(|r| (r, c.number + 1))?;
                let leaf = count(&second.tree).is_none();
                Ok(if leaf { Answer::Two(self.seen(&first), self.seen(&second)) } else { Answer::None })
            }
        }
    }

    /// The answer, and the next cursor in place; a refused call leaves it as it is.
    pub fn cursor(&self, call: Call, c: &mut Cursor) -> Answer {
        if !self.sized() {
            return Answer::Refused(1, 0);
        }
        if !self.agrees(c) {
            return Answer::Refused(10, 0);
        }
        let mut next = c.clone();
        match self.call(call, &mut next) {
            Ok(answer) => {
                *c = next;
                answer
            }
            Err((r, n)) => Answer::Refused(r, n),
        }
    }
}
