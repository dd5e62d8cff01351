//! The plain machine of the walk rule beside the proved functions: it knows the list, where each tree begins and what the source says of the
//! spans there, and is fed the calls alone.
use crate::buffers::{Stored, stored};
use crate::plain::Report;
use crate::plain_buffer::{Answer, CALLS, Call, Seen};
use crate::proved::{self, Stack};
use crate::random::Random;
use crate::reports;
use crate::tally::Tally;
use crate::walks::{expected, list_words};

/// A list in pre-order, 13 words a tree; places has one entry more, the end.
struct Machine {
    words: Vec<[u32; 13]>,
    reports: Vec<Report>,
    places: Vec<u64>,
    n: usize,
    open: Vec<usize>,
}

impl Machine {
    /// The list that a buffer is read as, tree after tree.
    fn of(s: &Stored) -> Machine {
        let (plain, mut walk) = (s.plain(), s.plain().fresh_walk());
        let mut m = Machine { words: vec![], reports: reports::all(&s.unchecked()), places: vec![0], n: 0, open: vec![] };
        while let (Answer::One(seen), next) = plain.walk(walk, false) {
            m.words.push(list_words(seen));
            m.places.push(next.place);
            walk = next;
        }
        m
    }

    fn is_subtree(&self, n: usize) -> bool {
        self.words[n][0] == 3
    }

    /// The number behind the last descendant.
    fn end(&self, n: usize) -> usize {
        n + 1 + self.words[n][1] as usize
    }

    /// What is known of a tree by its number.
    fn seen(&self, n: usize) -> Seen {
        let mut seen = [0; 16];
        seen[..13].copy_from_slice(&self.words[n]);
        seen[13..].copy_from_slice(&self.reports[n]);
        seen
    }

    /// The number of the tree that a step hands back.
    fn walk(&mut self, skip: bool) -> Answer<usize> {
        if self.n == self.words.len() {
            return Answer::None;
        }
        let tree = self.n;
        self.n = if skip && self.is_subtree(self.n) { self.end(self.n) } else { self.n + 1 };
        Answer::One(tree)
    }

    fn bump(&mut self) -> Answer<usize> {
        if self.n < self.words.len() {
            if self.is_subtree(self.n) {
                self.open.push(self.n);
            }
            self.n += 1;
        }
        Answer::Done
    }

    fn cursor(&mut self, call: Call) -> Answer<usize> {
        let last = self.open.last().copied();
        let closing = last.is_some_and(|m| self.end(m) == self.n);
        let within = |n: usize| n < self.words.len() && last.is_none_or(|m| n < self.end(m));
        match call {
            Call::Bump if closing => Answer::Refused(10, 0),
            Call::Bump => self.bump(),
            Call::End if closing => Answer::One(self.open.pop().unwrap()),
            Call::End => Answer::Refused(10, 0),
            Call::BumpOrEnd if closing => {
                self.open.pop();
                Answer::Done
            }
            Call::BumpOrEnd => self.bump(),
            Call::TokenTree if within(self.n) => Answer::One(self.n),
            Call::PeekTwoLeaves if within(self.n + 1) && !self.is_subtree(self.n) && !self.is_subtree(self.n + 1) => {
                Answer::Two(self.n, self.n + 1)
            }
            Call::TokenTree | Call::PeekTwoLeaves => Answer::None,
        }
    }
}

/// One list of walk calls, as one claim: it ends at the first difference.
fn walks(r: &mut Random, s: &Stored, calls: usize) -> bool {
    let mut m = Machine::of(s);
    let mut at = (0, 0, s.trees);
    (0..calls).all(|_| {
        let skip = r.one_in(3) && m.n > 0;
        let answer = m.walk(skip).map(|n| m.seen(n));
        let state = [m.places[m.n], m.n as u64, (m.words.len() - m.n) as u64];
        let (mut next, mut words) = ([7; 3], [9; 16]);
        let want = expected(&answer, state, &next, &words);
        let reply = proved::walk(s.lent(), at, skip, &mut next, &mut words);
        at = (next[0], next[1] as u32, next[2] as u32);
        reply == want.reply && next[..] == want.next && words[..] == want.words
    })
}

/// One list of cursor calls, by one form.
fn cursors(r: &mut Random, s: &Stored, calls: usize, by_value: bool) -> bool {
    let mut m = Machine::of(s);
    let (mut at, mut stack) = ((0, 0, 0), Stack::EMPTY);
    (0..calls).all(|_| {
        let call = if r.one_in(2) { r.pick(&CALLS[..]) } else { Call::BumpOrEnd };
        let answer = m.cursor(call).map(|n| m.seen(n));
        let state = [m.places[m.n], m.n as u64, m.open.len() as u64];
        let (mut next, mut words) = ([at.0, at.1 as usize, at.2], [9; 32]);
        let want = expected(&answer, state, &next, &words);
        let reply = proved::cursor(by_value, s.lent(), call as u32, at, &mut stack, &mut next, &mut words);
        at = (next[0], next[1] as u32, next[2]);
        let open = m.open.iter().enumerate().all(|(i, &n)| {
            (stack.numbers[i], stack.counts[i], stack.places[i]) == (n as u32, m.words[n][1], m.places[n] as usize)
        });
        reply == want.reply && next[..] == want.next && words[..] == want.words && open
    })
}

pub fn run(tally: &mut Tally, buffers: u64) {
    for seed in 0..buffers {
        let (mut r, s) = stored(seed);
        if s.plain().check().is_err() {
            continue;
        }
        let calls = 20 + 4 * s.trees as usize;
        tally.case(walks(&mut r, &s, calls), || format!("walk calls over buffer {seed}"));
        for by_value in [false, true] {
            tally.case(cursors(&mut r, &s, calls, by_value), || format!("cursor calls over buffer {seed}, by value {by_value}"));
        }
    }
}
