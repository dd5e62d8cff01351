//! Walks over stored buffers: the answer and the next walk after every step, and the last span of what a walk has left.
use crate::buffers::{Case, REPORTS, Stored, stored};
use crate::plain_buffer::{Answer, Last, Seen, Walk};
use crate::proved;
use crate::random::Random;
use crate::reports;
use crate::tally::Tally;
use crate::words;
use tt::iter::{TtElement, TtIter};

/// What a call leaves in lent words; past what it stores they are unchanged.
pub struct Left {
    pub reply: Result<u64, (u64, u64)>,
    pub next: Vec<usize>,
    pub words: Vec<u32>,
}

/// Lent words with something in them, now and then one too few or one too many.
pub fn lent(r: &mut Random, most: usize) -> (Vec<usize>, Vec<u32>) {
    let mut few = |n: usize| if r.one_in(30) { n - 1 + 2 * r.below(2) as usize } else { n };
    (vec![77; few(3)], vec![99; few(most)])
}

/// What an answer and the next state come to.
pub fn expected(answer: &Answer, state: [u64; 3], next: &[usize], words: &[u32]) -> Left {
    let (mut next, mut words) = (next.to_vec(), words.to_vec());
    let reply = match *answer {
        Answer::Refused(r, n) => return Left { reply: Err((r, n)), next, words },
        Answer::None => Ok(0),
        Answer::Done => Ok(3),
        Answer::One(t) => {
            words[..16].copy_from_slice(&t);
            Ok(1)
        }
        Answer::Two(t, u) => {
            words[..16].copy_from_slice(&t);
            words[16..32].copy_from_slice(&u);
            Ok(2)
        }
    };
    next[..3].copy_from_slice(&state.map(|x| x as usize));
    Left { reply, next, words }
}

/// The list words, which are all that the source hands back.
pub fn list_words(seen: Seen) -> [u32; 13] {
    seen[..13].try_into().unwrap()
}

fn numbers(w: Walk) -> (usize, u32, u32) {
    (w.place as usize, w.number as u32, w.left as u32)
}

/// One step, held to the plain one.
fn step(tally: &mut Tally, case: Case, r: &mut Random, w: Walk, skip: bool) -> (Answer, Walk) {
    let (seed, s) = (case.seed, case.stored);
    let (answer, then) = s.plain().walk(w, skip);
    let reported = if let Answer::One(seen) = &answer { case.reported(tally, seen, w.place) } else { true };
    let (next, words) = lent(r, 16);
    let short = next.len() < 3 || words.len() < 16;
    let told = if short { Answer::Refused(6, 0) } else { answer };
    tally.answered(format!("{}, {}", if skip { "skip" } else { "advance" }, told.sort()));
    let want = expected(&told, [then.place, then.number, then.left], &next, &words);
    let (mut next, mut words) = (next, words);
    let reply = proved::walk(s.lent(), numbers(w), skip, &mut next, &mut words);
    let same = reply == want.reply && next == want.next && words == want.words && reported;
    tally.case(same, || format!("walk in buffer {seed} from {w:?}, skip {skip}: {reply:?}, wanted {:?}", want.reply));
    (answer, then)
}

/// To the end and beyond; the source goes along over a buffer that the check passes.
fn from_the_start(tally: &mut Tally, case: Case, r: &mut Random, passes: bool) -> Vec<Walk> {
    let mut w = case.stored.plain().fresh_walk();
    let mut theirs = passes.then(|| case.top.walk_from(0));
    let skips = r.pick(&[1, 2, 3, 10, 1_000_000]);
    let (mut seen, mut stuck) = (vec![w], 0);
    while stuck < 3 {
        // the root is gone past only now and then
        let skip = r.one_in(skips) && (w.number > 0 || r.one_in(4));
        let (answer, then) = step(tally, case, r, w, skip);
        if let Some(walk) = &mut theirs {
            let tree = if skip { walk.advance_skip_subtree() } else { walk.advance() };
            let theirs = tree.map_or(Answer::None, |t| Answer::One(words::words(&t)));
            let same = answer.map(list_words) == theirs && walk.place() as u64 == then.place;
            tally.answered(format!("source's {}", theirs.sort()));
            tally.case(same, || format!("source's walk in buffer {} from {w:?}, skip {skip}: {theirs:?}, ours {answer:?}", case.seed));
        }
        stuck = if then == w { stuck + 1 } else { 0 };
        w = then;
        seen.push(w);
    }
    seen
}

/// One number off, or wild.
fn invented(r: &mut Random, s: &Stored, seen: &[Walk]) -> Walk {
    let mut w = r.pick(seen);
    let (bytes, trees, most) = (s.bytes.len() as u64, u64::from(s.trees), u64::from(u32::MAX));
    let off = |r: &mut Random, x: u64, most: u64| if r.one_in(2) { x.saturating_sub(1) } else { (x + 1).min(most) };
    match r.below(6) {
        0 => w.place = off(r, w.place, u64::MAX - 1),
        1 => w.number = off(r, w.number, most),
        2 => w.left = off(r, w.left, most),
        3 => w.left = r.below(w.left + 1),
        4 => w = Walk { place: r.below(bytes + 2), number: r.below(trees + 2), left: r.below(trees + 2) },
        _ => {
            let wild = [0, 1, bytes, 1 << 31, most, 1 << 32, u64::MAX];
            w = Walk { place: r.pick(&wild), number: r.pick(&wild).min(most), left: r.pick(&wild).min(most) };
        }
    }
    w
}

/// What the plain version says, where it is no refusal.
fn last_span(tally: &mut Tally, case: Case, r: &mut Random, w: Walk) -> Option<Option<Last>> {
    let answer = case.stored.plain().last_span(w);
    let words = vec![99; r.pick(&[5, 6, 6, 6, 6, 6, 6, 7])];
    let (mut left, mut reported) = (words.clone(), true);
    let reply = match answer {
        _ if words.len() < 6 => Err((6, 0)),
        Err(refusal) => Err(refusal),
        Ok(None) => Ok(0),
        Ok(Some(last)) => {
            left[..6].copy_from_slice(&last.words);
            reported = last.words[5] == reports::last(case.top, last.place as usize);
            tally.answered(format!("last span {}", last.words[5]));
            Ok(1)
        }
    };
    let mut words = words;
    let ours = proved::last_span(case.stored.lent(), numbers(w), &mut words);
    let same = ours == reply && words == left && reported;
    tally.case(same, || format!("last span in buffer {} from {w:?}: {ours:?}, wanted {reply:?}", case.seed));
    answer.ok()
}

/// The last span of what is left at each place of a run of siblings, and so inside each of them.
fn last_spans(tally: &mut Tally, case: Case, r: &mut Random, mut iter: TtIter<'_>, mut w: Walk) {
    loop {
        if r.one_in(8) || w.number < 4 {
            let theirs = iter.remaining().last_span().map(|x| words::span_words(&x));
            let ours = last_span(tally, case, r, w);
            let spans = ours.map(|last| last.map(|x| x.words[..5].try_into().unwrap()));
            tally.case(spans == Some(theirs), || format!("source's last span in buffer {} from {w:?}: {theirs:?}, ours {ours:?}", case.seed));
        }
        let plain = case.stored.plain();
        match iter.next() {
            None => return,
            Some(TtElement::Leaf(_)) => {}
            Some(TtElement::Subtree(subtree, inside)) => {
                let into = plain.walk(w, false).1;
                last_spans(tally, case, r, inside, Walk { left: subtree.len.into(), ..into });
            }
        }
        w = plain.walk(w, true).1;
    }
}

pub fn run(tally: &mut Tally, buffers: u64) {
    for seed in 0..buffers {
        let (mut r, s) = stored(seed);
        let (passes, top) = (s.plain().check().is_ok(), s.unchecked());
        let (case, r) = (Case { seed, stored: &s, top: &top }, &mut r);
        let seen = from_the_start(tally, case, r, passes);
        for _ in 0..6 {
            let mut w = invented(r, &s, &seen);
            last_span(tally, case, r, w);
            for _ in 0..3 {
                let skip = r.one_in(2);
                w = step(tally, case, r, w, skip).1;
            }
        }
        if passes {
            last_spans(tally, case, r, top.as_token_trees().iter(), s.plain().fresh_walk());
        }
    }
    for call in ["advance", "skip"] {
        for sort in ["one", "none", "refused 1", "refused 2", "refused 6", "refused 7", "refused 8", "refused 10"] {
            tally.assert_answered(&[&format!("{call}, {sort}")], buffers / 100);
        }
    }
    tally.assert_answered(&["skip, refused 3", "skip, refused 9", "source's one", "source's none"], buffers / 100);
    tally.assert_answered(&REPORTS, buffers / 100);
    tally.assert_answered(&["last span 0", "last span 1"], buffers / 100);
}
