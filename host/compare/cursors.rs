//! Cursors over stored buffers, in both forms: the answer, the state and all of the arrays after every call.
use crate::buffers::{Case, REPORTS, Stored, stored};
use crate::plain_buffer::{Answer, CALLS, Call, Cursor, Open};
use crate::proved::{self, Stack};
use crate::random::Random;
use crate::reports;
use crate::tally::{Tally, panics};
use crate::walks::{expected, lent, list_words};
use crate::words;
use tt::{Leaf, TokenTree};

/// A cursor beside its arrays; what lies past the open subtrees is noise.
#[derive(Clone)]
struct Held {
    cursor: Cursor,
    stack: Stack,
}

impl Held {
    fn new(r: &mut Random, cursor: Cursor) -> Held {
        let mut stack = Stack::EMPTY;
        if r.one_in(2) {
            let noise = r.next();
            stack = Stack { numbers: [noise as u32; 256], counts: [(noise >> 32) as u32; 256], places: [noise as usize; 256] };
        }
        for (i, o) in cursor.open.iter().enumerate().take(256) {
            (stack.numbers[i], stack.counts[i], stack.places[i]) = (o.number as u32, o.count as u32, o.place as usize);
        }
        Held { cursor, stack }
    }
}

/// The reports of what is handed back are the source's, of the trees at these places.
fn reported(tally: &mut Tally, case: Case, call: Call, before: &Cursor, answer: &Answer) -> bool {
    match (answer, before.open.last()) {
        (Answer::One(seen), Some(open)) if call == Call::End => case.reported(tally, seen, open.place),
        (Answer::One(seen), _) => case.reported(tally, seen, before.place),
        (Answer::Two(first, second), _) => {
            let (_, behind) = reports::tree(case.top, before.place as usize);
            case.reported(tally, first, before.place) && case.reported(tally, second, behind as u64)
        }
        _ => true,
    }
}

/// One call by both forms, held to the plain one.
fn call(tally: &mut Tally, case: Case, r: &mut Random, call: Call, held: &mut Held) -> Answer {
    let (seed, s) = (case.seed, case.stored);
    let before = held.cursor.clone();
    let mut then = before.clone();
    let answer = s.plain().cursor(call, &mut then);
    let reported = reported(tally, case, call, &before, &answer);
    let (next, words) = lent(r, 32);
    let short = next.len() < 3 || words.len() < 32;
    let told = if short { Answer::Refused(6, 0) } else { answer };
    tally.answered(format!("{call:?}, {}", told.sort()));
    let want = expected(&told, [then.place, then.number, then.open.len() as u64], &next, &words);
    let mut stack = held.stack.clone();
    if then.open.len() > before.open.len() {
        let (d, o) = (before.open.len(), then.open[before.open.len()]);
        (stack.numbers[d], stack.counts[d], stack.places[d]) = (o.number as u32, o.count as u32, o.place as usize);
    }
    let after = if short { &held.stack } else { &stack };
    for by_value in [false, true] {
        let (mut ours, mut next, mut words) = (held.stack.clone(), next.clone(), words.clone());
        let at = (before.place as usize, before.number as u32, before.open.len());
        let reply = proved::cursor(by_value, s.lent(), call as u32, at, &mut ours, &mut next, &mut words);
        let same = reply == want.reply && next == want.next && words == want.words && ours == *after && reported;
        tally.case(same, || {
            format!("{call:?} in buffer {seed}, by value {by_value}, from {before:?}: {reply:?}, wanted {:?}", want.reply)
        });
    }
    *held = Held { cursor: then, stack };
    answer
}

fn leaves(both: Option<[Leaf; 2]>) -> Answer<[u32; 13]> {
    both.map_or(Answer::None, |[a, b]| Answer::Two(words::words(&TokenTree::Leaf(a)), words::words(&TokenTree::Leaf(b))))
}

/// What the source answers; it gives up where ours is 10.
fn theirs(cursor: &mut tt::buffer::Cursor<'_>, call: Call, refused: bool) -> Answer<[u32; 13]> {
    match call {
        Call::Bump | Call::End if refused => {
            let gave_up = panics(|| if call == Call::Bump { cursor.bump() } else { _ = cursor.end() });
            if gave_up { Answer::Refused(10, 0) } else { Answer::Done }
        }
        Call::Bump => {
            cursor.bump();
            Answer::Done
        }
        Call::End => Answer::One(words::words(&TokenTree::Subtree(cursor.end()))),
        Call::BumpOrEnd => {
            cursor.bump_or_end();
            Answer::Done
        }
        Call::TokenTree => cursor.token_tree().map_or(Answer::None, |t| Answer::One(words::words(&t))),
        Call::PeekTwoLeaves => leaves(cursor.peek_two_leaves()),
    }
}

/// To the end and beyond; the source goes along over a buffer that the check passes.
fn from_the_start(tally: &mut Tally, case: Case, r: &mut Random, passes: bool) -> Vec<Cursor> {
    let mut cursor = passes.then(|| case.top.as_token_trees().cursor());
    let mut held = Held::new(r, Cursor { number: 0, place: 0, open: vec![] });
    let on = r.pick(&[1, 2, 4]);
    let (mut seen, mut stuck) = (vec![held.cursor.clone()], 0);
    while stuck < 12 {
        let now = if r.one_in(on) { r.pick(&CALLS[..]) } else { Call::BumpOrEnd };
        let before = (held.cursor.number, held.cursor.open.len());
        let answer = call(tally, case, r, now, &mut held);
        if let Some(cursor) = &mut cursor {
            let theirs = theirs(cursor, now, answer == Answer::Refused(10, 0));
            tally.answered(format!("source's {now:?}, {}", theirs.sort()));
            let c = &held.cursor;
            let state = (c.number as usize, case.stored.bytes.len() - c.place as usize, c.open.len());
            tally.case(answer.map(list_words) == theirs && state == cursor.state(), || {
                format!("source's {now:?} in buffer {} behind {before:?}: {theirs:?}, ours {answer:?}", case.seed)
            });
        }
        stuck = if before == (held.cursor.number, held.cursor.open.len()) { stuck + 1 } else { 0 };
        if r.one_in(4) {
            seen.push(held.cursor.clone());
        }
    }
    seen
}

/// One number off, one open subtree more or fewer, or wild.
fn invented(r: &mut Random, s: &Stored, seen: &[Cursor]) -> Cursor {
    let mut c = seen[r.below(seen.len() as u64) as usize].clone();
    let (bytes, trees, most) = (s.bytes.len() as u64, u64::from(s.trees), u64::from(u32::MAX));
    let off = |r: &mut Random, x: u64, most: u64| if r.one_in(2) { x.saturating_sub(1) } else { (x + 1).min(most) };
    let wild = [0, 1, bytes, trees, 1 << 31, most - 1, most];
    match r.below(9) {
        0 => c.place = off(r, c.place, u64::MAX - 1),
        1 => c.number = off(r, c.number, most),
        2 => _ = c.open.pop(),
        3 => c.open.push(Open { number: c.number.saturating_sub(1), count: r.below(3), place: c.place.saturating_sub(1) }),
        4 => c.open.resize(r.pick(&[255, 256, 257]), Open { number: 0, count: most, place: 0 }),
        5..8 if !c.open.is_empty() => {
            let i = r.below(c.open.len() as u64) as usize;
            let o = &mut c.open[i];
            match r.below(4) {
                0 => o.number = off(r, o.number, most),
                1 => o.count = off(r, o.count, most),
                2 => o.place = off(r, o.place, u64::MAX - 1),
                _ => *o = Open { number: r.pick(&wild), count: r.pick(&wild), place: r.pick(&wild) },
            }
        }
        _ => {
            c.number = r.pick(&wild);
            c.place = r.pick(&[0, 1, bytes, bytes + 1, u64::MAX]);
        }
    }
    c
}

/// 256 open subtrees that nest, before any tree: a 257th is 4.
fn full(r: &mut Random, s: &Stored, seen: &[Cursor]) -> Cursor {
    let c = &seen[r.below(seen.len() as u64) as usize];
    let (number, place) = (c.number.max(256), c.place.max(256));
    let open = (0..256).map(|i| Open { number: i, count: u64::from(s.trees) + 600 - 2 * i, place: i }).collect();
    Cursor { number, place, open }
}

pub fn run(tally: &mut Tally, buffers: u64) {
    for seed in 0..buffers {
        let (mut r, s) = stored(seed);
        let (passes, top) = (s.plain().check().is_ok(), s.unchecked());
        let (case, r) = (Case { seed, stored: &s, top: &top }, &mut r);
        let seen = from_the_start(tally, case, r, passes);
        for i in 0..8 {
            let from = if i == 0 { full(r, &s, &seen) } else { invented(r, &s, &seen) };
            let mut held = Held::new(r, from);
            for _ in 0..3 {
                let now = r.pick(&CALLS[..]);
                call(tally, case, r, now, &mut held);
            }
        }
    }
    for call in CALLS {
        for sort in ["refused 1", "refused 2", "refused 6", "refused 7", "refused 8", "refused 10"] {
            // `end` reads what was read before: only an invented place is refused there
            let often = if call == Call::End { buffers / 10_000 } else { buffers / 200 };
            tally.assert_answered(&[&format!("{call:?}, {sort}")], often);
        }
    }
    let answers = [
        "Bump, done", "End, one", "BumpOrEnd, done", "TokenTree, one", "TokenTree, none",
        "PeekTwoLeaves, two", "PeekTwoLeaves, none",
        "source's Bump, done", "source's Bump, refused 10", "source's End, one", "source's End, refused 10", "source's BumpOrEnd, done",
        "source's TokenTree, one", "source's TokenTree, none", "source's PeekTwoLeaves, two", "source's PeekTwoLeaves, none",
    ];
    tally.assert_answered(&answers, buffers / 100);
    tally.assert_answered(&REPORTS, buffers / 100);
    // 256 subtrees are open before the tree's number in long lists alone
    tally.assert_answered(&["Bump, refused 4", "BumpOrEnd, refused 4"], buffers / 1_000);
}
