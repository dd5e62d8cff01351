//! What the source answers over stored buffers: walk steps, cursor calls, last spans, roots rewritten. A tree is followed by the report of its
//! place, a last span by its own.
use crate::random::Random;
use crate::reports;
use crate::tally::panics;
use crate::text::Text;
use crate::words;
use tt::buffer::Cursor;
use tt::{DelimSpan, TokenTree, TopSubtree};

const MOST_CALLS: usize = 40;

/// The list words of a tree, and the report of its place.
fn tree_at(text: &mut Text, top: &TopSubtree, tree: &TokenTree, place: usize) {
    text.tree(&words::words(tree));
    text.numbers(&reports::tree(top, place).0);
}

/// `a` advance, `s` advance_skip_subtree: the tree or none, and the place behind.
fn walk(text: &mut Text, r: &mut Random, top: &TopSubtree, skips: bool) {
    let mut walk = top.walk_from(0);
    text.line("walk");
    for n in 0..(top.trees() + 2).min(MOST_CALLS) {
        let skip = skips && r.one_in(3) && (n > 0 || r.one_in(8));
        text.word(if skip { "s" } else { "a" });
        let place = walk.place();
        let tree = if skip { walk.advance_skip_subtree() } else { walk.advance() };
        match tree {
            None => text.word("-"),
            Some(tree) => tree_at(text, top, &tree, place),
        }
        text.number(walk.place());
    }
}

/// `.` nothing handed back, `-` none, `!` given up, `t` a tree, `p` two leaves. The place is that of the tree, or the first, that may be handed
/// back.
fn answered(text: &mut Text, top: &TopSubtree, cursor: &mut Cursor<'_>, call: &str, place: usize) {
    let mut ended = None;
    let gave_up = panics(|| match call {
        "b" => cursor.bump(),
        "e" => ended = Some(TokenTree::Subtree(cursor.end())),
        "o" => cursor.bump_or_end(),
        _ => {}
    });
    let tree = if call == "t" { cursor.token_tree() } else { ended };
    let leaves = if call == "p" { cursor.peek_two_leaves() } else { None };
    match (tree, leaves) {
        _ if gave_up => text.word("!"),
        (Some(tree), _) => {
            text.word("t");
            tree_at(text, top, &tree, place);
        }
        (_, Some([first, second])) => {
            text.word("p");
            tree_at(text, top, &TokenTree::Leaf(first), place);
            tree_at(text, top, &TokenTree::Leaf(second), reports::tree(top, place).1);
        }
        _ => text.word(if "tp".contains(call) { "-" } else { "." }),
    }
}

/// `b` bump, `e` end, `o` bump_or_end, `t` token_tree, `p` peek_two_leaves: the answer, then trees passed, place, open subtrees.
fn cursor(text: &mut Text, r: &mut Random, top: &TopSubtree) {
    let mut cursor = top.as_token_trees().cursor();
    let on = r.pick(&[1, 2, 4]);
    // where the open subtrees begin
    let mut opened = Vec::new();
    text.line("cursor");
    for _ in 0..(2 * top.trees() + 4).min(MOST_CALLS) {
        let call = if r.one_in(on) { r.pick(&["b", "e", "o", "t", "p"]) } else { "o" };
        text.word(call);
        let here = top.bytes().len() - cursor.state().1;
        let last = opened.last().copied().unwrap_or_default();
        answered(text, top, &mut cursor, call, if call == "e" { last } else { here });
        let (trees, left, open) = cursor.state();
        opened.resize(open, here);
        [trees, top.bytes().len() - left, open].into_iter().for_each(|n| text.number(n));
    }
}

/// That of the last span of all, which is the last tree's.
fn last_report(top: &TopSubtree) -> u32 {
    let mut walk = top.walk_from(0);
    let places = (0..top.trees()).map(|_| {
        let place = walk.place();
        walk.advance();
        place
    });
    reports::last(top, places.last().expect("a root"))
}

/// Of all trees, and of those below the root: place, number and trees left of the walk, then the span or none.
fn last_spans(text: &mut Text, top: &TopSubtree) {
    let below = [33, 1, top.trees() - 1];
    for (from, view) in [([0, 0, top.trees()], top.as_token_trees()), (below, top.token_trees())] {
        text.line("last");
        from.into_iter().for_each(|n| text.number(n));
        match view.last_span() {
            None => text.word("-"),
            Some(span) => {
                text.numbers(&words::span_words(&span));
                text.number(last_report(top));
            }
        }
    }
}

pub fn read(text: &mut Text, r: &mut Random, top: &TopSubtree) {
    walk(text, r, top, false);
    walk(text, r, top, true);
    cursor(text, r, top);
    last_spans(text, top);
}

/// The 33 bytes of the root afterwards, behind them nothing has changed; for spans also the last two parts.
pub fn rewritten(text: &mut Text, r: &mut Random, top: &TopSubtree) {
    let (kind, before) = (r.below(4) as u32, top.bytes().to_vec());
    let mut changed = top.clone();
    changed.set_top_subtree_delimiter_kind(words::delimiter_kind(kind));
    text.line("kind");
    text.number(kind);
    text.bytes(&changed.bytes()[..33]);
    assert_eq!(changed.bytes()[33..], before[33..]);

    let mut spans: Vec<u32> = (0..10).map(|_| r.next() as u32).collect();
    for half in spans.chunks_mut(5) {
        let most = u64::from(u32::MAX);
        half[3] = r.near(&[131_072, 1 << 27, most], most) as u32;
        half[4] = r.near(&[256, 1 << 18, most], most - u64::from(half[3])) as u32;
    }
    let mut changed = top.clone();
    changed.set_top_subtree_delimiter_span(DelimSpan { open: words::span(&spans[..5]), close: words::span(&spans[5..]) });
    text.line("spans");
    text.numbers(&spans);
    text.bytes(&changed.bytes()[..33]);
    assert_eq!(changed.bytes()[33..], before[33..]);
    let parts = changed.part_list().concat();
    text.numbers(&parts[parts.len() - 6..]);
}
