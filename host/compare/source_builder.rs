//! The source's builder, followed step by step, and the classes of differences from it (docs/DIFFERENCES.md, 1 to 3).
use crate::plain_builder::reaches_past;
use crate::plain_list::Refusal;
use crate::proved::Builder;
use crate::steps::Step;
use crate::tally::caught;
use crate::words;
use std::collections::{BTreeMap, HashMap};
use tt::{Delimiter, TokenTree, TopSubtree, TopSubtreeBuilder};

pub const RESTORE_PANICS: &str = "1, restore past an open subtree: the source panics";
pub const COUNT_TOO_LOW: &str = "1, restore past an open subtree: the source's count of its part is too low";
pub const BUILD_PANICS: &str = "1, build where such a count is 0: the source panics";
pub const CUT: &str = "2, 11 for a closed subtree that reaches past the point: the source cuts it";
pub const CUT_BUILD: &str = "2, 11 for a closed subtree that reaches past the point: the source's build then panics";
pub const OTHERS_OPEN: &str = "2, 11 for other open subtrees than the point's: the source goes on";
pub const NO_TREES: &str = "2, 11 for a point of 0 trees: the source panics";
pub const CLOSE_NONE: &str = "3, close with none open: the source panics";
pub const BUILD_OPEN: &str = "3, build while one is open: the source panics";

/// How often each class was met, and the smallest script.
#[derive(Default)]
pub struct Classes(BTreeMap<&'static str, (u64, usize, String)>);

impl Classes {
    pub fn note(&mut self, class: &'static str, steps: usize, script: impl FnOnce() -> String) {
        let entry = self.0.entry(class).or_insert((0, usize::MAX, String::new()));
        entry.0 += 1;
        if steps < entry.1 {
            (entry.1, entry.2) = (steps, script());
        }
    }

    pub fn print(&self) {
        for (class, (times, _, script)) in &self.0 {
            println!("  {class}: {times} times; first, of the shortest: {script}");
        }
    }
}

type Part = [u32; 3];

fn part(span: &[u32]) -> Part {
    [span[0], span[1], span[2]]
}

/// A tree's parts, a subtree's two.
fn parts(tree: &[u32]) -> impl Iterator<Item = Part> {
    [Some(part(&tree[3..])), (tree[0] == 3).then(|| part(&tree[8..]))].into_iter().flatten()
}

#[derive(Clone)]
pub struct Followed {
    /// None once it has panicked where ours goes on.
    builder: Option<TopSubtreeBuilder>,
    /// How often each part occurs, as the source counts.
    counts: HashMap<Part, i64>,
}

impl Followed {
    pub fn new(kind: u32, spans: &[u32; 10]) -> Followed {
        let delimiter = Delimiter { open: words::span(&spans[..5]), close: words::span(&spans[5..]), kind: words::delimiter_kind(kind) };
        Followed { builder: Some(TopSubtreeBuilder::new(delimiter)), counts: HashMap::new() }
    }

    /// Whether the source is where ours is.
    fn is_at(&self, b: &Builder, list: &[u32]) -> bool {
        let Some(source) = &self.builder else { return true };
        let trees = source.list().iter().map(words::words).eq(list[..13 * b.count as usize].chunks(13).map(|w| <[u32; 13]>::try_from(w).unwrap()));
        trees && source.open_trees().iter().map(|&m| m as u32).eq(b.opened[..b.depth].iter().copied())
    }

    /// The parts taken off by a step, or added.
    fn count(&mut self, step: &Step, b: &Builder, list: &[u32]) {
        let mut add = |part: Part, n: i64| *self.counts.entry(part).or_default() += n;
        match step {
            Step::Push(words) => add(part(&words[3..]), 1),
            Step::Open(_, span) | Step::Close(span) => add(part(span), 1),
            Step::Restore([trees, _]) if *trees < b.count => {
                list[13 * *trees as usize..13 * b.count as usize].chunks(13).flat_map(parts).for_each(|p| add(p, -1));
            }
            Step::Restore(_) => {}
        }
    }

    fn apply(&mut self, step: &Step) -> Option<()> {
        let builder = self.builder.as_mut()?;
        caught(|| match step {
            Step::Push(leaf) => {
                let TokenTree::Leaf(leaf) = words::tree(leaf) else { unreachable!() };
                builder.push(leaf);
            }
            Step::Open(kind, span) => builder.open(words::delimiter_kind(*kind), words::span(span)),
            Step::Close(span) => builder.close(words::span(span)),
            Step::Restore([trees, opens]) => builder.restore_at(*trees as usize, *opens as usize),
        })
    }

    /// Goes along with a step of ours from `b` and `list`; whether all is as due.
    pub fn step(&mut self, step: &Step, reply: Result<(), Refusal>, b: &Builder, list: &[u32], note: &mut dyn FnMut(&'static str)) -> bool {
        if self.builder.is_none() {
            return true;
        }
        let mut next = self.clone();
        next.count(step, b, list);
        let spoiled = next.counts.values().any(|&n| n < 0);
        match (reply, step) {
            (Err((1 | 2 | 4 | 6, _)), _) => true,
            (Err((10, _)), Step::Close(_)) => {
                note(CLOSE_NONE);
                next.apply(step).is_none()
            }
            (Err((11, _)), Step::Restore([trees, _])) => {
                let went_on = next.apply(step).is_some();
                let class = if *trees == 0 { NO_TREES } else if reaches_past(b, list, *trees) { CUT } else { OTHERS_OPEN };
                note(class);
                let build_panics = || next.builder.as_ref().is_some_and(|s| s.open_trees().is_empty()) && next.source_build(false).is_none();
                if went_on && class == CUT && build_panics() {
                    note(CUT_BUILD);
                }
                went_on != (spoiled || *trees == 0)
            }
            (Err(_), _) => false,
            (Ok(()), _) => {
                let dropped = matches!(step, Step::Restore([trees, _]) if b.opened[..b.depth].iter().any(|m| m >= trees));
                let went_on = next.apply(step).is_some();
                if !went_on {
                    note(RESTORE_PANICS);
                    next.builder = None;
                } else if dropped {
                    note(COUNT_TOO_LOW);
                }
                *self = next;
                went_on != spoiled
            }
        }
    }

    /// After a step: whether list and open trees are the same, and the point that would be taken.
    pub fn stands_with(&mut self, b: &Builder, list: &[u32]) -> bool {
        let point = (b.count as usize, b.depth);
        self.is_at(b, list) && self.builder.as_mut().is_none_or(|s| s.point() == point)
    }

    fn source_build(&self, skip: bool) -> Option<TopSubtree> {
        let builder = self.builder.clone()?;
        caught(|| if skip { builder.build_skip_top_subtree() } else { builder.build() })
    }

    /// What the source builds where ours writes the list that is due, or what class its panic is; whether that is as due.
    pub fn build(&self, skip: bool, due: &Result<Vec<u32>, Refusal>, note: &mut dyn FnMut(&'static str)) -> (Option<TopSubtree>, bool) {
        if self.builder.is_none() {
            return (None, true);
        }
        let top = self.source_build(skip);
        let Ok(list) = due else {
            note(BUILD_OPEN);
            return (None, top.is_none());
        };
        let mut counts = self.counts.clone();
        if skip && self.builder.as_ref().is_some_and(|s| s.list().len() > list.len() / 13) {
            parts(list).for_each(|p| *counts.entry(p).or_default() -= 1);
        }
        let used_up = list.chunks(13).skip(1).flat_map(parts).any(|p| counts.get(&p).is_none_or(|&n| n == 0));
        let spoiled = used_up || counts.values().any(|&n| n < 0);
        if top.is_none() {
            note(BUILD_PANICS);
        }
        let as_due = top.is_some() != spoiled;
        (top, as_due)
    }
}
