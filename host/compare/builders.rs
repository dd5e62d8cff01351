//! Builders, by every script of few steps: ours beside the plain version and, as far as that goes, beside the source.
use crate::lists::rooms_alike;
use crate::plain_builder as plain;
use crate::plain_list::{self, Refusal};
use crate::proved::Builder;
use crate::random::Random;
use crate::source_builder::{Classes, Followed};
use crate::steps::{Step, take};
use crate::tally::{Tally, silent};

fn sort(step: &Step) -> &'static str {
    match step {
        Step::Push(_) => "push",
        Step::Open(..) => "open",
        Step::Close(_) => "close",
        Step::Restore(_) => "restore",
    }
}

fn number<T>(reply: Result<T, Refusal>) -> u64 {
    reply.map_or_else(|(number, _)| number, |_| 0)
}

/// A builder with its run, and the source's builder if it is followed.
#[derive(Clone)]
pub struct Site {
    pub b: Builder,
    pub list: Vec<u32>,
    pub source: Option<Followed>,
}

/// What is counted, and the script so far in words.
pub struct Run<'a> {
    pub tally: &'a mut Tally,
    pub classes: Classes,
    pub script: Vec<String>,
    r: Random,
}

impl Run<'_> {
    pub fn new(tally: &mut Tally) -> Run<'_> {
        Run { tally, classes: Classes::default(), script: vec![], r: Random::new(1) }
    }

    pub fn text(&self) -> String {
        format!("new, {}", self.script.join(", "))
    }
}

impl Site {
    /// A run of so many trees; words that no step writes are told apart.
    pub fn run_of(trees: usize) -> Vec<u32> {
        (0..13 * trees as u32).map(|i| 0xAAAA_0000 + i).collect()
    }

    /// `new`, as the plain version has it; no site if it is refused.
    pub fn new(mut list: Vec<u32>, kind: u32, spans: &[u32; 10], run: &mut Run) -> (bool, Option<Site>) {
        let mut want_list = list.clone();
        let (want, want_b) = plain::new(&mut want_list, kind, spans);
        let (reply, b) = Builder::new(&mut list, kind, spans);
        run.tally.answered(format!("new {}", number(reply)));
        let same = reply == want && b == want_b && list == want_list;
        let source = reply.is_ok().then(|| Followed::new(kind, spans));
        (same, reply.is_ok().then_some(Site { b, list, source }))
    }

    /// One step by all; whether all is as due.
    pub fn step(&mut self, step: &Step, run: &mut Run) -> bool {
        let (before, list_before) = (self.b.clone(), self.list.clone());
        let (mut want_b, mut want_list) = (before.clone(), list_before.clone());
        let want = plain::step(&mut want_b, &mut want_list, step);
        let reply = take(&mut self.b, &mut self.list, step);
        run.tally.answered(format!("{} {}", sort(step), number(reply)));
        let same = reply == want && self.b == want_b && self.list == want_list;
        let Some(source) = &mut self.source else { return same };
        let (steps, script) = (run.script.len(), &run.script);
        let mut note = |class| run.classes.note(class, steps, || format!("new, {}", script.join(", ")));
        same && source.step(step, reply, &before, &list_before, &mut note) && source.stands_with(&self.b, &self.list)
    }

    pub fn point(&self, run: &mut Run) -> Option<Option<[u32; 2]>> {
        let point = self.b.point(&self.list);
        run.tally.answered(format!("point {}", number(point)));
        (point == plain::point(&self.b, &self.list)).then_some(point.ok())
    }

    /// `build` or `build_skip_top_subtree`, over the source's own tables if it builds.
    pub fn builds_alike(&self, skip: bool, run: &mut Run) -> bool {
        let due = plain::list_to_build(&self.b, &self.list, skip);
        let call = if skip { "build_skip" } else { "build" };
        let (top, as_due) = match &self.source {
            None => (None, true),
            Some(source) => {
                let (steps, script) = (run.script.len(), &run.script);
                let mut note = |class| run.classes.note(class, steps, || format!("new, {}, {call}", script.join(", ")));
                source.build(skip, &due, &mut note)
            }
        };
        let (mut parts, mut symbols) = match (&top, &due) {
            (Some(top), _) => (top.part_list().concat(), top.symbol_list()),
            (None, Ok(list)) => {
                let own = plain_list::tables(list);
                (own.parts.concat(), own.symbols)
            }
            (None, Err(_)) => (vec![0; 6], vec![]),
        };
        let k = due.as_ref().map_or(self.b.count.min(9) as usize, |list| list.len() / 13);
        let alike = |parts: &[u32], symbols: &[u32], run: &mut Run| {
            let want = due.clone().and_then(|list| plain_list::write(&list, parts, symbols));
            run.tally.answered(format!("{call} {}", number(want.as_ref().map_err(|&r| r))));
            let bytes = |top: &tt::TopSubtree| want.as_ref().is_ok_and(|w| *w.bytes == *top.bytes());
            let ours = rooms_alike(&mut run.r, k, &want, |work, out| self.b.build(&self.list, skip, parts, symbols, work, out));
            (ours, top.as_ref().is_none_or(bytes))
        };
        let (ours, source) = alike(&parts, &symbols, run);
        // the same over tables that lack something
        if run.r.one_in(2) && !symbols.is_empty() {
            symbols.pop();
        } else {
            parts.truncate(parts.len() - run.r.pick(&[1, 3, 6]));
        }
        as_due && ours && source && alike(&parts, &symbols, run).0
    }
}

// ---- every script of few steps

const A: [u32; 3] = [7, 0, 0];
const B: [u32; 3] = [8, 1, 2];

/// A span that tells the steps apart.
fn span(part: [u32; 3], step: usize) -> [u32; 5] {
    [part[0], part[1], part[2], 3 * step as u32, 1]
}

/// The list words of a leaf: its sort and two words, its span, no closing span.
pub fn leaf(head: [u32; 3], span: [u32; 5]) -> [u32; 13] {
    std::array::from_fn(|i| [head[0], head[1], head[2]].into_iter().chain(span).nth(i).unwrap_or(0))
}

/// Every script that goes on from here by so many steps at most; each is one case: its last step, then both ways to build.
fn scripts(run: &mut Run, site: &Site, points: &[[u32; 2]], left: usize) {
    let alike = site.builds_alike(false, run) & site.builds_alike(true, run);
    let text = run.text();
    run.tally.case(alike, || text);
    if left == 0 {
        return;
    }
    let n = run.script.len() + 1;
    let letters = [
        ("push A".to_string(), Step::Push(leaf([0, 43, 0], span(A, n)))),
        ("push B".to_string(), Step::Push(leaf([1, 5, 0], span(B, n)))),
        ("open A".to_string(), Step::Open(0, span(A, n))),
        ("open B".to_string(), Step::Open(1, span(B, n))),
        ("close A".to_string(), Step::Close(span(A, n))),
    ];
    let restores = points.iter().enumerate().map(|(i, &point)| (format!("restore {}", i + 1), Step::Restore(point)));
    for (name, step) in letters.into_iter().chain(restores) {
        run.script.push(name);
        let mut next = site.clone();
        if next.step(&step, run) {
            scripts(run, &next, points, left - 1);
        } else {
            let text = run.text();
            run.tally.case(false, || text);
        }
        run.script.pop();
    }
    run.script.push(format!("point {}", points.len() + 1));
    match site.point(run) {
        Some(Some(point)) => scripts(run, site, &[points, &[point]].concat(), left - 1),
        _ => run.tally.case(false, || "point".to_string()),
    }
    run.script.pop();
}

pub fn every_script(tally: &mut Tally, steps: usize) {
    let mut run = Run::new(tally);
    let spans = [1, 0, 0, 0, 0, 2, 0, 0, 0, 0];
    let (same, site) = Site::new(Site::run_of(steps + 2), 3, &spans, &mut run);
    run.tally.case(same, || "new".to_string());
    silent(|| scripts(&mut run, &site.unwrap(), &[], steps));
    run.classes.print();
}
