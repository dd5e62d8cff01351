//! Builders: random longer scripts, invented builders and points, damaged lists, limits.
use crate::builders::{Run, Site, leaf};
use crate::plain_builder as plain;
use crate::plain_list::{self, Refusal};
use crate::proved::Builder;
use crate::random::Random;
use crate::steps::Step;
use crate::tally::{Tally, silent};

// ---- random longer scripts

/// Few parts, so that the source's counts are spoiled now and then; one range in twenty is too long.
fn random_span(r: &mut Random) -> [u32; 5] {
    let part = if r.one_in(9) { r.below(1 << 32) as u32 } else { r.below(3) as u32 };
    let start = r.near(&[0, 131071, 1 << 27], 1 << 31) as u32;
    let len = if r.one_in(20) { u32::MAX - r.below(u64::from(start) + 1) as u32 } else { r.near(&[1, 255, 1 << 18], 1 << 30) as u32 };
    [part % 5, part / 5, 1, start, len]
}

/// Each word is out of range now and then: sort, character, spacing, raw, kind, raw count, suffix length, closing span.
fn random_leaf(r: &mut Random) -> [u32; 13] {
    let head = match r.below(3) {
        0 => [0, r.pick(&[43, 0, 127, 128, 0x10FFFF, 0xD7FF, 0xE000, 43, 43, 43, 0xD800, 0xDFFF, 0x110000]), r.below(4) as u32],
        1 => [1, r.below(4) as u32, r.below(3) as u32],
        _ => {
            let kind = r.below(13) as u32;
            let raw_count = if matches!(kind, 5 | 7 | 9) || r.one_in(20) { r.near(&[0, 1, 255], 255) as u32 } else { 0 };
            let suffix = if r.one_in(20) { r.pick(&[256, 65535]) } else { r.near(&[0, 15, 255], 255) as u32 };
            [2, r.below(4) as u32, kind + 256 * raw_count + 65536 * suffix]
        }
    };
    let mut words = leaf(head, random_span(r));
    if r.one_in(20) {
        words[0] = r.pick(&[3, 4, 9, u32::MAX]);
    }
    if r.one_in(20) {
        words[8 + r.below(5) as usize] = 1;
    }
    words
}

fn random_kind(r: &mut Random) -> u32 {
    if r.one_in(20) { r.pick(&[4, 5, 256, u32::MAX]) } else { r.below(4) as u32 }
}

/// A point that was taken, with what the restore law says it gives back as long as none that was open then has been closed.
struct Taken {
    point: [u32; 2],
    b: Builder,
    trees: Vec<u32>,
    /// How many have been opened since and are so still; none once the law no longer speaks of the point.
    inside: Option<u32>,
}

impl Taken {
    fn goes_on(&mut self, step: &Step) {
        self.inside = match (step, self.inside) {
            (Step::Push(_), inside) => inside,
            (Step::Open(..), Some(n)) => Some(n + 1),
            (Step::Close(_), Some(n)) => n.checked_sub(1),
            _ => None,
        };
    }

    fn is_back(&self, site: &Site) -> bool {
        let (b, was) = (&site.b, &self.b);
        let open = b.depth == was.depth && b.opened[..b.depth] == was.opened[..b.depth];
        open && b.count == was.count && site.list[..self.trees.len()] == self.trees
    }
}

fn random_step(r: &mut Random, points: &[Taken]) -> (Step, Option<usize>) {
    match r.below(10) {
        0..4 => (Step::Push(random_leaf(r)), None),
        4..6 => (Step::Open(random_kind(r), random_span(r)), None),
        6..8 => (Step::Close(random_span(r)), None),
        _ if points.is_empty() || r.one_in(6) => (Step::Restore([r.below(20) as u32, r.below(4) as u32]), None),
        _ => {
            let i = r.below(points.len() as u64) as usize;
            (Step::Restore(points[i].point), Some(i))
        }
    }
}

/// Whether every step, the restore law and both ways to build are as due.
fn random_script(run: &mut Run, r: &mut Random) -> bool {
    let room = r.pick(&[0, 1, 2, 5, 64, 64, 64, 64]);
    let spans: [u32; 10] = [random_span(r), random_span(r)].concat().try_into().unwrap();
    let (same, site) = Site::new(Site::run_of(room), random_kind(r), &spans, run);
    let Some(mut site) = site else { return same };
    let mut points: Vec<Taken> = vec![];
    for _ in 0..r.below(61) {
        if r.one_in(8) {
            let Some(Some(point)) = site.point(run) else { return false };
            points.push(Taken { point, b: site.b.clone(), trees: site.list[..13 * site.b.count as usize].to_vec(), inside: Some(0) });
            run.script.push(format!("point {}", points.len()));
            continue;
        }
        let (step, which) = random_step(r, &points);
        let before = site.b.clone();
        run.script.push(which.map_or_else(|| format!("{step:?}"), |i| format!("restore {}", i + 1)));
        if !site.step(&step, run) {
            return false;
        }
        if let Some(taken) = which.map(|i| &mut points[i])
            && taken.inside.is_some()
        {
            run.tally.answered("restore law".to_string());
            if !taken.is_back(&site) {
                return false;
            }
        }
        if site.b != before || matches!(step, Step::Close(_)) {
            let changed = site.b != before;
            points.iter_mut().filter(|_| changed).for_each(|t| t.goes_on(&step));
            which.into_iter().for_each(|i| points[i].inside = points[i].is_back(&site).then_some(0));
        }
    }
    same && site.builds_alike(false, run) && site.builds_alike(true, run)
}

pub fn scripts(tally: &mut Tally, many: u64) {
    let mut run = Run::new(tally);
    silent(|| {
        for seed in 0..many {
            run.script.clear();
            let same = random_script(&mut run, &mut Random::new(seed ^ 0xB111D));
            let text = run.text();
            run.tally.case(same, || format!("script {seed}: {text}"));
        }
    });
    run.classes.print();
    let [passed, refused, lawful] = ["restore 0", "restore 11", "restore law"].map(|sort| run.tally.times(sort));
    println!("  restores: {passed} pass, {refused} are 11; to {lawful} points the restore law applies");
    run.tally.assert_answered(&["new 2", "new 6", "push 2", "push 6", "open 2", "open 6", "close 10", "close 2"], many / 100);
    run.tally.assert_answered(&["restore 0", "restore 11", "restore law", "build 0", "build 5", "build_skip 0"], many / 100);
}

// ---- invented builders and points, damaged lists

/// One number off, or wild.
fn off(r: &mut Random, n: u32, most: u64) -> u32 {
    match r.below(4) {
        0 => n.wrapping_add(1),
        1 => n.wrapping_sub(1),
        2 => r.below(most) as u32,
        _ => r.near(&[0, 1, 255, 256, 1048576, 1 << 31], 1 << 32) as u32,
    }
}

fn damage(r: &mut Random, site: &mut Site) {
    let count = site.b.count;
    match r.below(7) {
        0 => site.b.count = off(r, count, 20),
        1 => site.b.depth = off(r, site.b.depth as u32, 20) as usize,
        2 => site.b.depth = r.pick(&[254, 255, 256, 257, usize::MAX]),
        3 | 4 => {
            let d = r.below(site.b.depth.clamp(1, 200) as u64 + 1) as usize;
            site.b.opened[d] = off(r, site.b.opened[d], 1 + u64::from(count));
            site.b.depth = site.b.depth.max(d + 1);
        }
        5 => {
            let n = r.below(1 + count.min(20) as u64) as usize;
            let i = 13 * n + r.pick(&[0, 0, 1, 1, 2, 7, 9, 12]);
            if let Some(word) = site.list.get_mut(i) {
                *word = off(r, *word, 4);
            }
        }
        _ => {
            let less = r.below(40) as usize;
            site.list.truncate(site.list.len() - less.min(site.list.len()));
        }
    }
}

/// A short script, and then up to two things wrong.
fn invented(r: &mut Random, run: &mut Run) -> Site {
    let range = |r: &mut Random| [r.below(3) as u32, 0, 1, r.below(100) as u32, 1];
    let (_, site) = Site::new(Site::run_of(r.pick(&[5, 13, 20])), 3, &[0; 10], run);
    let mut site = site.unwrap();
    site.source = None;
    for _ in 0..r.below(13) {
        let step = match r.below(5) {
            0 | 1 => Step::Push(leaf([1, 4, 0], range(r))),
            2 | 3 => Step::Open(0, range(r)),
            _ => Step::Close(range(r)),
        };
        _ = plain::step(&mut site.b, &mut site.list, &step);
    }
    let closed = r.one_in(2);
    while closed && site.b.depth > 0 {
        _ = plain::step(&mut site.b, &mut site.list, &Step::Close(range(r)));
    }
    for _ in 0..r.pick(&[0, 1, 1, 1, 2]) {
        damage(r, &mut site);
    }
    site
}

pub fn invented_builders(tally: &mut Tally, builders: u64) {
    let mut run = Run::new(tally);
    for seed in 0..builders {
        let r = &mut Random::new(seed ^ 0x1D3A);
        let site = invented(r, &mut run);
        let point = [off(r, site.b.count, 14), r.below(5) as u32];
        let steps = [Step::Push(random_leaf(r)), Step::Open(random_kind(r), random_span(r)), Step::Close(random_span(r)), Step::Restore(point)];
        let stepped = steps.iter().all(|step| site.clone().step(step, &mut run));
        let same = stepped && site.point(&mut run).is_some() && site.builds_alike(false, &mut run) && site.builds_alike(true, &mut run);
        run.tally.case(same, || format!("invented builder {seed}"));
    }
    let rows = ["push 10", "open 10", "close 10", "restore 10", "point 10", "build 10", "restore 11", "push 6", "build 2", "build 3", "build_skip 3"];
    run.tally.assert_answered(&rows, builders / 400);
}

// ---- the limits

/// Steps one after the other, each with the reply that is due.
fn steps_alike(tally: &mut Tally, what: &str, site: &mut Site, steps: &[(Step, Result<(), Refusal>)]) {
    let mut run = Run::new(tally);
    for (step, due) in steps {
        let mut copy = site.b.clone();
        let same = site.step(step, &mut run) && plain::step(&mut copy, &mut site.list.clone(), step) == *due;
        run.tally.case(same, || what.to_string());
    }
}

pub fn limits(tally: &mut Tally) {
    let span = [1, 1, 1, 5, 1];
    let (open, push, close) = (Step::Open(1, span), Step::Push(leaf([1, 4, 0], span)), Step::Close(span));
    let (_, b) = Builder::new(&mut Site::run_of(1), 3, &[0; 10]);
    let start = |trees: usize| {
        let mut list = Site::run_of(trees);
        let (_, b) = Builder::new(&mut list, 3, &[0; 10]);
        Site { b, list, source: None }
    };
    // 255 open beside the root, and one more
    let mut site = start(300);
    steps_alike(tally, "255 open", &mut site, &[(open, Ok(())); 255]);
    steps_alike(tally, "256 open", &mut site, &[(open, Err((4, 256))), (push, Ok(())), (open, Err((4, 257))), (close, Ok(())), (open, Ok(()))]);
    // no room: for a root, for one tree more; a close needs none
    let mut list = Site::run_of(1);
    let new = Builder::new(&mut list[..12], 3, &[0; 10]);
    tally.case(new.0 == Err((6, 0)) && new.1.count == 0 && list == Site::run_of(1), || "no room for a root".to_string());
    steps_alike(tally, "no room", &mut start(1), &[(push, Err((6, 1))), (open, Err((6, 1)))]);
    steps_alike(tally, "no room", &mut start(2), &[(open, Ok(())), (open, Err((6, 2))), (close, Ok(())), (push, Err((6, 2)))]);
    // a builder of no trees
    let none = Builder { count: 0, ..b };
    let ten = Err((10, 0));
    steps_alike(tally, "no trees", &mut Site { b: none, ..start(3) }, &[(push, ten), (open, ten), (close, ten), (Step::Restore([1, 0]), ten)]);
    // 1,048,576 trees
    let most = plain_list::TREES as u32;
    let mut site = start(most as usize + 1);
    site.list[13..].chunks_mut(13).for_each(|w| w.copy_from_slice(&[1, 4, 0, 1, 1, 1, 5, 1, 0, 0, 0, 0, 0]));
    site.b.count = most - 1;
    let full = u64::from(most);
    let point = (Step::Restore([1, 0]), Ok(()));
    steps_alike(tally, "1,048,576 trees", &mut site, &[(open, Ok(())), (push, Err((1, full))), (open, Err((1, full))), (close, Ok(()))]);
    let mut more = site.clone();
    more.b.count = most + 1;
    steps_alike(tally, "1,048,577 trees", &mut more, &[(push, Err((10, full + 1)))]);
    let mut run = Run::new(tally);
    let built = site.builds_alike(false, &mut run) && site.builds_alike(true, &mut run);
    run.tally.case(built, || "1,048,576 trees built".to_string());
    steps_alike(tally, "back to the root", &mut site, &[point, (push, Ok(()))]);
}
