//! A builder's steps as data.
use crate::proved::Builder;

pub type Span = [u32; 5];

#[derive(Clone, Copy, Debug)]
pub enum Step {
    /// The leaf's list words.
    Push([u32; 13]),
    Open(u32, Span),
    Close(Span),
    Restore([u32; 2]),
}

/// A step of the proved builder.
#[inline]
pub fn take(b: &mut Builder, list: &mut [u32], step: &Step) -> Result<(), (u64, u64)> {
    match step {
        Step::Push(leaf) => b.push(list, leaf),
        Step::Open(kind, span) => b.open(list, *kind, span),
        Step::Close(span) => b.close(list, span),
        Step::Restore(point) => b.restore(list, *point),
    }
}

fn span(w: &[u32]) -> Span {
    [w[0], w[1], w[2], w[3], w[4]]
}

/// The steps that make a list below its root.
pub fn steps_of(list: &[u32]) -> Vec<Step> {
    let mut steps = Vec::new();
    let mut open: Vec<(usize, Span)> = Vec::new();
    for (n, w) in list.chunks(13).enumerate().skip(1) {
        while let Some((_, close)) = open.pop_if(|&mut (end, _)| end == n) {
            steps.push(Step::Close(close));
        }
        if w[0] == 3 {
            open.push((n + 1 + w[1] as usize, span(&w[8..])));
            steps.push(Step::Open(w[2], span(&w[3..])));
        } else {
            steps.push(Step::Push(w.try_into().unwrap()));
        }
    }
    steps.extend(open.into_iter().rev().map(|(_, close)| Step::Close(close)));
    steps
}
