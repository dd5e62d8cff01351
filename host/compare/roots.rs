//! Root rewriting in stored buffers.
use crate::buffers::stored;
use crate::plain::{Span, span_bytes};
use crate::plain_list::Refusal;
use crate::proved;
use crate::random::Random;
use crate::tally::Tally;
use crate::words;
use tt::DelimSpan;

fn kind(tally: &mut Tally, seed: u64, kind: u32) {
    let (_, s) = stored(seed);
    let verdict = s.plain().check().and(if kind > 3 { Err((2, 0)) } else { Ok(()) });
    let mut want = s.bytes.clone();
    if verdict.is_ok() {
        want[12] = want[12] % 8 + 8 * kind as u8;
    }
    let mut bytes = s.bytes.clone();
    let ours = proved::set_kind(&mut bytes, s.trees, &s.parts, &s.symbols, kind);
    tally.case(ours == verdict && bytes == want, || format!("kind {kind} in buffer {seed}: {ours:?}, wanted {verdict:?}"));
    if let (Ok(()), Some(mut top)) = (verdict, s.source()) {
        top.set_top_subtree_delimiter_kind(words::delimiter_kind(kind));
        tally.case(*top.bytes() == *bytes, || format!("source's kind {kind} in buffer {seed}"));
    }
}

/// Limits of the range and of the forms are frequent.
fn range(r: &mut Random) -> [u32; 2] {
    let most = u64::from(u32::MAX);
    let start = r.near(&[131_072, 1 << 27, most], most);
    let len = if r.one_in(3) { most - start + r.below(3) } else { r.near(&[256, 1 << 18, most - start], most) };
    [start as u32, len.min(most) as u32]
}

fn spans(tally: &mut Tally, seed: u64, spans: [u32; 10]) {
    let (_, s) = stored(seed);
    let over = |w: &[u32]| w[3].checked_add(w[4]).is_none();
    let too_long = over(&spans[..5]) || over(&spans[5..]);
    let verdict: Result<(), Refusal> = s.plain().check().and(if too_long { Err((2, 0)) } else { Ok(()) });
    let (mut want, mut want_parts) = (s.bytes.clone(), s.parts.clone());
    if verdict.is_ok() {
        let n = want_parts.len();
        for (i, at) in [(0, 0), (1, 13)] {
            let w = &spans[5 * i..];
            let span = Span { index: (n / 3 - 2 + i) as u64, start: w[3].into(), len: w[4].into() };
            want[at..at + 12].copy_from_slice(&span_bytes(0, span, 12));
            want_parts[n - 6 + 3 * i..n - 3 + 3 * i].copy_from_slice(&w[..3]);
        }
    }
    let (mut bytes, mut parts) = (s.bytes.clone(), s.parts.clone());
    let ours = proved::set_spans(&mut bytes, s.trees, &mut parts, &s.symbols, &spans);
    let same = ours == verdict && bytes == want && parts == want_parts;
    tally.case(same, || format!("spans {spans:?} in buffer {seed}: {ours:?}, wanted {verdict:?}"));
    if let (Ok(()), Some(mut top)) = (verdict, s.source()) {
        top.set_top_subtree_delimiter_span(DelimSpan { open: words::span(&spans[..5]), close: words::span(&spans[5..]) });
        tally.case(*top.bytes() == *bytes && top.part_list().concat() == parts, || format!("source's spans {spans:?} in buffer {seed}"));
    }
}

pub fn run(tally: &mut Tally, buffers: u64) {
    for seed in 0..buffers {
        let mut r = Random::new(seed ^ 0x5EED);
        kind(tally, seed, r.pick(&[0, 1, 2, 3, 4, 5, 256, u32::MAX]));
        let mut words = [0; 10];
        for half in words.chunks_mut(5) {
            half[..3].fill_with(|| r.next() as u32);
            half[3..].copy_from_slice(&range(&mut r));
        }
        spans(tally, seed, words);
    }
}
