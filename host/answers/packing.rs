//! Spans and symbols at the limits of their forms, and random bytes read.
use crate::plain::{Span, span_bytes};
use crate::random::Random;
use crate::reports;
use crate::tally::panics;
use crate::text::Text;
use tt::TopSubtree;

const INDEX: [u32; 6] = [0, 15, 16, 32767, 32768, (1 << 28) - 1];
const START: [u32; 6] = [0, 131071, 131072, 134217727, 134217728, u32::MAX];
const LEN: [u32; 6] = [0, 1, 255, 256, 262143, 262144];

fn spans(text: &mut Text) {
    let pairs = START.into_iter().flat_map(|start| LEN.map(|len| (start, len)));
    for (n, (start, len)) in (0..).zip(pairs.filter(|(start, len)| start.checked_add(*len).is_some())) {
        for (i, index) in (0..).zip(INDEX) {
            for heavy in [false, true] {
                let extra = (n + i) % 4;
                text.line("span");
                text.numbers(&[index, start, len, extra, heavy.into()]);
                text.bytes(&TopSubtree::encode_span_bytes(index, start, len, extra, heavy));
            }
        }
    }
}

/// 12 bytes, unless the range goes past 4,294,967,295.
fn span_read(text: &mut Text, bytes: &[u8]) {
    if panics(|| TopSubtree::decode_span_bytes(bytes)) {
        return;
    }
    let (index, start, len, used) = TopSubtree::decode_span_bytes(bytes);
    text.line("unspan");
    text.bytes(bytes);
    text.number(index);
    text.numbers(&[start, len]);
    text.number(used);
    text.number(reports::loose([index as u32, start, len], used));
}

fn spans_read(text: &mut Text, r: &mut Random) {
    for _ in 0..400 {
        let bytes: Vec<u8> = (0..12).map(|_| r.next() as u8).collect();
        span_read(text, &bytes);
    }
}

/// Numbers at their limits in every form that holds them, with random bytes behind.
fn forms_read(text: &mut Text, r: &mut Random) {
    let pairs = INDEX.into_iter().flat_map(|index| START.map(|start| (index, start)));
    for ((index, start), len) in pairs.flat_map(|pair| LEN.map(|len| (pair, len))) {
        let span = Span { index: index.into(), start: start.into(), len: len.into() };
        for size in [4, 8, 12] {
            let mut bytes = span_bytes(r.below(4), span, size);
            if bytes.len() == size {
                bytes.resize_with(12, || r.next() as u8);
                span_read(text, &bytes);
            }
        }
    }
}

fn symbols(text: &mut Text, r: &mut Random) {
    for index in [0, 1, 62, 63, 64, 65, 8190, 8191, 8192, 8193, 1 << 21, (1 << 29) - 1] {
        for tag in 0..2 {
            text.line("symbol");
            text.number(index);
            text.number(tag);
            text.bytes(&TopSubtree::encode_symbol_bytes(index, tag));
        }
    }
    let table: Vec<u32> = (0..1 << 20).collect();
    for _ in 0..200 {
        let bytes = [r.next() as u8, r.next() as u8, r.next() as u8 & 127, 0];
        let (index, used) = TopSubtree::decode_symbol_bytes(&bytes, &table);
        text.line("unsymbol");
        text.bytes(&bytes);
        text.number(index);
        text.number(used);
    }
}

pub fn run(text: &mut Text) {
    let mut r = Random::new(7);
    spans(text);
    spans_read(text, &mut r);
    symbols(text, &mut r);
    forms_read(text, &mut r);
}
