//! Every form of a span and of a tree, the numbers at every limit of the span forms, in every number of bytes that holds them.
use crate::pack::{self, around};
use crate::plain::{Span, read_span, span_bytes, write_root};
use crate::random::Random;
use crate::reports;
use crate::tally::Tally;
use crate::tree::{self, tables};
use tt::TopSubtree;

const SIZES: [usize; 3] = [4, 8, 12];

/// The bytes of a span in each size that holds it.
fn in_each_size(extra: u64, span: Span) -> impl Iterator<Item = Vec<u8>> {
    SIZES.into_iter().map(move |size| span_bytes(extra, span, size)).zip(SIZES).filter(|(b, size)| b.len() == *size).map(|(b, _)| b)
}

/// Every index, start and length beside every other.
fn spans(indices: &[u32], starts: &[u32], lens: &[u32]) -> Vec<Span> {
    let pairs = indices.iter().flat_map(|&index| starts.iter().map(move |&start| (index, start)));
    pairs.flat_map(|(index, start)| lens.iter().map(move |&len| Span { index: index.into(), start: start.into(), len: len.into() })).collect()
}

/// One span in each size, in the source's bytes where the source writes that size; what stands behind it is not looked at.
fn span_in_each_size(tally: &mut Tally, span: Span, extra: u64) {
    let numbers = [span.index as u32, span.start as u32, span.len as u32];
    let source = |heavy| TopSubtree::encode_span_bytes(numbers[0], numbers[1], numbers[2], extra as u32, heavy);
    for (i, bytes) in in_each_size(extra, span).enumerate() {
        let written = (i > 0 || *source(false) == *bytes) && (bytes.len() < 12 || *source(true) == *bytes);
        let size = bytes.len();
        let behind = [&bytes[..], &[0xFF; 12]].concat();
        tally.answered(format!("{size} bytes, {}", reports::loose(numbers, size)));
        let again = read_span(&behind, 0).is_ok_and(|(words, next)| words[..3] == numbers && next == size);
        tally.case(written && again && pack::reads_alike(&behind), || format!("{span:?} in {bytes:02x?}"));
    }
}

/// Spans at every limit, then random ones.
pub fn read_spans(tally: &mut Tally, random: u64) {
    let most = u32::MAX as u64;
    let indices: Vec<u32> = around(&[0, 15, 16, 32767, 32768, (1 << 28) - 1]).into_iter().filter(|&i| i < 1 << 28).collect();
    let starts = around(&[0, 131071, 131072, 134217727, 134217728, most]);
    let lens = around(&[0, 255, 256, 262143, 262144, most]);
    for span in spans(&indices, &starts, &lens) {
        (0..4).for_each(|extra| span_in_each_size(tally, span, extra));
    }
    let mut r = Random::new(11);
    for _ in 0..random {
        let index = r.near(&[16, 32768], (1 << 28) - 1);
        let start = r.near(&[131072, 134217728], most);
        let span = Span { index, start, len: r.near(&[256, 262144], most - start) };
        span_in_each_size(tally, span, r.below(4));
    }
    tally.assert_answered(&["4 bytes, 0", "8 bytes, 0", "8 bytes, 1", "12 bytes, 0", "12 bytes, 1"], random / 100);
}

/// Extra bits, and what stands behind the span, in every form with one span. In 000 the control bits agree with the stored length or do not.
fn tails() -> Vec<(u64, Vec<u8>)> {
    let leaves = [
        (1, vec![86]), (3, vec![87]),
        (2, vec![20]), (2, vec![23, 9, 0, 0]),
        (0, vec![6, 0xE9, 0, 0, 0]), (0, vec![6 + 16, 43, 0, 0, 0]),
        (0, vec![3, 4]), (0, vec![4 + 16, 4]), (0, vec![11, 4]), (0, vec![12 + 240, 4]),
        (0, vec![7, 0, 4]), (0, vec![7 + 40, 2, 16, 6, 3]),
    ];
    let brackets = (0..8).map(|bits| (0, vec![8 + 32 * bits, 2, 40]));
    let near = [0, 7].map(|distance| (0, vec![1 + 32 * distance, 2, 40]));
    let far = [(0, 0), (255, 127u8)].map(|(distance, close)| (0, vec![2 + 8 + 32 * (close % 8), distance, 2, 16 + close / 8, 2]));
    leaves.into_iter().chain(brackets).chain(near).chain(far).collect()
}

/// Trees below the root: each form with one span, then two spans with each other; roots over tables of sizes about the limits of an index.
pub fn read_trees(tally: &mut Tally) {
    let starts = [0, 131071, 131072, 134217727, 134217728];
    let below = spans(&[0, 15, 16, 32767, 32768], &starts, &[0, 1, 255, 256, 262143, 262144]);
    let mut t = tables(40002);
    let mut one = |t: &mut tree::Tables, bytes: &[u8], n: u32| {
        t.put(bytes);
        tally.case(tree::reads_alike(t, bytes, 0, n), || format!("tree {n} of {bytes:02x?}"));
    };
    for (extra, tail) in tails() {
        for bytes in below.iter().flat_map(|&span| in_each_size(extra, span)) {
            one(&mut t, &[bytes, tail.clone()].concat(), 1);
        }
    }
    let opens: Vec<Vec<u8>> = below.iter().flat_map(|&span| in_each_size(0, span)).collect();
    // nobody looks at a close span's extra bits
    let closes: Vec<Vec<u8>> = below.iter().flat_map(|&span| in_each_size(span.len % 4, span)).collect();
    for open in &opens {
        for close in &closes {
            one(&mut t, &[&open[..], &[5 + 8], close, &[2, 0, 0, 0, 40, 1, 0, 0]].concat(), 1);
        }
    }
    for parts in [2, 17, 18, 32769, 32770, 40002] {
        let mut t = tables(parts);
        for open in spans(&[parts - 2], &starts, &[0, 255, 256, 262143, 262144]) {
            for close in spans(&[parts - 1], &starts, &[0, 255, 256, 262143, 262144]) {
                one(&mut t, &write_root(open, close, 3, 1, 500), 0);
            }
        }
    }
}
