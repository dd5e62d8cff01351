//! Spans and symbols: every field at its limits, one below and one above; random bytes read.
use crate::packers;
use crate::plain;
use crate::proved;
use crate::random::Random;
use crate::reports;
use crate::tally::{Tally, panics};
use tt::TopSubtree;

pub fn around(limits: &[u64]) -> Vec<u32> {
    let near = limits.iter().flat_map(|&l| [l.saturating_sub(1), l, l + 1]);
    let mut values: Vec<u32> = near.filter_map(|v| u32::try_from(v).ok()).collect();
    values.sort();
    values.dedup();
    values
}

/// The reply and the run after packing at place 3 into so many bytes.
fn packed(size: usize, pack: &impl Fn(&mut [u8], usize) -> Result<u64, u64>) -> (Result<u64, u64>, Vec<u8>) {
    let mut out = vec![0xAA; size];
    let reply = pack(&mut out, 3);
    (reply, out)
}

/// A refusal changes nothing; else the source's bytes stand there and nothing else has changed, and one byte less of room is 6.
pub fn held(refusal: Option<u64>, bytes: &[u8], pack: impl Fn(&mut [u8], usize) -> Result<u64, u64>) -> bool {
    let untouched = |size: usize| vec![0xAA; size];
    if let Some(number) = refusal {
        return packed(64, &pack) == (Err(number), untouched(64)) && packed(0, &pack).0 == Err(number);
    }
    let n = bytes.len();
    let mut want = untouched(64);
    want[3..3 + n].copy_from_slice(bytes);
    packed(64, &pack) == (Ok(n as u64), want)
        && packed(3 + n, &pack).0 == Ok(n as u64)
        && packed(2 + n, &pack) == (Err(6), untouched(2 + n))
        && packed(2, &pack) == (Err(6), untouched(2))
}

pub fn write(tally: &mut Tally) {
    for &index in &around(&[0, 15, 16, 32767, 32768, 1 << 28, u32::MAX as u64]) {
        for &start in &around(&[0, 131071, 131072, 134217727, 134217728, 1 << 31, u32::MAX as u64]) {
            for &len in &around(&[0, 255, 256, 65535, 65536, 262143, 262144, u32::MAX as u64]) {
                for (extra, heavy) in (0..=4).flat_map(|x| [(x, false), (x, true)]) {
                    let span = [index, start, len];
                    let refusal = packers::refusal(span, extra);
                    let bytes = if refusal.is_none() { TopSubtree::encode_span_bytes(index, start, len, extra, heavy) } else { Box::default() };
                    let ok = held(refusal, &bytes, |out, at| proved::encode_span(out, at, span, extra, heavy))
                        && held(refusal, &bytes, |out, at| proved::pack_all(out, at, &span, extra, heavy))
                        && held(refusal, &bytes, |out, at| proved::pack_all_by_form(out, at, &span, extra, heavy));
                    tally.case(ok, || format!("span {index} {start} {len} {extra} {heavy}"));
                }
            }
        }
    }
    for &index in &around(&[0, 63, 64, 8191, 8192, 1 << 21, 1 << 29, u32::MAX as u64]) {
        for tag in 0..=2 {
            let refusal = if tag > 1 { Some(2) } else if index >= 1 << 29 { Some(8) } else { None };
            let bytes = if refusal.is_none() { TopSubtree::encode_symbol_bytes(index as usize, tag) } else { Box::default() };
            let ok = held(refusal, &bytes, |out, at| proved::encode_symbol(out, at, tag, index));
            tally.case(ok, || format!("symbol {index} {tag}"));
        }
    }
}

/// The span at the front of 12 bytes or more: the plain reader's words, the source's numbers, and what its packing says of their bytes. One
/// byte less is 7, one word less 6.
pub fn reads_alike(bytes: &[u8]) -> bool {
    let (want, next) = plain::read_span(bytes, 0).expect("12 bytes hold every span");
    let [index, start, len, extra, loose] = want;
    let source = if start.checked_add(len).is_none() {
        // the source makes the range at once
        panics(|| TopSubtree::decode_span_bytes(bytes))
    } else {
        TopSubtree::decode_span_bytes(bytes) == (index as usize, start, len, next)
    };
    let reported = extra == u32::from(bytes[0] % 4) && loose == reports::loose([index, start, len], next);
    let mut words = [0xAAAA; 5];
    let cut = proved::decode_span(&bytes[..next - 1], 0, &mut words) == Err(7);
    let short = proved::decode_span(bytes, 0, &mut words[..4]) == Err(6);
    let untouched = words == [0xAAAA; 5];
    let read = proved::decode_span(bytes, 0, &mut words) == Ok(next as u64) && words == want;
    source && reported && cut && short && untouched && read
}

pub fn read(tally: &mut Tally) {
    let mut random = Random::new(1);
    for _ in 0..200_000 {
        let bytes: Vec<u8> = (0..12).map(|_| random.next() as u8).collect();
        tally.case(reads_alike(&bytes), || format!("unspan {bytes:02x?}"));
    }
    // one entry at a time is not 0
    let mut table = vec![0; 1 << 29];
    for _ in 0..100_000 {
        let bytes = (random.next() as u32).to_le_bytes();
        let mut w = [0; 2];
        let next = proved::decode_symbol(&bytes, 0, &mut w).expect("4 bytes hold every symbol") as usize;
        table[w[0] as usize] = 1;
        let same = TopSubtree::decode_symbol_bytes(&bytes, &table) == (1, next) && w[1] == u32::from(bytes[0] % 2);
        table[w[0] as usize] = 0;
        let cut = proved::decode_symbol(&bytes[..next - 1], 0, &mut w) == Err(7);
        tally.case(same && cut, || format!("unsymbol {bytes:02x?}"));
    }
}
