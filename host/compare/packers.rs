//! Both span packers over lists of spans: the one that the writer uses and its reference.
use crate::proved::{pack_all, pack_all_by_form};
use crate::random::Random;
use crate::tally::Tally;
use tt::TopSubtree;

/// The number of a span's refusal, room apart.
pub fn refusal([index, start, len]: [u32; 3], extra: u32) -> Option<u64> {
    if extra > 3 || start.checked_add(len).is_none() {
        return Some(2);
    }
    (index >= 1 << 28).then_some(8)
}

/// What packing them in turn answers and leaves: the source's bytes up to the first that is refused.
fn in_turn(out: &mut [u8], at: usize, spans: &[u32], extra: u32, heavy: bool) -> Result<u64, u64> {
    let mut place = at;
    for span in spans.chunks_exact(3) {
        let span @ [index, start, len] = [span[0], span[1], span[2]];
        if let Some(number) = refusal(span, extra) {
            return Err(number);
        }
        let bytes = TopSubtree::encode_span_bytes(index, start, len, extra, heavy);
        let Some(behind) = place.checked_add(bytes.len()).filter(|&behind| behind <= out.len()) else { return Err(6) };
        out[place..behind].copy_from_slice(&bytes);
        place = behind;
    }
    Ok((place - at) as u64)
}

/// Lists of few spans, their numbers near the limits of the forms or random, in runs that end anywhere.
pub fn lists(tally: &mut Tally, many: u64) {
    let limits: [&[u64]; 3] = [&[0, 16, 32768, 1 << 28], &[0, 131072, 134217728], &[0, 256, 65536, 262144]];
    let mut r = Random::new(55);
    for _ in 0..many {
        // words that are no span stand behind the last one
        let spans: Vec<u32> = (0..r.below(20) as usize).map(|i| r.near(limits[i % 3], u32::MAX.into()) as u32).collect();
        let (size, heavy) = (r.below(90) as usize, r.one_in(4));
        let extra = r.near(&[3], u32::MAX.into()).min(if r.one_in(16) { u32::MAX.into() } else { 3 }) as u32;
        let at = if r.one_in(16) { usize::MAX - r.below(20) as usize } else { r.below(24) as usize };
        let told = |pack: &dyn Fn(&mut [u8], usize, &[u32], u32, bool) -> Result<u64, u64>| {
            let mut out = vec![0xAA; size];
            let reply = pack(&mut out, at, &spans, extra, heavy);
            (reply, out)
        };
        let want = told(&in_turn);
        tally.case(told(&pack_all) == want && told(&pack_all_by_form) == want, || format!("spans {spans:?} at {at} of {size}, {extra} {heavy}"));
    }
}
