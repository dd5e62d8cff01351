//! The distance bits of form 000. Where control bits 5 to 7 are the stored length / 256 a tree is read as the source reads it; where they are not
//! it is 2, and the source reads it by OR.
use crate::buffers::{Bracket, Stored, brackets, other_bits, stored};
use crate::plain::{self, Distance, Span, span_bytes};
use crate::plain_list::{self, Refusal};
use crate::proved;
use crate::tally::Tally;
use crate::tree::{Tables, reads_alike, tables};
use crate::widened::walked;
use crate::words;

// ---- one tree

const START: u64 = 5;

/// What is read of a tree over these tables, handed back as a number of bytes or a refusal.
fn read(t: &Tables, bytes: &[u8]) -> Result<u64, u64> {
    proved::decode_tree(bytes, t.part_words(), t.symbols(), 1, 0, &mut [0; 17])
}

/// One 000 in every room up to its bytes, and over one of the root's parts and one past the table.
fn bracket(tally: &mut Tally, t: &mut Tables, len: u64, bits: u64, size: usize) {
    let tail = [8 * (len % 4) + 32 * bits, 2, 40].map(|b| b as u8);
    let at = |index: u64| [&span_bytes(0, Span { index, start: START, len }, size)[..], &tail].concat();
    let (bytes, agrees) = (at(0), bits == len / 256);
    t.put(&bytes);
    let whole = reads_alike(t, &bytes, 0, 1) && read(t, &bytes).map(|_| ()) == if agrees { Ok(()) } else { Err(2) };
    let cut = (0..bytes.len()).all(|n| read(t, &bytes[..n]) == Err(7));
    // 40,002 parts, the root's two among them
    let outside = [40_000, 40_002].iter().all(|&index| read(t, &at(index)) == Err(if agrees { 8 } else { 2 }));
    let words = words::words(&t.source().walk_from(0).decode().0);
    let source = words[6..8] == [START as u32, 1] && words[11..13] == [(START + (len | bits * 256)) as u32, 1];
    tally.answered(if agrees { "agrees" } else { "disagrees" }.into());
    tally.case(whole && cut && outside && source, || format!("length {len}, bits {bits}, {size} bytes"));
}

/// Every length up to 9 * 256 and some far ones, beside all bits, in every number of bytes that holds them.
pub fn trees(tally: &mut Tally) {
    let mut t = tables(40_002);
    let far = [4095, 4096, 65535, 65536, 65536 + 1792, 262143, 262144, (1 << 24) - 1, 1 << 24, 1 << 31];
    for len in (0..9 * 256).chain(far) {
        for bits in 0..8 {
            for size in [4, 8, 12].into_iter().filter(|&size| span_bytes(0, Span { index: 0, start: START, len }, size).len() == size) {
                bracket(tally, &mut t, len, bits, size);
            }
        }
    }
    tally.assert_answered(&["agrees"], 4000);
    tally.assert_answered(&["disagrees"], 30_000);
}

// ---- whole buffers

/// The first tree whose bytes are all there and whose distance bits disagree, those before it being read by OR.
fn first_apart(s: &Stored) -> Option<u64> {
    let apart = |b: &Bracket| s.bytes.get(b.control..b.control + 3).is_some_and(|c| u32::from(c[0]) / 32 != b.len / 256);
    brackets(s).into_iter().find(apart).map(|b| b.tree)
}

/// The check by OR, and what it is now: the same, or 2 at the first tree that disagrees.
fn narrowed(s: &Stored) -> (Result<(), Refusal>, Option<u64>, Result<(), Refusal>) {
    let by_or = s.plain().check_by(Distance::Or);
    let apart = if s.plain().sized() { first_apart(s) } else { None };
    (by_or, apart, apart.map_or(by_or, |n| Err((2, n))))
}

/// The list that is read by OR.
fn list_by_or(s: &Stored) -> Vec<u32> {
    let parts: Vec<[u32; 3]> = s.parts.chunks_exact(3).map(|w| [w[0], w[1], w[2]]).collect();
    let (mut at, mut list) = (0, vec![]);
    for n in 0..s.trees.into() {
        let read = s.plain().read_by(Distance::Or, n, at).expect("a buffer that the check by OR passes");
        list.extend(plain::words(&read.tree, &parts, &s.symbols));
        at = read.next;
    }
    list
}

/// The proved walk hands back the trees before the one that disagrees, then 2 there.
fn walked_up_to(s: &Stored, n: u64, list: &[u32]) -> bool {
    let (mut at, mut next, mut words) = ((0, 0, s.trees), [0; 3], [0; 16]);
    for tree in list.chunks_exact(13).take(n as usize) {
        if proved::walk(s.lent(), at, false, &mut next, &mut words) != Ok(1) || words[..13] != *tree {
            return false;
        }
        at = (next[0], next[1] as u32, next[2] as u32);
    }
    proved::walk(s.lent(), at, false, &mut next, &mut words) == Err((2, n))
}

/// By turns as `stored` makes them, and with the bits of one or more brackets changed.
fn given(seed: u64) -> Stored {
    let (mut r, mut s) = stored(seed);
    for _ in 0..seed % 3 {
        other_bits(&mut r, &mut s);
    }
    s
}

/// A buffer that passes by OR is the source's list. One that passes now is walked to that list and has no fewer bytes than the writer makes of it;
/// one that does not is walked up to the tree that disagrees, and may have fewer.
fn read_alike(tally: &mut Tally, s: &Stored, apart: Option<u64>) -> bool {
    let list = list_by_or(s);
    let source: Vec<u32> = words::trees(&s.unchecked()).iter().flat_map(words::words).collect();
    let written = plain_list::write(&list, &s.parts, &s.symbols).expect("a list over the tables that it was read by").bytes;
    let shorter = s.bytes.len() < written.len();
    tally.answered(format!("{}, {} than the writer's", agreeing(apart), if shorter { "shorter" } else { "not shorter" }));
    source == list && match apart {
        None => !shorter && walked(s).is_some_and(|(read, _)| read == list),
        Some(n) => walked_up_to(s, n, &list),
    }
}

fn agreeing(apart: Option<u64>) -> &'static str {
    if apart.is_some() { "disagrees" } else { "agrees" }
}

/// Beside the reading by OR: passed and refused as before where no bracket disagrees, else 2 at the first that does; what passes by OR is read.
pub fn buffers(tally: &mut Tally, buffers: u64) {
    for seed in 0..buffers {
        let s = given(seed);
        let (by_or, apart, now) = narrowed(&s);
        tally.answered(format!("{}, {}", agreeing(apart), if by_or.is_ok() { "passed by OR" } else { "refused by OR" }));
        let checked = s.plain().check() == now && proved::check_buffer(&s.bytes, s.trees, &s.parts, &s.symbols) == now;
        let read = by_or.is_err() || read_alike(tally, &s, apart);
        tally.case(checked && read, || format!("buffer {seed}: {by_or:?} by OR, {now:?} now"));
    }
    let sorts = ["agrees, passed by OR", "agrees, refused by OR", "disagrees, passed by OR", "disagrees, refused by OR"];
    tally.assert_answered(&sorts, buffers / 100);
    tally.assert_answered(&["disagrees, shorter than the writer's", "disagrees, not shorter than the writer's"], buffers / 1000);
}

/// Every control byte of a bracket with each other value of its bits, one at a time, in buffers as the writer makes them: 2 at that tree.
pub fn every_bit(tally: &mut Tally, buffers: u64) {
    for seed in (0..4 * buffers).step_by(4) {
        let (_, mut s) = stored(seed);
        for Bracket { tree: n, control, .. } in brackets(&s) {
            for bits in 1..8 {
                s.bytes[control] ^= 32 * bits;
                let refused = proved::check_buffer(&s.bytes, s.trees, &s.parts, &s.symbols) == Err((2, n));
                tally.case(refused && s.plain().check() == Err((2, n)), || format!("buffer {seed}, tree {n}, bits {bits}"));
                s.bytes[control] ^= 32 * bits;
            }
        }
    }
    assert!(tally.cases >= 5 * buffers, "{} cases", tally.cases);
}
