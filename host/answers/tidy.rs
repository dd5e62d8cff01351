//! Stored buffers put in order: the source's bytes for the list that it reads, over the same tables. The source reads unchecked: whether a
//! buffer may be read, and the refusal of one that may not, is the plain version's.
use crate::maker::Maker;
use crate::plain_buffer::Buffer;
use crate::plain_list::{self, Refusal};
use crate::random::Random;
use crate::stored::{Stored, few_tables};
use crate::tally::Tally;
use crate::text::Text;
use crate::ways::{Ways, buffer};
use crate::words;

const SMALL: usize = 12;

fn check(s: &Stored) -> Result<(), Refusal> {
    Buffer { bytes: &s.bytes, trees: s.trees as u64, part_words: &s.parts, symbols: &s.symbols }.check()
}

/// `buffer` and `tidy` with the source's bytes, or `damaged` and the refusal.
fn answered(text: &mut Text, tally: &mut Tally, s: &Stored) {
    if let Err((number, tree)) = check(s) {
        tally.answered(format!("refused {number}"));
        s.line(text, "damaged");
        text.number(number);
        text.number(tree);
        return;
    }
    s.line(text, "buffer");
    text.line("tidy");
    text.bytes(&s.written(words::trees(&s.source())));
}

// ---- other bytes for the same list

/// A list in any way that the check admits, over tables in any order with unused and repeated entries.
fn untidy(m: &mut Maker, list: &[u32]) -> Stored {
    let (parts, symbols) = few_tables(m, list);
    let trees = plain_list::trees(list, &parts, &symbols).expect("a list that rows 1 to 5 pass");
    let (ways, close_extra) = (Ways::over(&parts, &symbols), m.r.below(4));
    let bytes = buffer(&trees, close_extra, |n, children| ways.any(&mut m.r, &trees[n], children));
    Stored { trees: trees.len(), parts, symbols, bytes }
}

fn damage(r: &mut Random, s: &mut Stored) {
    let place = r.below(s.bytes.len() as u64) as usize;
    match r.below(9) {
        0..3 => s.bytes[place] ^= 1 << r.below(8),
        3 | 4 => s.bytes[place] = r.next() as u8,
        5 => s.bytes.truncate(place),
        6 => s.bytes.push(r.next() as u8),
        7 => s.trees = r.pick(&[0, s.trees - 1, s.trees + 1]),
        _ if r.one_in(2) => s.parts.truncate(r.pick(&[3, s.parts.len() - 3])),
        _ => drop(s.symbols.pop()),
    }
}

// ---- the buffers

/// A root over three parts around a subtree without trees.
fn around(subtree: &[u8]) -> Stored {
    let empty = Stored::own(&[3, 0, 3, 1, 0, 0, 0, 0, 2, 0, 0, 0, 0]);
    let mut bytes = [&empty.bytes[..], subtree].concat();
    // both indices of the root are one further on
    bytes[0] += 4;
    bytes[13] += 4;
    bytes[25] = 1;
    bytes[29] = subtree.len() as u8;
    Stored { trees: 2, parts: [&[7, 0, 0], &empty.parts[..]].concat(), symbols: vec![], bytes }
}

/// Form 000 with every value of control bits 5 to 7 beside the stored lengths 3, 259, 1795, 2048 and 1283: the source reads them all, by OR, and
/// here those whose bits are not the length / 256 are 2.
fn distances(text: &mut Text, tally: &mut Tally) {
    let lengths: [&[u8]; 5] = [
        b"\xC0\x80\x02\0", b"\xC0\xC0\x02\0\0\x10\0\0", b"\xC0\xC0\x02\0\0\x70\0\0", b"\0\xC0\x02\0\0\x80\0\0",
        b"\xC0\xC0\x02\0\x01\0\0\0\0\0\0\x05",
    ];
    for span in lengths {
        for bits in 0..8 {
            answered(text, tally, &around(&[span, &[32 * bits, 0, 0]].concat()));
        }
    }
}

/// The source's own buffers, those in any form, and these damaged.
fn small(text: &mut Text, tally: &mut Tally) {
    let (mut made, mut seed) = (0, 2_000_000);
    while made < 300 {
        let mut m = Maker::new(seed);
        let list = m.list();
        if list.len() <= 13 * SMALL && (made % 8 == 0 || list.len() > 13) {
            let mut s = if made % 6 == 0 { Stored::own(&list) } else { untidy(&mut m, &list) };
            if made % 2 == 1 {
                damage(&mut m.r, &mut s);
            }
            answered(text, tally, &s);
            made += 1;
        }
        seed += 1;
    }
}

/// At the limits of children bytes; nested as deep as may be, and deeper by one.
fn large(text: &mut Text, tally: &mut Tally) {
    for seed in 3_000_000..3_000_012 {
        let mut m = Maker::new(seed);
        let list = m.limit_list();
        answered(text, tally, &untidy(&mut m, &list));
    }
    let mut m = Maker::new(3_000_012);
    let deepest = m.nested(256);
    answered(text, tally, &untidy(&mut m, &deepest));
    answered(text, tally, &Stored::own(&m.nested(257)));
}

/// Every number of the check occurs.
pub fn run(text: &mut Text) {
    let mut tally = Tally::default();
    distances(text, &mut tally);
    small(text, &mut tally);
    large(text, &mut tally);
    tally.assert_answered(&["refused 1", "refused 2", "refused 3", "refused 4", "refused 7", "refused 8", "refused 9"], 1);
}
