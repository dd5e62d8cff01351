//! Bundles that pass, and every sort of damage to them.
use crate::maker::{Maker, loose};
use crate::plain::{self, Span, Tree};
use crate::plain_list;
use crate::random::Random;

/// A bundle in its parts: a record is a part of three words or a symbol of one.
#[derive(Clone)]
pub struct Bundle {
    pub records: Vec<Vec<u32>>,
    pub trees: u32,
    pub bytes: Vec<u8>,
}

impl Bundle {
    /// The records' bytes, the last one's last.
    fn pieces(&self) -> Vec<Vec<u8>> {
        let record = |w: &Vec<u32>| {
            let mark = if w.len() == 3 { b"SP" } else { b"SY" };
            mark.iter().copied().chain(w.iter().flat_map(|x| x.to_le_bytes())).collect()
        };
        let counts = [self.trees.to_le_bytes(), (self.bytes.len() as u32).to_le_bytes()].concat();
        let last = [b"BT".as_slice(), &counts, &self.bytes].concat();
        self.records.iter().map(record).chain([last]).collect()
    }

    pub fn stored(&self) -> Vec<u8> {
        self.pieces().concat()
    }

    fn parts(&self) -> usize {
        self.records.iter().filter(|w| w.len() == 3).count()
    }
}

/// The tables' records, symbols strewn among the parts.
fn records(r: &mut Random, parts: &[u32], symbols: &[u32]) -> Vec<Vec<u32>> {
    let mut symbols = symbols.iter();
    let mut records = Vec::new();
    for part in parts.chunks_exact(3) {
        while r.one_in(2) {
            records.extend(symbols.next().map(|&s| vec![s]));
        }
        records.push(part.to_vec());
    }
    records.extend(symbols.map(|&s| vec![s]));
    records
}

/// Subtrees each in the one before, the root among them.
pub fn nested(depth: u64) -> Bundle {
    let span = |index| Span { index, start: 5, len: 1 };
    let at = |i| if i == 0 { (span(1), span(2)) } else { (span(0), span(0)) };
    let subtree = |i: u64| Tree::Subtree { open: at(i).0, close: at(i).1, count: depth - 1 - i, kind: 0 };
    let trees: Vec<Tree> = (0..depth).map(subtree).collect();
    let bytes = plain_list::bytes(&trees, &mut Default::default).bytes;
    Bundle { records: vec![vec![0; 3]; 3], trees: depth as u32, bytes }
}

/// A random one that passes, but for those nested deeper than 256: the writer's bytes, or loose ones.
pub fn passing(seed: u64) -> (Random, Bundle) {
    let mut m = Maker::new(seed);
    if seed % 25 == 0 {
        let depth = m.r.pick(&[255, 256, 257, 258, 300]);
        return (m.r, nested(depth));
    }
    let list = if seed % 25 == 1 { m.limit_list() } else { m.list() };
    let (parts, symbols) = m.tables_for(&list);
    let trees = plain_list::trees(&list, &parts, &symbols).expect("a list that rows 1 to 5 pass");
    let written = if seed % 2 == 0 {
        plain_list::bytes(&trees, &mut Default::default)
    } else {
        plain_list::bytes(&trees, &mut || loose(&mut m.r))
    };
    let records = records(&mut m.r, &parts, &symbols);
    (m.r, Bundle { records, trees: trees.len() as u32, bytes: written.bytes })
}

// ---- damage

fn place(r: &mut Random, bytes: &[u8]) -> usize {
    r.below(bytes.len().max(1) as u64) as usize
}

/// One byte changed, some inserted, some gone, or the end cut off.
fn damage_bytes(r: &mut Random, bytes: &mut Vec<u8>) {
    let at = place(r, bytes);
    match r.below(8) {
        0..2 if !bytes.is_empty() => bytes[at] ^= 1 << r.below(8),
        2 if !bytes.is_empty() => bytes[at] = r.next() as u8,
        3 if !bytes.is_empty() => bytes[at] = bytes[at].wrapping_add(r.pick(&[1, 255])),
        4 => bytes.truncate(at),
        5 => {
            let more: Vec<u8> = (0..1 + r.below(20)).map(|_| r.next() as u8).collect();
            bytes.splice(at..at, more);
        }
        6 => bytes.extend([0, 5, 1].iter().take(1 + r.below(3) as usize)),
        _ => {
            let to = (at + 1 + r.below(12) as usize).min(bytes.len());
            bytes.drain(at.min(to)..to);
        }
    }
}

/// Where each tree begins, and the end, as far as the buffer can be read.
fn places(b: &Bundle) -> Vec<usize> {
    let (parts, symbols) = (b.parts() as u64, (b.records.len() - b.parts()) as u64);
    let mut places = vec![0];
    while let Ok(read) = plain::read(&b.bytes, places[places.len() - 1], places.len() as u64 - 1, parts, symbols) {
        places.push(read.next as usize);
    }
    places
}

/// A tree's last bytes changed (counts and byte counts stand there), the tree repeated, moved or gone; the tree count may follow.
fn damage_tree(r: &mut Random, b: &mut Bundle) {
    let places = places(b);
    if places.len() < 2 {
        return;
    }
    let tree = r.below(places.len() as u64 - 1) as usize;
    let (from, to) = (places[tree], places[tree + 1]);
    let other = r.pick(&places[..]);
    let copy = b.bytes[from..to].to_vec();
    match r.below(6) {
        0..3 => {
            let at = to - 1 - r.below(4) as usize;
            b.bytes[at] = if r.one_in(2) { b.bytes[at].wrapping_add(r.pick(&[1, 255])) } else { r.next() as u8 };
        }
        3 => drop(b.bytes.splice(other..other, copy)),
        4 => drop(b.bytes.drain(from..to)),
        _ => {
            b.bytes.drain(from..to);
            let other = other.min(b.bytes.len());
            b.bytes.splice(other..other, copy);
        }
    }
    if r.one_in(2) {
        b.trees = b.trees.wrapping_add(r.pick(&[1, u32::MAX]));
    }
}

/// A count changed: the stated one, or one of the root's two.
fn damage_counts(r: &mut Random, b: &mut Bundle) {
    let off = |r: &mut Random, x: u32| match r.below(3) {
        0 => x.wrapping_add(1),
        1 => x.wrapping_sub(1),
        _ => r.near(&[0, 255, 1 << 20, u32::MAX.into()], u32::MAX.into()) as u32,
    };
    let at = r.pick(&[25, 29]);
    match b.bytes.get(at..at + 4) {
        Some(word) if r.one_in(2) => {
            let count = u32::from_le_bytes(word.try_into().unwrap());
            let count = off(r, count).to_le_bytes();
            b.bytes.splice(at..at + 4, count);
        }
        _ => b.trees = off(r, b.trees),
    }
}

/// Entries gone, or one more.
fn damage_tables(r: &mut Random, b: &mut Bundle) {
    let at = r.below(b.records.len() as u64 + 1) as usize;
    match r.below(4) {
        0 => b.records.insert(at, vec![7; r.pick(&[1, 3])]),
        1 if at < b.records.len() => drop(b.records.remove(at)),
        2 if r.one_in(4) => b.records.truncate(at),
        _ => b.records.retain(|w| w.len() == 3),
    }
}

/// Another mark, two records exchanged, one repeated, one gone, one cut.
fn damage_records(r: &mut Random, pieces: &mut Vec<Vec<u8>>) {
    let at = r.below(pieces.len() as u64) as usize;
    let other = if r.one_in(2) { pieces.len() - 1 } else { r.below(pieces.len() as u64) as usize };
    match r.below(6) {
        0 => {
            let mark = r.pick::<&[u8]>(&[b"SP", b"SY", b"BT", b"sp", b"bt", b"SX", b"BP", b"\0\0", b"YS"]);
            let behind = pieces[other].get(2..).unwrap_or_default();
            pieces[other] = [mark, behind].concat();
        }
        1 => pieces.swap(at, other),
        2 => {
            let copy = pieces[other].clone();
            pieces.insert(at, copy);
        }
        3 => drop(pieces.remove(other)),
        4 => damage_bytes(r, &mut pieces[at]),
        // the stated tree count or byte count
        _ => {
            let byte = 2 + r.below(8) as usize;
            if let Some(b) = pieces.last_mut().and_then(|p| p.get_mut(byte)) {
                *b = b.wrapping_add(r.pick(&[1, 255, 128]));
            }
        }
    }
    if pieces.is_empty() {
        pieces.push(vec![]);
    }
}

/// A copy with some damage, now and then with none: first to what the records hold, then to the records, then to the whole.
pub fn damaged(r: &mut Random, whole: &Bundle) -> Vec<u8> {
    let mut b = whole.clone();
    for _ in 0..r.pick(&[0, 1, 1, 1, 1, 2, 4]) {
        match r.below(8) {
            0..3 => damage_bytes(r, &mut b.bytes),
            3..6 => damage_tree(r, &mut b),
            6 => damage_counts(r, &mut b),
            _ => damage_tables(r, &mut b),
        }
    }
    let mut pieces = b.pieces();
    for _ in 0..r.pick(&[0, 0, 0, 0, 0, 0, 1, 2]) {
        damage_records(r, &mut pieces);
    }
    let mut bytes = pieces.concat();
    for _ in 0..r.pick(&[0, 0, 0, 0, 0, 0, 0, 1, 3]) {
        damage_bytes(r, &mut bytes);
    }
    bytes
}
