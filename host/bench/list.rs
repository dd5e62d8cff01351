//! The list that is measured: 45 of 100 trees idents, 35 puncts, 8 literals, 12 subtrees, up to 8 deep.
use crate::random::Random;

pub struct Shape {
    pub trees: usize,
    pub parts: u64,
    pub symbols: u64,
    /// Past this start, starts begin again at 0 once no subtree is open but the root. Without that they grow.
    pub wrap: u32,
}

/// Smaller numbers more often.
fn skewed(r: &mut Random, n: u64) -> u32 {
    let x = r.below(n);
    r.below(x + 1) as u32
}

fn part(r: &mut Random, parts: u64) -> [u32; 3] {
    let p = skewed(r, parts);
    [p / 4, p % 4, p % 3]
}

fn leaf(r: &mut Random, list: &mut Vec<u32>, shape: &Shape, at: &mut u32) {
    let (head, len) = match r.below(88) {
        0..45 => ([1, 1000 + skewed(r, shape.symbols), u32::from(r.one_in(50))], 1 + r.below(12) as u32),
        45..80 => ([0, u32::from(r.pick(b".,;:=+-*/&|<>!?#$@%^~'")), r.below(3) as u32], 1),
        _ => {
            let kind = r.pick(&[2, 2, 2, 2, 4, 4, 4, 5, 3, 1]);
            let suffix = if kind == 2 && r.one_in(4) { 3 } else { 0 };
            ([2, 1000 + skewed(r, shape.symbols), kind + 65536 * suffix], 1 + r.below(12) as u32)
        }
    };
    list.extend(head);
    list.extend(part(r, shape.parts));
    list.extend([*at, len, 0, 0, 0, 0, 0]);
    *at += len;
}

/// List words, 13 a tree.
pub fn list(shape: &Shape) -> Vec<u32> {
    list_of(shape, 5)
}

/// Another list of the same shape for each seed.
pub fn list_of(shape: &Shape, seed: u64) -> Vec<u32> {
    let mut r = Random::new(seed);
    let mut list = Vec::with_capacity(13 * shape.trees);
    let mut open = vec![0];
    let mut at = 0;
    list.extend([3, 0, 3, 90, 0, 0, 0, 0, 90, 0, 0, 0, 0]);
    while list.len() < 13 * shape.trees {
        let n = list.len() / 13;
        at += u32::from(r.one_in(3));
        if at > shape.wrap && open.len() == 1 {
            at = 0;
        }
        if open.len() > 1 && r.below(100) < 14 {
            close(&mut list, open.pop().unwrap(), n, at);
            at += 1;
        } else if open.len() < 8 && r.below(100) < 14 {
            open.push(n);
            let opening = part(&mut r, shape.parts);
            let closing = if r.one_in(20) { part(&mut r, shape.parts) } else { opening };
            list.extend([3, 0, r.below(3) as u32]);
            list.extend(opening);
            list.extend([at, 1]);
            list.extend(closing);
            list.extend([0, 1]);
            at += 1;
        } else {
            leaf(&mut r, &mut list, shape, &mut at);
        }
    }
    let n = list.len() / 13;
    while let Some(i) = open.pop() {
        close(&mut list, i, n, if i == 0 { 0 } else { at });
    }
    list
}

fn close(list: &mut [u32], i: usize, n: usize, at: u32) {
    list[13 * i + 1] = (n - 1 - i) as u32;
    list[13 * i + 11] = at;
}
