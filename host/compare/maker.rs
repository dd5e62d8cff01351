//! Random lists that reach every form and boundary, and tables for them.
use crate::plain::Loose;
use crate::plain_list;
use crate::random::Random;

pub struct Maker {
    pub r: Random,
    /// How many parts and symbols are drawn from.
    parts: u64,
    symbols: u64,
}

impl Maker {
    pub fn new(seed: u64) -> Maker {
        let mut r = Random::new(seed);
        let parts = r.pick(&[1, 2, 10, 15, 16, 17, 127, 129, 300]);
        let symbols = r.pick(&[1, 3, 63, 64, 65, 300]);
        Maker { r, parts, symbols }
    }

    pub fn part(&mut self) -> [u32; 3] {
        let p = self.r.below(self.parts) as u32;
        // parts that differ in one word only are frequent
        [p % 5, p / 5 % 5, p / 25]
    }

    pub fn symbol(&mut self) -> u32 {
        (self.r.below(self.symbols) as u32).wrapping_mul(2654435761)
    }

    /// Start and length of a span of 4, 8 or 12 bytes, the index apart.
    fn range(&mut self, bytes: u64) -> [u32; 2] {
        match bytes {
            4 => [self.r.near(&[0, 131071], 131071) as u32, self.r.near(&[0, 1, 255], 255) as u32],
            8 => [self.r.near(&[131072, 134217727], 134217727) as u32, self.r.near(&[256, 262143], 262143) as u32],
            _ => {
                let start = self.r.near(&[134217728, u32::MAX.into()], u32::MAX.into()) as u32;
                [start, self.r.near(&[262144, u32::MAX.into()], (u32::MAX - start).into()) as u32]
            }
        }
    }

    /// A leaf whose span has so many bytes, where its part's index does not ask for more.
    pub fn leaf(&mut self, span: u64) -> [u32; 13] {
        let head = match self.r.below(8) {
            0..3 => [0, self.r.near(&[0, 127], 127) as u32, self.r.below(3) as u32],
            3 => [0, self.r.pick(&[128, 0xD7FF, 0xE000, 0x10FFFF]), self.r.below(3) as u32],
            4 | 5 => [1, self.symbol(), self.r.below(2) as u32],
            _ => {
                let kind = self.r.below(11) as u32;
                let raw_count = if matches!(kind, 5 | 7 | 9) { self.r.near(&[0, 1, 2, 255], 255) as u32 } else { 0 };
                [2, self.symbol(), kind + 256 * raw_count + 65536 * self.r.near(&[0, 15, 16, 255], 255) as u32]
            }
        };
        let [start, len] = self.range(span);
        let [file, ast_id, context] = self.part();
        [head[0], head[1], head[2], file, ast_id, context, start, len, 0, 0, 0, 0, 0]
    }

    /// A subtree of so many descendants; close may be anywhere, and is near each limit of distance.
    fn subtree(&mut self, count: u32) -> [u32; 13] {
        let form = self.r.pick(&[4, 4, 4, 8, 12]);
        let [start, len] = self.range(form);
        let len = if self.r.one_in(2) { len.min(1) } else { len };
        let opening = self.part();
        let closing = if self.r.one_in(3) { self.part() } else { opening };
        let distance = self.r.near(&[0, 7, 8, 255, 256, 2047, 2048], 3000) as u32;
        let mut close = [start.saturating_add(distance), len];
        if self.r.one_in(8) {
            close = self.range(form);
        }
        close[1] = close[1].min(u32::MAX - close[0]);
        let kind = self.r.below(4) as u32;
        let mut w = [3, count, kind, 0, 0, 0, start, len, 0, 0, 0, close[0], close[1]];
        w[3..6].copy_from_slice(&opening);
        w[8..11].copy_from_slice(&closing);
        w
    }

    /// A run of trees, so many at most, with subtrees in it.
    fn run(&mut self, list: &mut Vec<u32>, budget: u64, depth: u64) {
        let span = self.r.pick(&[4, 4, 4, 8, 12]);
        let mut left = budget;
        while left > 0 {
            if depth > 0 && self.r.one_in(4) {
                let at = list.len();
                list.extend(self.subtree(0));
                let inner = match self.r.below(4) {
                    0 => 0,
                    1 => self.r.near(&[51, 255], left - 1),
                    _ => self.r.below(left),
                };
                self.run(list, inner, depth - 1);
                let count = (list.len() - at) / 13 - 1;
                list[at + 1] = count as u32;
                left -= (count as u64 + 1).min(left);
            } else {
                let leaf = if self.r.one_in(10) { self.leaf(4) } else { self.leaf(span) };
                list.extend(leaf);
                left -= 1;
            }
        }
    }

    /// A list that rows 1 to 4 pass.
    pub fn list(&mut self) -> Vec<u32> {
        let mut list = self.subtree(0).to_vec();
        let budget = match self.r.below(8) {
            0 => 0,
            1..5 => self.r.below(12),
            5 | 6 => self.r.below(90),
            _ => self.r.near(&[255, 400], 700),
        };
        let depth = self.r.below(6);
        self.run(&mut list, budget, depth);
        list[1] = (list.len() / 13 - 1) as u32;
        list
    }

    /// Trees whose bytes add up to a limit of a subtree's children bytes: puncts of 5 bytes, or few large leaves.
    pub fn limit_list(&mut self) -> Vec<u32> {
        (self.parts, self.symbols) = (1, 1);
        let mut list = self.subtree(0).to_vec();
        list.extend(self.subtree(0));
        let target = self.r.pick(&[254, 255, 256, 257, 4094, 4095, 4096, 4097u64]);
        let [file, ast_id, context] = self.part();
        let mut left = target;
        // 17 bytes: a punct that is not ASCII behind a span of 12; 5 bytes and up by the sort
        while left > 0 {
            let (size, head, range): (u64, [u32; 3], [u32; 2]) = match left {
                0..5 => break,
                5 => (5, [0, 43, 0], [1, 1]),
                6 => (6, [2, 0, 4], [1, 1]),
                7 => (7, [2, 0, 3], [1, 1]),
                8 => (8, [2, 0, 9], [1, 1]),
                9 => (9, [0, 43, 1], [1 << 17, 1]),
                10..22 => (5, [0, 43, 2], [7, 1]),
                _ if target > 300 => (17, [0, 0x2028, 0], [1 << 28, 1]),
                _ => (5, [0, 45, 0], [7, 1]),
            };
            list.extend(head);
            list.extend([file, ast_id, context]);
            list.extend(range);
            list.extend([0; 5]);
            left -= size;
        }
        list[14] = (list.len() / 13 - 2) as u32;
        list[1] = list[14] + 1;
        list
    }

    /// So many subtrees, each in the one before.
    pub fn nested(&mut self, depth: usize) -> Vec<u32> {
        let mut list = Vec::new();
        for i in 0..depth {
            list.extend(self.subtree((depth - 1 - i) as u32));
        }
        list
    }

    /// Tables for a list, in another order than its own, with unused entries and repeated ones.
    pub fn tables_for(&mut self, list: &[u32]) -> (Vec<u32>, Vec<u32>) {
        let own = plain_list::tables(list);
        let root = own.parts.len() - 2;
        let mut parts = own.parts[..root].to_vec();
        let mut symbols = own.symbols.clone();
        let pad = self.r.pick(&[0, 0, 1, 15, 16, 120, 128]) + if self.r.one_in(60) { 32760 } else { 0 };
        let symbol_pad = self.r.pick(&[0, 0, 1, 60, 64]) + if self.r.one_in(60) { 8190 } else { 0 };
        for i in 0..pad {
            let place = self.r.below(parts.len() as u64 + 1) as usize;
            let entry = if !parts.is_empty() && self.r.one_in(8) { self.r.pick(&parts) } else { [1 << 20, i as u32, 9] };
            if pad < 1000 { parts.insert(place, entry) } else { parts.push(entry) }
        }
        for i in 0..symbol_pad {
            let place = self.r.below(symbols.len() as u64 + 1) as usize;
            let entry = if !symbols.is_empty() && self.r.one_in(8) { self.r.pick(&symbols) } else { 7 + 3 * i as u32 };
            if symbol_pad < 1000 { symbols.insert(place, entry) } else { symbols.push(entry) }
        }
        if pad >= 1000 {
            parts.reverse();
        }
        if symbol_pad >= 1000 {
            symbols.reverse();
        }
        parts.extend(&own.parts[root..]);
        (parts.concat(), symbols)
    }
}

/// Any form that holds a tree.
pub fn loose(r: &mut Random) -> Loose {
    Loose {
        span: r.pick(&[0, 0, 8, 12]),
        close: r.pick(&[0, 0, 8, 12]),
        close_extra: r.below(4),
        symbol: r.pick(&[0, 0, 2, 4]),
        tag: r.below(2),
        forms: r.below(3) as usize,
    }
}
