//! The scope paper's format for one tree, with what document 02 says of distance bits, written down a second time without regard to speed: what
//! the proved functions are held to where the source gives no answer, or another one.

#[derive(Clone, Copy, Debug, PartialEq, Eq)]
pub struct Span {
    pub index: u64,
    pub start: u64,
    pub len: u64,
}

#[derive(Clone, Copy, Debug, PartialEq, Eq)]
pub enum Tree {
    Punct { span: Span, char: u64, spacing: u64 },
    Ident { span: Span, symbol: u64, raw: u64 },
    Literal { span: Span, symbol: u64, kind: u64, raw_count: u64, suffix: u64 },
    Subtree { open: Span, close: Span, count: u64, kind: u64 },
}

pub const LAST: u64 = u32::MAX as u64;

/// 1 or 0 for the opening span and for the closing one, whether it stands in more bytes than its numbers need, and how many of the spans
/// that the tree stores do. A leaf has no closing one.
pub type Report = [u32; 3];

#[derive(Clone, Copy, Debug)]
pub struct Read {
    pub tree: Tree,
    /// The place behind it.
    pub next: u64,
    pub children: u64,
    pub report: Report,
}

// ---- reading

/// How the distance of a subtree in 000 is read.
#[derive(Clone, Copy, PartialEq, Eq)]
pub enum Distance {
    /// It is the stored length; control bits 5 to 7 have to repeat it / 256, else refusal 2.
    Repeated,
    /// The stored length OR those bits * 256, as the source does.
    Or,
}

struct Bytes<'a> {
    bytes: &'a [u8],
    at: usize,
}

impl Bytes<'_> {
    /// A little-endian number of n bytes, or refusal 7.
    fn number(&mut self, n: usize) -> Result<u64, u64> {
        let rest = self.bytes.get(self.at..).ok_or(7u64)?;
        let taken = rest.get(..n).ok_or(7u64)?;
        self.at += n;
        Ok(taken.iter().rev().fold(0, |v, &b| 256 * v + u64::from(b)))
    }
    /// Extra bits, span, and 1 if fewer bytes hold its three numbers.
    fn span(&mut self) -> Result<(u64, Span, u32), u64> {
        let from = self.at;
        let first = self.number(4)?;
        let (mut index, mut len, mut start) = (first / 4 % 16, first / 64 % 256, first / 32768);
        if first / 16384 % 2 == 1 {
            let second = self.number(4)?;
            if second % 2 == 0 {
                index += 16 * (second / 2 % 2048);
                len += 256 * (second / 4096 % 1024);
                start += 131072 * (second / 4194304);
            } else {
                let rest = self.number(4)? + (second / 2) * 4294967296;
                index += 16 * (rest % 16777216);
                len += 256 * (rest / 16777216 % 16777216);
                start += 131072 * (rest / 281474976710656);
            }
        }
        let span = Span { index, start, len };
        let least = span_bytes(0, span, 0).len();
        Ok((first % 4, span, u32::from(least < self.at - from)))
    }
    /// Index and tag bit.
    fn symbol(&mut self) -> Result<(u64, u64), u64> {
        let first = self.number(1)?;
        let mut index = first / 4;
        if first / 2 % 2 == 1 {
            let second = self.number(1)?;
            index += 64 * (second / 2);
            if second % 2 == 1 {
                index += 8192 * self.number(2)?;
            }
        }
        Ok((index, first % 2))
    }
    /// A tree, its children bytes and its report; no field judged but a long literal's kind and the distance bits.
    fn tree(&mut self, by: Distance) -> Result<(Tree, u64, Report), u64> {
        let (extra, span, loose) = self.span()?;
        let leaf = [loose, 0, loose];
        if extra % 2 == 1 {
            let x = self.number(1)?;
            return Ok((Tree::Punct { span, char: x / 2, spacing: x % 2 + extra / 2 * 2 }, 0, leaf));
        }
        if extra == 2 {
            let (symbol, raw) = self.symbol()?;
            return Ok((Tree::Ident { span, symbol, raw }, 0, leaf));
        }
        let control = self.number(1)?;
        let delimiter = control / 8 % 4;
        let moved = |open: Span, index: u64, distance: u64| Span { index, start: open.start + distance, len: open.len };
        Ok(match control % 8 {
            0 => {
                let (count, children) = (self.number(1)?, self.number(1)?);
                let distance = match by {
                    Distance::Repeated if control / 32 != span.len / 256 => return Err(2),
                    Distance::Repeated => span.len,
                    Distance::Or => span.len | (control / 32 * 256),
                };
                let open = Span { len: 1, ..span };
                (Tree::Subtree { open, close: moved(open, span.index, distance), count, kind: delimiter }, children, [loose; 3])
            }
            1 => {
                let close = moved(span, span.index, control / 32);
                (Tree::Subtree { open: span, close, count: self.number(1)?, kind: delimiter }, self.number(1)?, [loose; 3])
            }
            2 => {
                let (distance, count, packed) = (self.number(1)?, self.number(1)?, self.number(2)?);
                let close = moved(span, control / 32 + packed % 16 * 8, distance);
                (Tree::Subtree { open: span, close, count, kind: delimiter }, packed / 16, [loose; 3])
            }
            5 => {
                let (_, close, closing) = self.span()?;
                let report = [loose, closing, loose + closing];
                (Tree::Subtree { open: span, close, count: self.number(4)?, kind: control / 8 }, self.number(4)?, report)
            }
            6 => (Tree::Punct { span, char: self.number(4)?, spacing: control / 8 }, 0, leaf),
            7 => {
                let kind = control / 8;
                if kind > 10 {
                    return Err(2);
                }
                let raw_count = if matches!(kind, 5 | 7 | 9) { self.number(1)? } else { 0 };
                let suffix = self.number(1)?;
                (Tree::Literal { span, symbol: self.symbol()?.0, kind, raw_count, suffix }, 0, leaf)
            }
            _ => {
                let (kind, raw_count) = [(4, 0), (5, 0), (5, 1), (2, 0)][(control / 4 % 4) as usize];
                (Tree::Literal { span, symbol: self.symbol()?.0, kind, raw_count, suffix: control / 16 }, 0, leaf)
            }
        })
    }
}

/// Every field in range.
pub fn in_range(tree: &Tree) -> bool {
    let fits = |s: &Span| s.start + s.len <= LAST;
    match *tree {
        Tree::Punct { span, char, spacing } => fits(&span) && u32::try_from(char).is_ok_and(|c| char::from_u32(c).is_some()) && spacing <= 2,
        Tree::Ident { span, raw, .. } => fits(&span) && raw <= 1,
        Tree::Literal { span, kind, raw_count, suffix, .. } => {
            fits(&span) && kind <= 10 && suffix <= 255 && raw_count <= if matches!(kind, 5 | 7 | 9) { 255 } else { 0 }
        }
        Tree::Subtree { open, close, kind, .. } => fits(&open) && fits(&close) && kind <= 3,
    }
}

/// Whether tree number n may use its indices, with so many parts and symbols.
pub fn indexed(tree: &Tree, n: u64, parts: u64, symbols: u64) -> bool {
    if n == 0 {
        return matches!(*tree, Tree::Subtree { open, close, .. } if open.index + 2 == parts && close.index + 1 == parts);
    }
    match *tree {
        Tree::Punct { span, .. } => span.index + 2 < parts,
        Tree::Ident { span, symbol, .. } | Tree::Literal { span, symbol, .. } => span.index + 2 < parts && symbol < symbols,
        Tree::Subtree { open, close, .. } => open.index + 2 < parts && close.index + 2 < parts,
    }
}

/// Index, start, length, extra bits, 1 if fewer bytes hold these three numbers, and the place behind.
pub fn read_span(bytes: &[u8], at: usize) -> Result<([u32; 5], usize), u64> {
    let mut from = Bytes { bytes, at };
    let (extra, span, loose) = from.span()?;
    Ok(([span.index as u32, span.start as u32, span.len as u32, extra as u32, loose], from.at))
}

/// Tree number n at a place, or 7, 2 or 8.
pub fn read(bytes: &[u8], at: usize, n: u64, parts: u64, symbols: u64) -> Result<Read, u64> {
    read_by(Distance::Repeated, bytes, at, n, parts, symbols)
}

pub fn read_by(by: Distance, bytes: &[u8], at: usize, n: u64, parts: u64, symbols: u64) -> Result<Read, u64> {
    let mut from = Bytes { bytes, at };
    let (tree, children, report) = from.tree(by)?;
    if !in_range(&tree) || (n == 0 && from.at != at + 33) {
        return Err(2);
    }
    if !indexed(&tree, n, parts, symbols) {
        return Err(8);
    }
    Ok(Read { tree, next: from.at as u64, children, report })
}

// ---- writing, in any form

/// 4, 8 or 12 bytes; the least that hold the span where `at_least` is smaller.
pub fn span_bytes(extra: u64, s: Span, at_least: usize) -> Vec<u8> {
    let fits = |i: u64, l: u64, p: u64| s.index < i && s.len < l && s.start < p;
    let size = if fits(16, 256, 131072) { 4 } else if fits(32768, 262144, 134217728) { 8 } else { 12 }.max(at_least);
    let first = extra + 4 * (s.index % 16) + 64 * (s.len % 256) + 16384 * u64::from(size > 4) + 32768 * (s.start % 131072);
    let (index, len, start) = (s.index / 16, s.len / 256, s.start / 131072);
    let second = match size {
        8 => 2 * index + 4096 * len + 4194304 * start,
        _ => 1 + 2 * ((index + 16777216 * len + 281474976710656 * start) >> 32),
    };
    let third = index + 16777216 * (len % 256);
    let words = [first, second, third];
    words[..size / 4].iter().flat_map(|&w| (w as u32).to_le_bytes()).collect()
}

/// 1, 2 or 4 bytes; the least that hold the index where `at_least` is smaller.
pub fn symbol_bytes(tag: u64, index: u64, at_least: usize) -> Vec<u8> {
    let size = if index < 64 { 1 } else if index < 8192 { 2 } else { 4 }.max(at_least);
    let mut bytes = vec![(index % 64 * 4 + 2 * u64::from(size > 1) + tag) as u8];
    if size > 1 {
        bytes.push((index / 64 % 128 * 2 + u64::from(size > 2)) as u8);
    }
    if size > 2 {
        bytes.extend(((index / 8192) as u16).to_le_bytes());
    }
    bytes
}

/// How a tree is written where more than one form holds it.
#[derive(Clone, Copy, Debug, Default)]
pub struct Loose {
    pub span: usize,
    pub close: usize,
    pub close_extra: u64,
    pub symbol: usize,
    pub tag: u64,
    /// Pass over this many forms that would do.
    pub forms: usize,
}

fn subtree_forms(open: Span, close: Span, count: u64, kind: u64, children: u64, how: Loose) -> Vec<Vec<u8>> {
    let mut forms = Vec::new();
    let span = |s: Span| span_bytes(0, s, how.span);
    if let Some(distance) = close.start.checked_sub(open.start) {
        let small = count <= 255 && children <= 255 && open.index == close.index;
        if small && open.len == 1 && close.len == 1 && distance <= 2047 {
            let tail = [(8 * kind + 32 * (distance / 256)) as u8, count as u8, children as u8];
            forms.push([span(Span { len: distance, ..open }), tail.to_vec()].concat());
        }
        if small && open.len == close.len && distance <= 7 {
            let tail = [(1 + 8 * kind + 32 * distance) as u8, count as u8, children as u8];
            forms.push([span(open), tail.to_vec()].concat());
        }
        if count <= 255 && children <= 4095 && open.len == close.len && distance <= 255 && close.index <= 127 {
            let packed = (16 * children + close.index / 8) as u16;
            let tail = [(2 + 8 * kind + 32 * (close.index % 8)) as u8, distance as u8, count as u8];
            forms.push([span(open), tail.to_vec(), packed.to_le_bytes().to_vec()].concat());
        }
    }
    let counts = [(count as u32).to_le_bytes(), (children as u32).to_le_bytes()].concat();
    forms.push([span(open), vec![(5 + 8 * kind) as u8], span_bytes(how.close_extra, close, how.close), counts].concat());
    forms
}

fn literal_forms(span: Span, symbol: u64, kind: u64, raw_count: u64, suffix: u64, how: Loose) -> Vec<Vec<u8>> {
    let head = span_bytes(0, span, how.span);
    let symbol = symbol_bytes(how.tag, symbol, how.symbol);
    let mut forms = Vec::new();
    let base = match (kind, raw_count) {
        (4, _) => Some(3),
        (5, 0) => Some(4),
        (5, 1) => Some(11),
        (2, _) => Some(12),
        _ => None,
    };
    if let (Some(base), true) = (base, suffix <= 15) {
        forms.push([head.clone(), vec![(base + 16 * suffix) as u8], symbol.clone()].concat());
    }
    let mut long = vec![(7 + 8 * kind) as u8];
    if matches!(kind, 5 | 7 | 9) {
        long.push(raw_count as u8);
    }
    long.push(suffix as u8);
    forms.push([head, long, symbol].concat());
    forms
}

/// The bytes of a tree below the root.
pub fn write(tree: &Tree, children: u64, how: Loose) -> Vec<u8> {
    let mut forms = match *tree {
        Tree::Punct { span, char, spacing } => {
            let mut forms = Vec::new();
            if char < 128 {
                forms.push([span_bytes(1 + 2 * (spacing / 2), span, how.span), vec![(char * 2 + spacing % 2) as u8]].concat());
            }
            let control = vec![(6 + 8 * spacing) as u8];
            forms.push([span_bytes(0, span, how.span), control, (char as u32).to_le_bytes().to_vec()].concat());
            forms
        }
        Tree::Ident { span, symbol, raw } => vec![[span_bytes(2, span, how.span), symbol_bytes(raw, symbol, how.symbol)].concat()],
        Tree::Literal { span, symbol, kind, raw_count, suffix } => literal_forms(span, symbol, kind, raw_count, suffix, how),
        Tree::Subtree { open, close, count, kind } => subtree_forms(open, close, count, kind, children, how),
    };
    let chosen = how.forms.min(forms.len() - 1);
    forms.swap_remove(chosen)
}

/// The 33 bytes of the root.
pub fn write_root(open: Span, close: Span, count: u64, kind: u64, children: u64) -> Vec<u8> {
    let counts = [(count as u32).to_le_bytes(), (children as u32).to_le_bytes()].concat();
    [span_bytes(0, open, 12), vec![(5 + 8 * kind) as u8], span_bytes(0, close, 12), counts].concat()
}

// ---- list words

/// The 13 list words of a tree, its part and its symbol entries given by the tables.
pub fn words(tree: &Tree, parts: &[[u32; 3]], symbols: &[u32]) -> [u32; 13] {
    let span = |s: Span| {
        let [file, ast_id, context] = parts[s.index as usize];
        [file, ast_id, context, s.start as u32, s.len as u32]
    };
    let (head, open, close) = match *tree {
        Tree::Punct { span: s, char, spacing } => ([0, char as u32, spacing as u32], span(s), [0; 5]),
        Tree::Ident { span: s, symbol, raw } => ([1, symbols[symbol as usize], raw as u32], span(s), [0; 5]),
        Tree::Literal { span: s, symbol, kind, raw_count, suffix } => {
            ([2, symbols[symbol as usize], (kind + 256 * raw_count + 65536 * suffix) as u32], span(s), [0; 5])
        }
        Tree::Subtree { open, close, count, kind } => ([3, count as u32, kind as u32], span(open), span(close)),
    };
    let mut words = [0; 13];
    words[..3].copy_from_slice(&head);
    words[3..8].copy_from_slice(&open);
    words[8..].copy_from_slice(&close);
    words
}
