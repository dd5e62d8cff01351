//! Reaches the source's private functions; every byte is made or read by them. What is used from outside hangs on `TopSubtree`, since
//! this module has no name there.
use super::*;

/// File, ast id, context.
pub type Part = [u32; 3];

fn part(w: Part) -> CompressedSpanPart {
    let anchor = SpanAnchor { file_id: span::EditionedFileId(w[0]), ast_id: span::ErasedFileAstId(w[1]) };
    CompressedSpanPart { anchor, ctx: SyntaxContext(w[2]) }
}

fn part_words(p: &CompressedSpanPart) -> Part {
    [p.anchor.file_id.0, p.anchor.ast_id.0, p.ctx.0]
}

impl BufferReader<'_> {
    fn bytes_to(&self, end: &BufferReader<'_>) -> usize {
        #[cfg(all(debug_assertions, not(miri)))]
        return self.buffer.len() - end.buffer.len();
        #[cfg(not(all(debug_assertions, not(miri))))]
        return end.ptr.addr() - self.ptr.addr();
    }
}

impl TokenTreesSlice<'_> {
    pub(crate) fn bytes_left(&self) -> usize {
        self.current.bytes_to(&self.end)
    }
}

/// The source's own steps over a buffer.
#[derive(Clone, Copy)]
pub struct Walk<'a> {
    slice: TokenTreesSlice<'a>,
    bytes: usize,
}

impl Walk<'_> {
    pub fn place(&self) -> usize {
        self.bytes - self.slice.bytes_left()
    }
    #[inline]
    pub fn advance(&mut self) -> Option<TokenTree> {
        self.slice.advance()
    }
    #[inline]
    pub fn advance_skip_subtree(&mut self) -> Option<TokenTree> {
        self.slice.advance_skip_subtree().map(|(tree, _)| tree)
    }
    /// One tree at the present place, and its children bytes.
    #[inline]
    pub fn decode(&mut self) -> (TokenTree, u32) {
        let (next, tree, children) = unsafe { decode(self.slice.current, self.slice.span_parts, self.slice.symbols) };
        self.slice.current = next;
        (tree, children)
    }
}

/// Indices of parts and symbols, as the source keeps them while it writes.
pub struct Maps {
    pub parts: usize,
    span_parts_map: FxHashMap<CompressedSpanPart, usize>,
    symbols_map: FxHashMap<Symbol, usize>,
}

impl Maps {
    /// First places; the last two parts are the root's and not entered.
    fn of(parts: &[Part], symbols: &[u32]) -> Maps {
        let mut maps = Maps { parts: parts.len(), span_parts_map: FxHashMap::default(), symbols_map: FxHashMap::default() };
        for (i, &w) in parts[..parts.len() - 2].iter().enumerate() {
            maps.span_parts_map.entry(part(w)).or_insert(i);
        }
        for (i, &s) in symbols.iter().enumerate() {
            maps.symbols_map.entry(Symbol(s)).or_insert(i);
        }
        maps
    }
    /// Any index for a part or a symbol.
    fn chosen(parts: &[(Part, usize)], symbols: &[(u32, usize)]) -> Maps {
        Maps {
            parts: 0,
            span_parts_map: parts.iter().map(|&(w, i)| (part(w), i)).collect(),
            symbols_map: symbols.iter().map(|&(s, i)| (Symbol(s), i)).collect(),
        }
    }
}

fn written(capacity: usize, write: impl for<'a> FnOnce(BufferWriter<'a>) -> BufferWriter<'a>) -> Box<[u8]> {
    let mut buffer = UninitBuffer::new(capacity);
    let end = write(buffer.writer()).finish();
    unsafe { buffer.finish(end) }
}

impl TopSubtree {
    pub fn of(len: usize, bytes: &[u8], parts: &[Part], symbols: &[u32]) -> TopSubtree {
        TopSubtree {
            buffer: bytes.into(),
            span_parts: parts.iter().copied().map(part).collect(),
            symbols: symbols.iter().copied().map(Symbol).collect(),
            len,
        }
    }
    pub fn set_bytes(&mut self, bytes: &[u8]) {
        self.buffer = bytes.into();
    }
    pub fn bytes(&self) -> &[u8] {
        &self.buffer
    }
    pub fn trees(&self) -> usize {
        self.len
    }
    pub fn part_list(&self) -> Vec<Part> {
        self.span_parts.iter().map(part_words).collect()
    }
    pub fn symbol_list(&self) -> Vec<u32> {
        self.symbols.iter().map(|s| s.0).collect()
    }
    /// A walk from a byte place on.
    pub fn walk_from(&self, place: usize) -> Walk<'_> {
        let mut slice = TokenTreesSlice::new(self);
        unsafe { slice.current.skip(place) };
        Walk { slice, bytes: self.buffer.len() }
    }
}

impl TopSubtree {
    pub fn maps(parts: &[Part], symbols: &[u32]) -> Maps {
        Maps::of(parts, symbols)
    }

    pub fn chosen_maps(parts: &[(Part, usize)], symbols: &[(u32, usize)]) -> Maps {
        Maps::chosen(parts, symbols)
    }

    /// One tree below the root; `after` holds the bytes of this tree, of the next, and so on, to the end.
    pub fn encode_tree(tree: TokenTree, maps: &Maps, after: &mut [u32]) -> Box<[u8]> {
        written(BIGGEST_POSSIBLE_TT_ENCODING, |w| unsafe { encode(w, tree, &maps.span_parts_map, after, &maps.symbols_map) })
    }

    pub fn encode_root(root: Subtree, first_part: u32, after: &[u32]) -> Box<[u8]> {
        written(BIGGEST_POSSIBLE_TT_ENCODING, |w| unsafe { encode_top_subtree(w, root, first_part, after) })
    }

    /// The second half of `encode_all`, over given indices; also the sizes as the source leaves them.
    pub fn encode_list(trees: Vec<TokenTree>, maps: &Maps) -> (Box<[u8]>, Vec<u32>) {
        let mut after = vec![0; trees.len() + 1];
        let capacity = trees.len() * BIGGEST_POSSIBLE_TT_ENCODING;
        let mut trees = trees.into_iter().enumerate();
        let Some((_, TokenTree::Subtree(root))) = trees.next() else { panic!("no root") };
        let bytes = written(capacity, |mut w| unsafe {
            for (i, tree) in trees.rev() {
                w = encode(w, tree, &maps.span_parts_map, &mut after[i..], &maps.symbols_map);
            }
            encode_top_subtree(w, root, (maps.parts - 2) as u32, &after)
        });
        (bytes, after)
    }

    /// Parts and symbols with their counts, in no order.
    pub fn counts(below_root: &[TokenTree]) -> (Vec<(Part, usize)>, Vec<(u32, usize)>) {
        let (parts, symbols) = compute_span_frequencies_and_symbols(below_root);
        (parts.iter().map(|(p, &n)| (part_words(p), n)).collect(), symbols.iter().map(|(s, &n)| (s.0, n)).collect())
    }
}

// ---- spans and symbols

impl TopSubtree {
    pub fn encode_span_bytes(index: u32, start: u32, len: u32, extra: u32, heavy: bool) -> Box<[u8]> {
        written(12, |w| unsafe { encode_span_no_map(w, index, start, len, extra, heavy) })
    }

    /// Many spans one behind the other; the bytes written.
    pub fn encode_spans(spans: &[[u32; 3]]) -> usize {
        written(12 * spans.len(), |mut w| {
            for &[index, start, len] in spans {
                w = unsafe { encode_span_no_map(w, index, start, len, 0, false) };
            }
            w
        })
        .len()
    }

    /// Index, start, length, bytes read. The bytes are at least 12.
    pub fn decode_span_bytes(bytes: &[u8]) -> (usize, u32, u32, usize) {
        assert!(bytes.len() >= 12);
        let (mut from, end) = BufferReader::start_end(bytes);
        unsafe {
            let first = from.read::<u32>();
            let (next, span) = decode_span(from, first);
            let used = bytes.len() - next.bytes_to(&end);
            (span.span_parts_index, span.text_range.start().into(), span.text_range.len().into(), used)
        }
    }

    /// Reads spans one behind the other to the end; their number and a sum of their fields.
    pub fn decode_spans(bytes: &[u8]) -> (usize, u64) {
        let (mut from, end) = BufferReader::start_end(bytes);
        let (mut n, mut sum) = (0, 0);
        while from != end {
            unsafe {
                let first = from.read::<u32>();
                let (next, span) = decode_span(from, first);
                from = next;
                n += 1;
                sum += span.span_parts_index as u64 + u64::from(u32::from(span.text_range.start())) + u64::from(u32::from(span.text_range.len()));
            }
        }
        (n, sum)
    }

    pub fn encode_symbol_bytes(index: usize, tag: u32) -> Box<[u8]> {
        let map = FxHashMap::from_iter([(Symbol(0), index)]);
        written(4, |w| unsafe { encode_symbol(w, &Symbol(0), tag, &map) })
    }

    /// The table entry and the bytes read. The bytes are at least 4.
    pub fn decode_symbol_bytes(bytes: &[u8], symbols: &[u32]) -> (u32, usize) {
        assert!(bytes.len() >= 4);
        let (mut from, end) = BufferReader::start_end(bytes);
        // a symbol is a transparent u32
        let table = unsafe { std::slice::from_raw_parts(symbols.as_ptr().cast::<Symbol>(), symbols.len()) };
        unsafe {
            let first = from.read::<u8>();
            let (next, symbol) = decode_symbol(from, first, table);
            (symbol.0, bytes.len() - next.bytes_to(&end))
        }
    }
}

// ---- builder

impl TopSubtreeBuilder {
    pub fn list(&self) -> &[TokenTree] {
        &self.token_trees
    }
    pub fn open_trees(&self) -> &[usize] {
        &self.unclosed_subtree_indices
    }
    pub fn point(&mut self) -> (usize, usize) {
        let p = self.restore_point();
        (p.token_trees_len, p.unclosed_subtree_indices_len)
    }
    pub fn restore_at(&mut self, trees: usize, open: usize) {
        self.restore(SubtreeBuilderRestorePoint { unclosed_subtree_indices_len: open, token_trees_len: trees });
    }
}
