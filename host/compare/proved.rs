//! The proved functions, through the static libraries of the crates `export` and `store`; both span packers through those that measure them.

/// A reply at or above this is a refusal; its number is what lies above.
pub const REFUSED: u64 = 1 << 63;

mod raw {
    unsafe extern "C" {
        pub fn tt_encode_span(out: *mut u8, len: usize, at: usize, index: u32, start: u32, length: u32, extra: u32, heavy: bool) -> u64;
        pub fn tt_pack_all(out: *mut u8, len: usize, at: usize, spans: *const u32, words: usize, extra: u32, heavy: bool) -> u64;
        pub fn tt_pack_all_by_form(out: *mut u8, len: usize, at: usize, spans: *const u32, words: usize, extra: u32, heavy: bool) -> u64;
        pub fn tt_encode_symbol(out: *mut u8, len: usize, at: usize, tag: u32, index: u32) -> u64;
        pub fn tt_decode_span(b: *const u8, len: usize, at: usize, words: *mut u32, room: usize) -> u64;
        pub fn tt_decode_symbol(b: *const u8, len: usize, at: usize, words: *mut u32, room: usize) -> u64;
        pub fn tt_decode_tree(
            b: *const u8, len: usize,
            parts: *const u32, part_words: usize,
            symbols: *const u32, symbol_words: usize,
            n: u32, at: usize,
            words: *mut u32, room: usize,
        ) -> u64;
        pub fn tt_encode_tree(
            out: *mut u8, len: usize, at: usize,
            tree: *const u32,
            open: u32, close: u32, symbol: u32, children: u32,
        ) -> u64;
        pub fn tt_encode_list(
            list: *const u32, words: usize,
            parts: *const u32, part_words: usize,
            symbols: *const u32, symbol_words: usize,
            work: *mut u32, work_words: usize,
            out: *mut u8, len: usize,
        ) -> u64;
        pub fn tt_check(b: *const u8, len: usize, trees: u32, parts: usize, symbols: usize) -> u64;
        pub fn tt_check_buffer(
            b: *const u8, len: usize, trees: u32,
            parts: *const u32, part_words: usize,
            symbols: *const u32, symbol_words: usize,
        ) -> u64;
        pub fn tt_walk(
            b: *const u8, len: usize, trees: u32,
            parts: *const u32, part_words: usize,
            symbols: *const u32, symbol_words: usize,
            place: usize, number: u32, left: u32, skip: bool,
            next: *mut usize, next_words: usize,
            words: *mut u32, room: usize,
        ) -> u64;
        pub fn tt_last_span(
            b: *const u8, len: usize, trees: u32,
            parts: *const u32, part_words: usize,
            symbols: *const u32, symbol_words: usize,
            place: usize, number: u32, left: u32,
            words: *mut u32, room: usize,
        ) -> u64;
        pub fn tt_cursor(
            b: *const u8, len: usize, trees: u32,
            parts: *const u32, part_words: usize,
            symbols: *const u32, symbol_words: usize,
            call: u32, place: usize, number: u32, depth: usize,
            numbers: *mut u32, counts: *mut u32, places: *mut usize,
            next: *mut usize, next_words: usize,
            words: *mut u32, room: usize,
        ) -> u64;
        pub fn tt_cursor_by_value(
            b: *const u8, len: usize, trees: u32,
            parts: *const u32, part_words: usize,
            symbols: *const u32, symbol_words: usize,
            call: u32, place: usize, number: u32, depth: usize,
            numbers: *mut u32, counts: *mut u32, places: *mut usize,
            next: *mut usize, next_words: usize,
            words: *mut u32, room: usize,
        ) -> u64;
        pub fn tt_set_kind(
            b: *mut u8, len: usize, trees: u32,
            parts: *const u32, part_words: usize,
            symbols: *const u32, symbol_words: usize,
            kind: u32,
        ) -> u64;
        pub fn tt_set_spans(
            b: *mut u8, len: usize, trees: u32,
            parts: *mut u32, part_words: usize,
            symbols: *const u32, symbol_words: usize,
            spans: *const u32,
        ) -> u64;
        pub fn tt_tables(
            list: *const u32, words: usize,
            parts: *mut u32, part_words: usize,
            part_counts: *mut u32, part_count_words: usize,
            symbols: *mut u32, symbol_words: usize,
            symbol_counts: *mut u32, symbol_count_words: usize,
        ) -> u64;
        pub fn tt_encode_top_subtree(
            out: *mut u8, len: usize, at: usize,
            open_index: u32, open_start: u32, open_len: u32,
            close_index: u32, close_start: u32, close_len: u32,
            count: u32, kind: u32, children: u32,
        ) -> u64;
        pub fn tt_set_token(
            b: *const u8, len: usize, trees: u32,
            parts: *const u32, part_words: usize,
            symbols: *const u32, symbol_words: usize,
            number: u32, leaf: *const u32,
            list: *mut u32, list_words: usize,
            tables: *mut u32, table_words: usize,
            counts: *mut u32, count_words: usize,
            out: *mut u8, out_len: usize,
            out_parts: *mut u32, out_part_words: usize,
            out_symbols: *mut u32, out_symbol_words: usize,
            told: *mut usize,
        ) -> u32;
        pub fn tt_preview(
            b: *const u8, len: usize, trees: u32,
            parts: *const u32, part_words: usize,
            symbols: *const u32, symbol_words: usize,
            number: u32, leaf: *const u32,
            list: *mut u32, list_words: usize,
            tables: *mut u32, table_words: usize,
            counts: *mut u32, count_words: usize,
            told: *mut usize,
        ) -> u32;
        pub fn tt_tidy(
            b: *const u8, len: usize, trees: u32,
            parts: *const u32, part_words: usize,
            symbols: *const u32, symbol_words: usize,
            list: *mut u32, list_words: usize,
            tables: *const u32, table_words: usize,
            counts: *mut u32, count_words: usize,
            out: *mut u8, out_len: usize,
            told: *mut usize,
        ) -> u32;
    }
}

fn reply(code: u64) -> Result<u64, u64> {
    if code < REFUSED { Ok(code) } else { Err(code - REFUSED) }
}

#[inline]
pub fn encode_span(out: &mut [u8], at: usize, span: [u32; 3], extra: u32, heavy: bool) -> Result<u64, u64> {
    reply(unsafe { raw::tt_encode_span(out.as_mut_ptr(), out.len(), at, span[0], span[1], span[2], extra, heavy) })
}

/// Spans of index, start and length one behind the other, in one call.
pub fn pack_all(out: &mut [u8], at: usize, spans: &[u32], extra: u32, heavy: bool) -> Result<u64, u64> {
    reply(unsafe { raw::tt_pack_all(out.as_mut_ptr(), out.len(), at, spans.as_ptr(), spans.len(), extra, heavy) })
}

/// The same by the reference of the span packer.
pub fn pack_all_by_form(out: &mut [u8], at: usize, spans: &[u32], extra: u32, heavy: bool) -> Result<u64, u64> {
    reply(unsafe { raw::tt_pack_all_by_form(out.as_mut_ptr(), out.len(), at, spans.as_ptr(), spans.len(), extra, heavy) })
}

#[inline]
pub fn encode_symbol(out: &mut [u8], at: usize, tag: u32, index: u32) -> Result<u64, u64> {
    reply(unsafe { raw::tt_encode_symbol(out.as_mut_ptr(), out.len(), at, tag, index) })
}

/// Index, start, length, extra bits and the report (1 if fewer bytes hold the first three) go to `words`; the place behind is the answer.
#[inline]
pub fn decode_span(b: &[u8], at: usize, words: &mut [u32]) -> Result<u64, u64> {
    reply(unsafe { raw::tt_decode_span(b.as_ptr(), b.len(), at, words.as_mut_ptr(), words.len()) })
}

#[inline]
pub fn decode_symbol(b: &[u8], at: usize, words: &mut [u32; 2]) -> Result<u64, u64> {
    reply(unsafe { raw::tt_decode_symbol(b.as_ptr(), b.len(), at, words.as_mut_ptr(), 2) })
}

/// 13 list words, the children bytes and the tree's report go to `words`; the place behind is the answer.
#[inline]
pub fn decode_tree(b: &[u8], parts: &[u32], symbols: &[u32], n: u32, at: usize, words: &mut [u32]) -> Result<u64, u64> {
    reply(unsafe {
        raw::tt_decode_tree(
            b.as_ptr(), b.len(), parts.as_ptr(), parts.len(), symbols.as_ptr(), symbols.len(), n, at, words.as_mut_ptr(), words.len(),
        )
    })
}

/// The tree of 13 list words with its indices: open part, close part, symbol. The bytes written are the answer.
#[inline]
pub fn encode_tree(out: &mut [u8], at: usize, tree: &[u32; 13], indices: [u32; 3], children: u32) -> Result<u64, u64> {
    let [open, close, symbol] = indices;
    reply(unsafe { raw::tt_encode_tree(out.as_mut_ptr(), out.len(), at, tree.as_ptr(), open, close, symbol, children) })
}

/// The root by its spans (index, start, length), descendants, delimiter kind and children bytes.
pub fn encode_root(out: &mut [u8], at: usize, open: [u32; 3], close: [u32; 3], count: u32, kind: u32, children: u32) -> Result<u64, u64> {
    reply(unsafe {
        raw::tt_encode_top_subtree(
            out.as_mut_ptr(), out.len(), at, open[0], open[1], open[2], close[0], close[1], close[2], count, kind, children,
        )
    })
}

// ---- whole lists

/// A refusal's number and tree number, 32 bits each below bit 63.
fn list_reply(code: u64) -> Result<u64, (u64, u64)> {
    if code < REFUSED { Ok(code) } else { Err(((code - REFUSED) >> 32, code & 0xFFFF_FFFF)) }
}

pub fn encode_list(list: &[u32], parts: &[u32], symbols: &[u32], work: &mut [u32], out: &mut [u8]) -> Result<u64, (u64, u64)> {
    list_reply(unsafe {
        raw::tt_encode_list(
            list.as_ptr(), list.len(), parts.as_ptr(), parts.len(), symbols.as_ptr(), symbols.len(),
            work.as_mut_ptr(), work.len(), out.as_mut_ptr(), out.len(),
        )
    })
}

/// The numbers of parts, the root's two among them, and of symbols.
pub fn tables(list: &[u32], parts: &mut [u32], part_counts: &mut [u32], symbols: &mut [u32], symbol_counts: &mut [u32]) -> Result<(u64, u64), (u64, u64)> {
    let reply = list_reply(unsafe {
        raw::tt_tables(
            list.as_ptr(), list.len(), parts.as_mut_ptr(), parts.len(), part_counts.as_mut_ptr(), part_counts.len(),
            symbols.as_mut_ptr(), symbols.len(), symbol_counts.as_mut_ptr(), symbol_counts.len(),
        )
    });
    reply.map(|code| (code >> 32, code & 0xFFFF_FFFF))
}

// ---- stored buffers

pub fn check(b: &[u8], trees: u32, parts: usize, symbols: usize) -> Result<(), (u64, u64)> {
    list_reply(unsafe { raw::tt_check(b.as_ptr(), b.len(), trees, parts, symbols) }).map(|_| ())
}

pub fn check_buffer(b: &[u8], trees: u32, parts: &[u32], symbols: &[u32]) -> Result<(), (u64, u64)> {
    let reply = unsafe { raw::tt_check_buffer(b.as_ptr(), b.len(), trees, parts.as_ptr(), parts.len(), symbols.as_ptr(), symbols.len()) };
    list_reply(reply).map(|_| ())
}

// ---- walks, cursors, the root

/// A stored buffer with its tree count and tables.
#[derive(Clone, Copy)]
pub struct Lent<'a> {
    pub bytes: &'a [u8],
    pub trees: u32,
    pub parts: &'a [u32],
    pub symbols: &'a [u32],
}

/// Place, number and trees left of a walk, before and behind a step. The answer: 0 none, 1 a tree, whose list words and report are stored.
#[inline]
pub fn walk(b: Lent, from: (usize, u32, u32), skip: bool, next: &mut [usize], words: &mut [u32]) -> Result<u64, (u64, u64)> {
    list_reply(unsafe {
        raw::tt_walk(
            b.bytes.as_ptr(), b.bytes.len(), b.trees, b.parts.as_ptr(), b.parts.len(), b.symbols.as_ptr(), b.symbols.len(),
            from.0, from.1, from.2, skip, next.as_mut_ptr(), next.len(), words.as_mut_ptr(), words.len(),
        )
    })
}

/// The answer: 0 none, 1 a span, whose words and report are stored.
pub fn last_span(b: Lent, from: (usize, u32, u32), words: &mut [u32]) -> Result<u64, (u64, u64)> {
    list_reply(unsafe {
        raw::tt_last_span(
            b.bytes.as_ptr(), b.bytes.len(), b.trees, b.parts.as_ptr(), b.parts.len(), b.symbols.as_ptr(), b.symbols.len(),
            from.0, from.1, from.2, words.as_mut_ptr(), words.len(),
        )
    })
}

/// The arrays of a cursor.
#[derive(Clone, PartialEq, Eq)]
pub struct Stack {
    pub numbers: [u32; 256],
    pub counts: [u32; 256],
    pub places: [usize; 256],
}

impl Stack {
    pub const EMPTY: Stack = Stack { numbers: [0; 256], counts: [0; 256], places: [0; 256] };
}

/// Calls 0 `bump`, 1 `end`, 2 `bump_or_end`, 3 `token_tree`, 4 `peek_two_leaves`; place, number and depth before and behind.
/// The answer: 0 none, 1 a tree, 2 two leaves, the list words and the report of each being stored, 3 nothing to hand back.
#[inline]
pub fn cursor(
    by_value: bool, b: Lent, call: u32, at: (usize, u32, usize), stack: &mut Stack, next: &mut [usize], words: &mut [u32],
) -> Result<u64, (u64, u64)> {
    let call_it = if by_value { raw::tt_cursor_by_value } else { raw::tt_cursor };
    list_reply(unsafe {
        call_it(
            b.bytes.as_ptr(), b.bytes.len(), b.trees, b.parts.as_ptr(), b.parts.len(), b.symbols.as_ptr(), b.symbols.len(),
            call, at.0, at.1, at.2,
            stack.numbers.as_mut_ptr(), stack.counts.as_mut_ptr(), stack.places.as_mut_ptr(),
            next.as_mut_ptr(), next.len(), words.as_mut_ptr(), words.len(),
        )
    })
}

pub fn set_kind(bytes: &mut [u8], trees: u32, parts: &[u32], symbols: &[u32], kind: u32) -> Result<(), (u64, u64)> {
    let reply = unsafe {
        raw::tt_set_kind(bytes.as_mut_ptr(), bytes.len(), trees, parts.as_ptr(), parts.len(), symbols.as_ptr(), symbols.len(), kind)
    };
    list_reply(reply).map(|_| ())
}

/// The five words of the opening span, then those of the closing one.
pub fn set_spans(bytes: &mut [u8], trees: u32, parts: &mut [u32], symbols: &[u32], spans: &[u32; 10]) -> Result<(), (u64, u64)> {
    let reply = unsafe {
        raw::tt_set_spans(
            bytes.as_mut_ptr(), bytes.len(), trees, parts.as_mut_ptr(), parts.len(), symbols.as_ptr(), symbols.len(), spans.as_ptr(),
        )
    };
    list_reply(reply).map(|_| ())
}

// ---- one leaf exchanged

/// What is lent to be written: three runs of work words, for the list, for the tables, for counts and sizes; three outputs.
#[derive(Clone, PartialEq, Eq)]
pub struct Runs {
    pub work: [Vec<u32>; 3],
    pub bytes: Vec<u8>,
    pub parts: Vec<u32>,
    pub symbols: Vec<u32>,
}

/// How many work words so many trees need, by the run.
pub fn work_words(trees: usize) -> [usize; 3] {
    [16, 10, 6].map(|n| n * trees + n)
}

/// A leaf by its list words. The answer: how many bytes, parts, the root's two among them, and symbols.
#[inline]
pub fn set_token(b: Lent, number: u32, leaf: &[u32; 13], to: &mut Runs) -> Result<[usize; 3], (u64, u64)> {
    let mut told = [usize::MAX; 3];
    let [list, tables, counts] = &mut to.work;
    let refusal = unsafe {
        raw::tt_set_token(
            b.bytes.as_ptr(), b.bytes.len(), b.trees, b.parts.as_ptr(), b.parts.len(), b.symbols.as_ptr(), b.symbols.len(),
            number, leaf.as_ptr(),
            list.as_mut_ptr(), list.len(), tables.as_mut_ptr(), tables.len(), counts.as_mut_ptr(), counts.len(),
            to.bytes.as_mut_ptr(), to.bytes.len(), to.parts.as_mut_ptr(), to.parts.len(), to.symbols.as_mut_ptr(), to.symbols.len(),
            told.as_mut_ptr(),
        )
    };
    sizes_told(refusal, told)
}

fn sizes_told(refusal: u32, told: [usize; 3]) -> Result<[usize; 3], (u64, u64)> {
    if refusal == 0 {
        return Ok(told);
    }
    assert_eq!(told[1..], [0; 2]);
    Err((refusal.into(), told[0] as u64))
}

/// The same before anything is exchanged, in the work words alone.
#[inline]
pub fn preview(b: Lent, number: u32, leaf: &[u32; 13], work: &mut [Vec<u32>; 3]) -> Result<[usize; 3], (u64, u64)> {
    let mut told = [usize::MAX; 3];
    let [list, tables, counts] = work;
    let refusal = unsafe {
        raw::tt_preview(
            b.bytes.as_ptr(), b.bytes.len(), b.trees, b.parts.as_ptr(), b.parts.len(), b.symbols.as_ptr(), b.symbols.len(),
            number, leaf.as_ptr(),
            list.as_mut_ptr(), list.len(), tables.as_mut_ptr(), tables.len(), counts.as_mut_ptr(), counts.len(),
            told.as_mut_ptr(),
        )
    };
    sizes_told(refusal, told)
}

// ---- a buffer put in order

/// The work words are the same three runs. The answer: how many bytes.
#[inline]
pub fn tidy(b: Lent, work: &mut [Vec<u32>; 3], out: &mut [u8]) -> Result<usize, (u64, u64)> {
    let mut told = [usize::MAX];
    let [list, tables, counts] = work;
    let refusal = unsafe {
        raw::tt_tidy(
            b.bytes.as_ptr(), b.bytes.len(), b.trees, b.parts.as_ptr(), b.parts.len(), b.symbols.as_ptr(), b.symbols.len(),
            list.as_mut_ptr(), list.len(), tables.as_ptr(), tables.len(), counts.as_mut_ptr(), counts.len(),
            out.as_mut_ptr(), out.len(), told.as_mut_ptr(),
        )
    };
    if refusal == 0 { Ok(told[0]) } else { Err((refusal.into(), told[0] as u64)) }
}

// ---- the builder

/// Declares a foreign function and its safe form at once: a slice goes over as address and length, an array as its address.
macro_rules! foreign {
    ($(#[$doc:meta])* $name:ident = $c:ident($($params:tt)*)) => {
        foreign!(@ [$(#[$doc])*] $name $c [] [] [] $($params)*);
    };
    (@ $doc:tt $name:ident $c:ident [$($safe:tt)*] [$($raw:tt)*] [$($arg:tt)*] $p:ident: &mut [$t:ty], $($rest:tt)*) => {
        foreign!(@ $doc $name $c [$($safe)* $p: &mut [$t],] [$($raw)* _: *mut $t, _: usize,] [$($arg)* $p.as_mut_ptr(), $p.len(),] $($rest)*);
    };
    (@ $doc:tt $name:ident $c:ident [$($safe:tt)*] [$($raw:tt)*] [$($arg:tt)*] $p:ident: &[$t:ty], $($rest:tt)*) => {
        foreign!(@ $doc $name $c [$($safe)* $p: &[$t],] [$($raw)* _: *const $t, _: usize,] [$($arg)* $p.as_ptr(), $p.len(),] $($rest)*);
    };
    (@ $doc:tt $name:ident $c:ident [$($safe:tt)*] [$($raw:tt)*] [$($arg:tt)*] $p:ident: &mut [$t:ty; $n:literal], $($rest:tt)*) => {
        foreign!(@ $doc $name $c [$($safe)* $p: &mut [$t; $n],] [$($raw)* _: *mut $t,] [$($arg)* $p.as_mut_ptr(),] $($rest)*);
    };
    (@ $doc:tt $name:ident $c:ident [$($safe:tt)*] [$($raw:tt)*] [$($arg:tt)*] $p:ident: &[$t:ty; $n:literal], $($rest:tt)*) => {
        foreign!(@ $doc $name $c [$($safe)* $p: &[$t; $n],] [$($raw)* _: *const $t,] [$($arg)* $p.as_ptr(),] $($rest)*);
    };
    (@ $doc:tt $name:ident $c:ident [$($safe:tt)*] [$($raw:tt)*] [$($arg:tt)*] $p:ident: $t:ty, $($rest:tt)*) => {
        foreign!(@ $doc $name $c [$($safe)* $p: $t,] [$($raw)* _: $t,] [$($arg)* $p,] $($rest)*);
    };
    (@ [$($doc:tt)*] $name:ident $c:ident [$($safe:tt)*] [$($raw:tt)*] [$($arg:tt)*]) => {
        $($doc)*
        #[inline]
        fn $name($($safe)*) -> Result<u64, (u64, u64)> {
            unsafe extern "C" {
                fn $c($($raw)*) -> u64;
            }
            list_reply(unsafe { $c($($arg)*) })
        }
    };
}

foreign!(builder_new = tt_builder_new(list: &mut [u32], kind: u32, spans: &[u32; 10], next: &mut [usize; 2], opened: &mut [u32; 256],));
foreign!(builder_push = tt_builder_push(
    list: &mut [u32], count: u32, depth: usize, leaf: &[u32; 13], next: &mut [usize; 2], opened: &mut [u32; 256],
));
foreign!(builder_open = tt_builder_open(
    list: &mut [u32], count: u32, depth: usize, kind: u32, span: &[u32; 5], next: &mut [usize; 2], opened: &mut [u32; 256],
));
foreign!(builder_close = tt_builder_close(
    list: &mut [u32], count: u32, depth: usize, span: &[u32; 5], next: &mut [usize; 2], opened: &mut [u32; 256],
));
foreign!(builder_point = tt_builder_point(list: &[u32], count: u32, depth: usize, opened: &[u32; 256], point: &mut [u32; 2],));
foreign!(builder_restore = tt_builder_restore(
    list: &[u32], count: u32, depth: usize, trees: u32, opens: u32, next: &mut [usize; 2], opened: &mut [u32; 256],
));
foreign!(builder_build = tt_builder_build(
    list: &[u32], count: u32, depth: usize, opened: &[u32; 256], skip: bool,
    parts: &[u32], symbols: &[u32], work: &mut [u32], out: &mut [u8],
));

/// Entries from `depth` on mean nothing.
#[derive(Clone, PartialEq, Eq)]
pub struct Builder {
    pub count: u32,
    pub depth: usize,
    pub opened: [u32; 256],
}

impl Builder {
    /// Count and depth come back in two words, refused or not.
    #[inline]
    fn step(&mut self, call: impl FnOnce(u32, usize, &mut [usize; 2], &mut [u32; 256]) -> Result<u64, (u64, u64)>) -> Result<(), (u64, u64)> {
        let mut next = [usize::MAX; 2];
        let reply = call(self.count, self.depth, &mut next, &mut self.opened);
        (self.count, self.depth) = (next[0] as u32, next[1]);
        reply.map(|_| ())
    }

    /// The five words of the root's opening span, then those of the closing one.
    pub fn new(list: &mut [u32], kind: u32, spans: &[u32; 10]) -> (Result<(), (u64, u64)>, Builder) {
        let mut b = Builder { count: u32::MAX, depth: usize::MAX, opened: [u32::MAX; 256] };
        let reply = b.step(|_, _, next, opened| builder_new(list, kind, spans, next, opened));
        (reply, b)
    }

    /// A leaf by its list words.
    #[inline]
    pub fn push(&mut self, list: &mut [u32], leaf: &[u32; 13]) -> Result<(), (u64, u64)> {
        self.step(|count, depth, next, opened| builder_push(list, count, depth, leaf, next, opened))
    }

    #[inline]
    pub fn open(&mut self, list: &mut [u32], kind: u32, span: &[u32; 5]) -> Result<(), (u64, u64)> {
        self.step(|count, depth, next, opened| builder_open(list, count, depth, kind, span, next, opened))
    }

    #[inline]
    pub fn close(&mut self, list: &mut [u32], span: &[u32; 5]) -> Result<(), (u64, u64)> {
        self.step(|count, depth, next, opened| builder_close(list, count, depth, span, next, opened))
    }

    /// So many trees, so many of them open.
    pub fn point(&self, list: &[u32]) -> Result<[u32; 2], (u64, u64)> {
        let mut point = [u32::MAX; 2];
        let reply = builder_point(list, self.count, self.depth, &self.opened, &mut point);
        assert!(reply.is_ok() || point == [u32::MAX; 2]);
        reply.map(|_| point)
    }

    pub fn restore(&mut self, list: &[u32], point: [u32; 2]) -> Result<(), (u64, u64)> {
        self.step(|count, depth, next, opened| builder_restore(list, count, depth, point[0], point[1], next, opened))
    }

    pub fn build(&self, list: &[u32], skip: bool, parts: &[u32], symbols: &[u32], work: &mut [u32], out: &mut [u8]) -> Result<u64, (u64, u64)> {
        builder_build(list, self.count, self.depth, &self.opened, skip, parts, symbols, work, out)
    }
}
