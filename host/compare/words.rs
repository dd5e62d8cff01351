//! List words to the source's trees and back.
use span::{EditionedFileId, ErasedFileAstId, Span, SpanAnchor, SyntaxContext, TextRange, TextSize};
use intern::Symbol;
use tt::{Delimiter, DelimiterKind, Ident, IdentIsRaw, Leaf, LitKind, Literal, Punct, Spacing, Subtree, TokenTree, TopSubtree};

pub fn span(w: &[u32]) -> Span {
    Span {
        anchor: SpanAnchor { file_id: EditionedFileId(w[0]), ast_id: ErasedFileAstId(w[1]) },
        ctx: SyntaxContext(w[2]),
        range: TextRange::new(TextSize::new(w[3]), TextSize::new(w[3] + w[4])),
    }
}

pub fn span_words(s: &Span) -> [u32; 5] {
    [s.anchor.file_id.0, s.anchor.ast_id.0, s.ctx.0, s.range.start().into(), s.range.len().into()]
}

pub fn delimiter_kind(w: u32) -> DelimiterKind {
    [DelimiterKind::Parenthesis, DelimiterKind::Brace, DelimiterKind::Bracket, DelimiterKind::Invisible][w as usize]
}

fn literal_kind(w: u32) -> LitKind {
    let raw_count = (w / 256 % 256) as u8;
    match w % 256 {
        0 => LitKind::Byte,
        1 => LitKind::Char,
        2 => LitKind::Integer,
        3 => LitKind::Float,
        4 => LitKind::Str,
        5 => LitKind::StrRaw(raw_count),
        6 => LitKind::ByteStr,
        7 => LitKind::ByteStrRaw(raw_count),
        8 => LitKind::CStr,
        9 => LitKind::CStrRaw(raw_count),
        _ => LitKind::Err(()),
    }
}

fn literal_word(l: &Literal) -> u32 {
    let (kind, raw_count) = match l.kind {
        LitKind::Byte => (0, 0),
        LitKind::Char => (1, 0),
        LitKind::Integer => (2, 0),
        LitKind::Float => (3, 0),
        LitKind::Str => (4, 0),
        LitKind::StrRaw(n) => (5, n),
        LitKind::ByteStr => (6, 0),
        LitKind::ByteStrRaw(n) => (7, n),
        LitKind::CStr => (8, 0),
        LitKind::CStrRaw(n) => (9, n),
        LitKind::Err(()) => (10, 0),
    };
    kind + 256 * u32::from(raw_count) + 65536 * u32::from(l.suffix_len)
}

/// The tree of 13 words that the list's rules pass.
pub fn tree(w: &[u32]) -> TokenTree {
    let span_of = span(&w[3..8]);
    match w[0] {
        0 => {
            let spacing = [Spacing::Alone, Spacing::Joint, Spacing::JointHidden][w[2] as usize];
            Leaf::Punct(Punct { char: char::from_u32(w[1]).expect("a character"), spacing, span: span_of }).into()
        }
        1 => {
            let is_raw = [IdentIsRaw::No, IdentIsRaw::Yes][w[2] as usize];
            Leaf::Ident(Ident { sym: Symbol(w[1]), span: span_of, is_raw }).into()
        }
        2 => {
            let kind = literal_kind(w[2]);
            Leaf::Literal(Literal { text_and_suffix: Symbol(w[1]), span: span_of, kind, suffix_len: (w[2] >> 16) as u8 }).into()
        }
        _ => {
            let delimiter = Delimiter { open: span_of, close: span(&w[8..13]), kind: delimiter_kind(w[2]) };
            Subtree { delimiter, len: w[1] }.into()
        }
    }
}

pub fn words(tree: &TokenTree) -> [u32; 13] {
    let (head, open, close) = match tree {
        TokenTree::Leaf(Leaf::Punct(p)) => ([0, p.char as u32, p.spacing as u32], span_words(&p.span), [0; 5]),
        TokenTree::Leaf(Leaf::Ident(i)) => ([1, i.sym.0, i.is_raw as u32], span_words(&i.span), [0; 5]),
        TokenTree::Leaf(Leaf::Literal(l)) => ([2, l.text_and_suffix.0, literal_word(l)], span_words(&l.span), [0; 5]),
        TokenTree::Subtree(s) => {
            ([3, s.len, s.delimiter.kind as u32], span_words(&s.delimiter.open), span_words(&s.delimiter.close))
        }
    };
    let mut words = [0; 13];
    words[..3].copy_from_slice(&head);
    words[3..8].copy_from_slice(&open);
    words[8..].copy_from_slice(&close);
    words
}

/// All trees of the source's buffer, as its walk reads them.
pub fn trees(top: &TopSubtree) -> Vec<TokenTree> {
    let (mut walk, mut trees) = (top.walk_from(0), Vec::with_capacity(top.trees()));
    while let Some(tree) = walk.advance() {
        trees.push(tree);
    }
    trees
}
