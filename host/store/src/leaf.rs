//! Leaves by value, and their list words.

/// Start + length is at most 4,294,967,295.
#[derive(Clone, Copy, Debug, PartialEq, Eq, Hash)]
pub struct Span {
    pub file: u32,
    pub ast_id: u32,
    pub context: u32,
    pub start: u32,
    pub len: u32,
}

#[derive(Clone, Copy, Debug, PartialEq, Eq, Hash)]
pub enum Spacing {
    Alone,
    Joint,
    JointHidden,
}

#[derive(Clone, Copy, Debug, PartialEq, Eq, Hash)]
pub enum IdentIsRaw {
    No,
    Yes,
}

/// A raw count is at most 255.
#[derive(Clone, Copy, Debug, PartialEq, Eq, Hash)]
pub enum LitKind {
    Byte,
    Char,
    Integer,
    Float,
    Str,
    StrRaw(u32),
    ByteStr,
    ByteStrRaw(u32),
    CStr,
    CStrRaw(u32),
    Err,
}

/// The character is a scalar value.
#[derive(Clone, Copy, Debug, PartialEq, Eq, Hash)]
pub struct Punct {
    pub char: u32,
    pub spacing: Spacing,
    pub span: Span,
}

#[derive(Clone, Copy, Debug, PartialEq, Eq, Hash)]
pub struct Ident {
    pub sym: u32,
    pub span: Span,
    pub is_raw: IdentIsRaw,
}

/// A suffix length is at most 255.
#[derive(Clone, Copy, Debug, PartialEq, Eq, Hash)]
pub struct Literal {
    pub text_and_suffix: u32,
    pub span: Span,
    pub kind: LitKind,
    pub suffix_len: u32,
}

/// A tree that is no subtree. A symbol is its value, not its place in a table.
#[derive(Clone, Copy, Debug, PartialEq, Eq, Hash)]
pub enum Leaf {
    Punct(Punct),
    Ident(Ident),
    Literal(Literal),
}

impl LitKind {
    /// Its number and raw count.
    fn numbers(self) -> (u32, u32) {
        match self {
            LitKind::Byte => (0, 0),
            LitKind::Char => (1, 0),
            LitKind::Integer => (2, 0),
            LitKind::Float => (3, 0),
            LitKind::Str => (4, 0),
            LitKind::StrRaw(count) => (5, count),
            LitKind::ByteStr => (6, 0),
            LitKind::ByteStrRaw(count) => (7, count),
            LitKind::CStr => (8, 0),
            LitKind::CStrRaw(count) => (9, count),
            LitKind::Err => (10, 0),
        }
    }
}

impl Leaf {
    /// The 13 list words. Those of no tree where a literal's counts are out of range, since they have no place in words.
    pub fn words(&self) -> [u32; 13] {
        let (head, span) = match *self {
            Leaf::Punct(Punct { char, spacing, span }) => ([0, char, spacing as u32], span),
            Leaf::Ident(Ident { sym, span, is_raw }) => ([1, sym, is_raw as u32], span),
            Leaf::Literal(Literal { text_and_suffix, span, kind, suffix_len }) => {
                let (kind, raw_count) = kind.numbers();
                if raw_count > 255 || suffix_len > 255 {
                    return [4, 0, 0, 0, 0, 0, 0, 0, 0, 0, 0, 0, 0];
                }
                ([2, text_and_suffix, kind + 256 * raw_count + 65536 * suffix_len], span)
            }
        };
        let [sort, a, b] = head;
        [sort, a, b, span.file, span.ast_id, span.context, span.start, span.len, 0, 0, 0, 0, 0]
    }
}

#[cfg(test)]
mod tests {
    use super::*;

    const SPAN: Span = Span { file: 1, ast_id: 2, context: 3, start: 4, len: 5 };

    fn literal(kind: LitKind, suffix_len: u32) -> [u32; 13] {
        Leaf::Literal(Literal { text_and_suffix: 9, span: SPAN, kind, suffix_len }).words()
    }

    #[test]
    fn words_of_each_sort() {
        let punct = Leaf::Punct(Punct { char: '+'.into(), spacing: Spacing::JointHidden, span: SPAN });
        assert_eq!(punct.words(), [0, 43, 2, 1, 2, 3, 4, 5, 0, 0, 0, 0, 0]);
        let ident = Leaf::Ident(Ident { sym: 9, span: SPAN, is_raw: IdentIsRaw::Yes });
        assert_eq!(ident.words(), [1, 9, 1, 1, 2, 3, 4, 5, 0, 0, 0, 0, 0]);
        assert_eq!(literal(LitKind::Integer, 3), [2, 9, 2 + 3 * 65536, 1, 2, 3, 4, 5, 0, 0, 0, 0, 0]);
    }

    #[test]
    fn kinds_are_0_to_10() {
        use LitKind::*;
        let kinds = [Byte, Char, Integer, Float, Str, StrRaw(1), ByteStr, ByteStrRaw(2), CStr, CStrRaw(255), Err];
        let words = kinds.map(|kind| literal(kind, 0)[2]);
        assert_eq!(words, [0, 1, 2, 3, 4, 256 + 5, 6, 512 + 7, 8, 255 * 256 + 9, 10]);
    }

    /// A count too large must not be read as another field.
    #[test]
    fn counts_out_of_range_are_no_words() {
        for (kind, suffix_len) in [(LitKind::StrRaw(256), 0), (LitKind::CStrRaw(u32::MAX), 0), (LitKind::Str, 256), (LitKind::Str, 1 << 16)] {
            assert_eq!(literal(kind, suffix_len)[0], 4);
        }
    }
}
