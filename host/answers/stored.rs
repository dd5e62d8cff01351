//! A stored buffer with its tables, and its line.
use crate::maker::Maker;
use crate::text::Text;
use crate::words;
use tt::TopSubtree;

pub struct Stored {
    pub trees: usize,
    pub parts: Vec<u32>,
    pub symbols: Vec<u32>,
    pub bytes: Vec<u8>,
}

impl Stored {
    /// The source's, over its own tables.
    pub fn own(list: &[u32]) -> Stored {
        let top = TopSubtree::from_serialized(list.chunks(13).map(words::tree).collect());
        Stored { trees: list.len() / 13, parts: top.part_list().concat(), symbols: top.symbol_list(), bytes: top.bytes().into() }
    }

    fn part_list(&self) -> Vec<[u32; 3]> {
        self.parts.chunks(3).map(|w| [w[0], w[1], w[2]]).collect()
    }

    /// So many trees, the parts and the symbols that their indices lead to, the bytes.
    pub fn line(&self, text: &mut Text, word: &str) {
        text.line(word);
        text.number(self.trees);
        text.number(self.parts.len() / 3);
        text.numbers(&self.parts);
        text.number(self.symbols.len());
        text.numbers(&self.symbols);
        text.bytes(&self.bytes);
    }

    /// The source's buffer. The source reads unchecked: the check must pass it.
    pub fn source(&self) -> TopSubtree {
        TopSubtree::of(self.trees, &self.bytes, &self.part_list(), &self.symbols)
    }

    /// What the source writes for a list over these tables.
    pub fn written(&self, list: Vec<tt::TokenTree>) -> Box<[u8]> {
        TopSubtree::encode_list(list, &TopSubtree::maps(&self.part_list(), &self.symbols)).0
    }
}

/// Tables for a list in any order with more entries than are used, but not many more.
pub fn few_tables(m: &mut Maker, list: &[u32]) -> (Vec<u32>, Vec<u32>) {
    loop {
        let (parts, symbols) = m.tables_for(list);
        if parts.len() <= 3 * 40 && symbols.len() <= 70 {
            return (parts, symbols);
        }
    }
}
