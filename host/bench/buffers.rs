//! Stored buffers to read. A thousand trees are 300 different lists in turn: one list again and again would teach the
//! processor its branches.
use crate::list::{Shape, list_of};
use crate::plain::Loose;
use crate::plain_list;
use crate::proved::{self, Lent};
use crate::timing::short_row;
use crate::words;
use std::hint::black_box;
use tt::{TokenTree, TopSubtree};

pub struct Buffer {
    pub top: TopSubtree,
    pub trees: u32,
    pub parts: Vec<u32>,
    pub symbols: Vec<u32>,
    bundle: Vec<u8>,
}

unsafe extern "C" {
    fn tt_check_bundle(bytes: *const u8, len: usize) -> u32;
}

/// The records of a stored bundle.
fn bundle(bytes: &[u8], trees: u32, parts: &[u32], symbols: &[u32]) -> Vec<u8> {
    let mut all = Vec::new();
    for part in parts.chunks(3) {
        all.extend(b"SP");
        part.iter().for_each(|w| all.extend(w.to_le_bytes()));
    }
    for symbol in symbols {
        all.extend(b"SY");
        all.extend(symbol.to_le_bytes());
    }
    all.extend(b"BT");
    all.extend(trees.to_le_bytes());
    all.extend((bytes.len() as u32).to_le_bytes());
    all.extend(bytes);
    all
}

impl Buffer {
    fn of(list: &[u32]) -> Buffer {
        let trees: Vec<TokenTree> = list.chunks(13).map(words::tree).collect();
        Buffer::over(TopSubtree::from_serialized(trees))
    }

    /// The same tables, every span in twelve bytes.
    fn loose(list: &[u32]) -> Buffer {
        let own = Buffer::of(list);
        let trees = plain_list::trees(list, &own.parts, &own.symbols).expect("a list that rows 1 to 5 pass");
        let bytes = plain_list::bytes(&trees, &mut || Loose { span: 12, close: 12, ..Loose::default() }).bytes;
        Buffer::over(TopSubtree::of(trees.len(), &bytes, &own.top.part_list(), &own.symbols))
    }

    fn over(top: TopSubtree) -> Buffer {
        let (parts, symbols, trees) = (top.part_list().concat(), top.symbol_list(), top.trees() as u32);
        let bundle = bundle(top.bytes(), trees, &parts, &symbols);
        Buffer { top, trees, parts, symbols, bundle }
    }

    pub fn lent(&self) -> Lent<'_> {
        Lent { bytes: self.top.bytes(), trees: self.trees, parts: &self.parts, symbols: &self.symbols }
    }

    /// The host's check of the bundle.
    pub fn check(&self) {
        assert_eq!(unsafe { tt_check_bundle(self.bundle.as_ptr(), self.bundle.len()) }, 0);
    }
}

pub struct Case {
    pub name: String,
    pub buffers: Vec<Buffer>,
}

impl Case {
    pub fn trees(&self) -> usize {
        self.buffers.iter().map(|b| b.trees as usize).sum()
    }
}

/// Every size, by how many lists of it, with few and many table entries, and with starts that wrap or grow.
pub fn cases(sizes: &[(usize, u64)]) -> impl Iterator<Item = Case> {
    cases_by(sizes, "", Buffer::of)
}

/// The same lists over the same tables, every span in twelve bytes.
pub fn loose_cases(sizes: &[(usize, u64)]) -> impl Iterator<Item = Case> {
    cases_by(sizes, LOOSE, Buffer::loose)
}

const LOOSE: &str = ", spans of twelve bytes";

fn cases_by(sizes: &[(usize, u64)], how: &'static str, buffer: fn(&[u32]) -> Buffer) -> impl Iterator<Item = Case> {
    let tables = [("few", 12, 400), ("many", 20_000, 60_000)];
    let starts = [("wrap", 60_000), ("grow", u32::MAX)];
    sizes.iter().flat_map(move |&(trees, lists)| {
        tables.into_iter().flat_map(move |(entries, parts, symbols)| {
            starts.into_iter().map(move |(start, wrap)| Case {
                name: format!("{trees} trees, {entries} entries, starts {start}{how}"),
                buffers: (0..lists).map(|seed| buffer(&list_of(&Shape { trees, parts, symbols, wrap }, 5 + seed))).collect(),
            })
        })
    })
}

/// One list with few table entries, every span in twelve bytes.
pub fn loose(trees: usize) -> Case {
    let list = list_of(&Shape { trees, parts: 12, symbols: 400, wrap: 60_000 }, 5);
    Case { name: format!("{trees} trees, few entries, starts wrap{LOOSE}"), buffers: vec![Buffer::loose(&list)] }
}

/// Each tree handed over and not looked at.
pub fn source_walk(top: &TopSubtree) {
    let mut walk = top.walk_from(0);
    while let Some(tree) = walk.advance() {
        black_box(&tree);
    }
}

/// The check beside the source's walk: of a bundle by the host's function, and of its buffer by the library of all functions.
pub fn check(case: &Case) {
    short_row(
        &format!("check, {}", case.name),
        case.trees(),
        || case.buffers.iter().for_each(Buffer::check),
        || case.buffers.iter().for_each(|b| source_walk(&b.top)),
    );
    if case.name.ends_with("few entries, starts wrap") {
        short_row(
            &format!("check in the library of all functions, {}", case.name),
            case.trees(),
            || {
                for b in &case.buffers {
                    proved::check(b.top.bytes(), b.trees, b.parts.len() / 3, b.symbols.len()).unwrap();
                }
            },
            || case.buffers.iter().for_each(|b| source_walk(&b.top)),
        );
    }
}
