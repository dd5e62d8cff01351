//! The example, the lister's stored cases, and small bundles made here.
use std::fs;
use std::path::Path;
use store::{Ident, IdentIsRaw, Leaf, LitKind, Literal, Punct, Refusal, Sizes, Spacing, Span, Stored};

mod lister_cases;

fn example(name: &str) -> Vec<u8> {
    fs::read(Path::new(env!("CARGO_MANIFEST_DIR")).join("../../examples").join(name)).expect("the example")
}

fn tariff() -> Stored {
    Stored::from_bundle(&example("tariff.bundle")).expect("a bundle that passes")
}

/// Sorts of the tariff's trees, as examples/tariff.txt lists them.
const TARIFF: [&str; 12] =
    ["subtree", "ident", "subtree", "subtree", "literal", "punct", "literal", "punct", "ident", "subtree", "literal", "punct"];
const DEPOSIT: u32 = 8;

const SPAN: Span = Span { file: 1, ast_id: 0, context: 0, start: 20, len: 7 };

fn ident(sym: u32) -> Leaf {
    Leaf::Ident(Ident { sym, span: SPAN, is_raw: IdentIsRaw::No })
}

fn punct(char: u32) -> Leaf {
    Leaf::Punct(Punct { char, spacing: Spacing::Alone, span: SPAN })
}

fn literal(kind: LitKind, suffix_len: u32) -> Leaf {
    Leaf::Literal(Literal { text_and_suffix: 7, span: SPAN, kind, suffix_len })
}

fn refused(refusal: Refusal) -> (u32, u32) {
    (refusal.number(), refusal.tree())
}

/// Exchanged, and the sizes or the refusal are those that were told before.
fn set_token(stored: &Stored, number: u32, leaf: Leaf) -> Result<Stored, Refusal> {
    let (sizes, after) = (stored.preview(number, leaf), stored.set_token(number, leaf));
    assert_eq!(sizes, after.as_ref().map(Stored::sizes).map_err(|refusal| *refusal), "tree {number} becomes {leaf:?}");
    after
}

#[test]
fn the_tariff_there_and_back() {
    assert_eq!(tariff().to_bundle(), example("tariff.bundle"));
    assert_eq!((tariff().trees(), tariff().bytes().len(), tariff().parts().len(), tariff().symbols().len()), (12, 100, 4, 5));
}

#[test]
fn the_renamed_tariff() {
    let renamed = tariff().set_token(DEPOSIT, ident(204)).unwrap();
    assert_eq!(renamed.symbols(), [101, 102, 103, 204, 105]);
    assert_eq!(renamed.to_bundle(), example("renamed.bundle"));
    // and back again
    assert_eq!(renamed.set_token(DEPOSIT, ident(104)), Ok(tariff()));
}

/// Each leaf in the place of each; the result passes the check, and what a subtree or no tree stands at stays.
#[test]
fn every_place_of_the_tariff() {
    let leaves = [ident(101), ident(u32::MAX), punct('+'.into()), punct(0x10_FFFF), literal(LitKind::Str, 0), literal(LitKind::CStrRaw(255), 255)];
    for leaf in leaves {
        for (number, sort) in (0..).zip(TARIFF) {
            let after = set_token(&tariff(), number, leaf);
            if sort == "subtree" {
                assert_eq!(after.map_err(refused), Err((10, number)));
                continue;
            }
            let after = after.unwrap();
            assert_eq!(after.trees(), 12);
            assert_eq!(Stored::from_bundle(&after.to_bundle()), Ok(after.clone()));
            assert_eq!(after.parts()[after.parts().len() - 2..], tariff().parts()[2..]);
            // the same leaf again changes nothing any more
            assert_eq!(after.set_token(number, leaf), Ok(after));
        }
        for number in [12, 13, 1 << 20, u32::MAX] {
            assert_eq!(set_token(&tariff(), number, leaf).map_err(refused), Err((10, number)));
        }
    }
}

/// More and fewer bytes, parts and symbols than before.
#[test]
fn sizes_before_replacing() {
    let loose = Stored::from_bundle(&example("loose.bundle")).unwrap();
    assert_eq!((tariff().sizes(), loose.sizes().bytes), (Sizes { bytes: 100, parts: 4, symbols: 5 }, 188));
    assert_eq!(loose.preview(DEPOSIT, ident(104)), Ok(tariff().sizes()));
    // a symbol that is there already, one that is not, in a part that is not
    assert_eq!(set_token(&tariff(), DEPOSIT, ident(101)).unwrap().sizes(), Sizes { bytes: 100, parts: 4, symbols: 4 });
    let elsewhere = Leaf::Ident(Ident { sym: 204, span: Span { file: 9, ..SPAN }, is_raw: IdentIsRaw::No });
    assert_eq!(set_token(&tariff(), DEPOSIT, elsewhere).unwrap().sizes(), Sizes { bytes: 100, parts: 5, symbols: 5 });
    // an ident in a punct's place; the last use of a part
    assert_eq!(set_token(&tariff(), 5, ident(204)).unwrap().sizes(), Sizes { bytes: 100, parts: 4, symbols: 6 });
    let renamed = set_token(&tariff(), DEPOSIT, elsewhere).unwrap();
    assert_eq!(set_token(&renamed, DEPOSIT, ident(104)).unwrap().sizes(), tariff().sizes());
    // a start of eighteen bits takes four bytes more
    let far = Leaf::Ident(Ident { sym: 204, span: Span { start: 1 << 17, ..SPAN }, is_raw: IdentIsRaw::No });
    assert_eq!(set_token(&tariff(), DEPOSIT, far).unwrap().sizes(), Sizes { bytes: 104, parts: 4, symbols: 5 });
}

#[test]
fn a_bad_leaf_is_2_where_a_leaf_stands() {
    let long = Span { start: u32::MAX, len: 1, ..SPAN };
    let bad = [
        punct(0xD800),
        punct(0x11_0000),
        literal(LitKind::StrRaw(256), 0),
        literal(LitKind::ByteStrRaw(u32::MAX), 0),
        literal(LitKind::Integer, 256),
        Leaf::Ident(Ident { sym: 1, span: long, is_raw: IdentIsRaw::No }),
    ];
    for leaf in bad {
        assert_eq!(set_token(&tariff(), DEPOSIT, leaf).map_err(refused), Err((2, DEPOSIT)), "{leaf:?}");
        assert_eq!(set_token(&tariff(), 0, leaf).map_err(refused), Err((10, 0)), "{leaf:?}");
        assert_eq!(set_token(&tariff(), 12, leaf).map_err(refused), Err((10, 12)), "{leaf:?}");
    }
}

/// Records in another order, with entries that no tree uses: they are kept as they are, and gone after an exchange.
#[test]
fn tables_are_made_afresh() {
    let bundle = example("tariff.bundle");
    let (parts, rest) = bundle.split_at(2 * 14);
    let (root, rest) = rest.split_at(2 * 14);
    let (symbols, buffer) = rest.split_at(5 * 6);
    // the first two parts and all symbols once more, behind what is used; the root's index moves on by two
    let mut buffer = buffer.to_vec();
    let bytes = buffer.len() - 100;
    buffer[bytes] += 8;
    buffer[bytes + 13] += 8;
    let mixed = [symbols, parts, parts, symbols, root, &buffer].concat();
    let stored = Stored::from_bundle(&mixed).unwrap();
    assert_eq!((stored.parts().len(), stored.symbols().len()), (6, 10));
    let sorted = [parts, parts, root, symbols, symbols, &buffer].concat();
    assert_eq!(stored.to_bundle(), sorted);
    assert_eq!(stored.set_token(DEPOSIT, ident(104)), Ok(tariff()));
}

// ---- put in order

/// The same trees and tables in bytes that pass the check, and that stay.
fn tidied(stored: &Stored) -> Stored {
    let tidy = stored.tidy();
    assert_eq!((tidy.trees(), tidy.parts(), tidy.symbols()), (stored.trees(), stored.parts(), stored.symbols()));
    assert_eq!(Stored::from_bundle(&tidy.to_bundle()).as_ref(), Ok(&tidy));
    // with one leaf exchanged, over tables made afresh, they are one
    for number in 1..stored.trees().min(20) {
        assert_eq!(set_token(&tidy, number, ident(9)), set_token(stored, number, ident(9)));
    }
    assert_eq!(tidy.tidy(), tidy);
    tidy
}

#[test]
fn the_loose_tariff_becomes_the_tariff() {
    let loose = Stored::from_bundle(&example("loose.bundle")).unwrap();
    assert_eq!((loose.bytes().len(), tidied(&loose)), (188, tariff()));
    for name in ["tariff.bundle", "renamed.bundle"] {
        let stored = Stored::from_bundle(&example(name)).unwrap();
        assert_eq!(tidied(&stored), stored);
    }
}

/// A root over so many parts, Invisible, both spans 0, the close span's extra bits given, and trees of these bytes in it.
fn bundled(parts: &[[u32; 3]], symbols: &[u32], close_extra: u8, trees: &[&[u8]]) -> Vec<u8> {
    let (mut bundle, below) = (Vec::new(), trees.concat());
    for part in parts {
        bundle.extend([b"SP", part.map(u32::to_le_bytes).as_flattened()].concat());
    }
    for symbol in symbols {
        bundle.extend([b"SY", symbol.to_le_bytes().as_slice()].concat());
    }
    let last = parts.len() as u8 - 1;
    let (span, count) = ([0x40, 0, 0, 1, 0, 0, 0, 0, 0, 0, 0], trees.len() as u32);
    let root = [&[4 * (last - 1)], &span[..], &[0x1D, 4 * last + close_extra], &span].concat();
    bundle.extend(b"BT");
    bundle.extend([count + 1, 33 + below.len() as u32].map(u32::to_le_bytes).as_flattened());
    bundle.extend(root);
    bundle.extend([count, below.len() as u32].map(u32::to_le_bytes).as_flattened());
    bundle.extend(below);
    bundle
}

fn rooted(parts: &[[u32; 3]], symbols: &[u32], close_extra: u8, trees: &[&[u8]]) -> Stored {
    Stored::from_bundle(&bundled(parts, symbols, close_extra, trees)).expect("a bundle that passes")
}

const PARTS: [[u32; 3]; 3] = [[7, 0, 0], [1, 0, 0], [2, 0, 0]];

/// Parentheses at 5 in 000, the stored length 3, 259 or 2047 beside every value of control bits 5 to 7: one passes, and stays as it is; the
/// others, with which the closing bracket could be taken to stand elsewhere, are refused. 2048 is refused with all of them.
#[test]
fn distance_bits_repeat_the_stored_length() {
    let spans: [(&[u8], Option<u8>); 4] = [
        (b"\xC0\x80\x02\0", Some(0)),
        (b"\xC0\xC0\x02\0\0\x10\0\0", Some(1)),
        (b"\xC0\xFF\x02\0\0\x70\0\0", Some(7)),
        (b"\0\xC0\x02\0\0\x80\0\0", None),
    ];
    for (span, due) in spans {
        for bits in 0..8 {
            let tree = [span, &[32 * bits, 0, 0]].concat();
            let stored = Stored::from_bundle(&bundled(&PARTS, &[], 0, &[&tree]));
            if due == Some(bits) {
                let stored = stored.expect("a bundle that passes");
                assert_eq!(tidied(&stored), stored);
            } else {
                assert_eq!(stored.map_err(refused), Err((2, 1)), "{tree:02x?}");
            }
        }
    }
}

/// No span is loose, yet every tree has other bytes, the root too. The tables, an entry twice in each, stay.
#[test]
fn more_than_spans_is_put_in_order() {
    let parts = [PARTS[0], PARTS[0], PARTS[1], PARTS[2]];
    let given: [&[u8]; 4] = [
        // an ident, part 1, symbol 1 in two bytes
        b"\x46\0\x05\0\x06\0",
        // a Str in the long form, its tag set
        b"\xC0\0\x06\0\x27\0\x01",
        // `+` Joint as any character
        b"\x40\0\x08\0\x0E\x2B\0\0\0",
        // braces in 010, distance 2, close part 1
        b"\x40\0\x09\0\x2A\x02\0\0\0",
    ];
    let due: [&[u8]; 4] = [b"\x42\0\x05\0\0", b"\xC0\0\x06\0\x03\0", b"\x41\0\x08\0\x57", b"\x80\0\x09\0\x08\0\0"];
    let tidy = rooted(&parts, &[9, 9], 0, &due);
    assert_eq!(tidied(&rooted(&parts, &[9, 9], 3, &given)), tidy);
}

// ---- bundles of all sorts

/// A refused bundle names the tree that the lister names; one that passes is written and put in order.
#[test]
fn the_listers_cases() {
    let mut met = 0;
    for (file, bundle, text) in lister_cases::all() {
        let stored = Stored::from_bundle(&bundle);
        if let Some(due) = text.strip_prefix("refused ") {
            let (number, tree) = due.trim_end().split_once(" at ").unwrap();
            let due = (number.parse().unwrap(), tree.parse().unwrap());
            assert_eq!(stored.map_err(refused), Err(due), "{}", file.display());
            met += 1;
        } else {
            let stored = stored.unwrap();
            assert_eq!(text.lines().count(), stored.trees() as usize + 1, "{}", file.display());
            assert_eq!(Stored::from_bundle(&stored.to_bundle()).as_ref(), Ok(&stored), "{}", file.display());
            tidied(&stored);
        }
    }
    assert!(met > 20, "{met}");
}

/// On several threads at once.
#[test]
fn every_thread_may_preview_exchange_and_tidy() {
    let (stored, due) = (tariff(), tariff().set_token(DEPOSIT, ident(204)));
    let loose = Stored::from_bundle(&example("loose.bundle")).unwrap();
    std::thread::scope(|s| {
        for _ in 0..4 {
            s.spawn(|| {
                for _ in 0..200 {
                    assert_eq!(set_token(&stored, DEPOSIT, ident(204)), due);
                    assert_eq!(loose.tidy(), stored);
                }
            });
        }
    });
}
