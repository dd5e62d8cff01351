//! The functions that docs/COMPARISON.md names, on a thread with a stack of 1 MB, with the largest inputs.
use crate::plain::{Loose, Tree};
use crate::plain_list;
use crate::plain_replace;
use crate::proved::{self, Builder, Lent, Runs, Stack, work_words};
use crate::steps::{Step, steps_of, take};
use crate::tally::Tally;

const STACK: usize = 1 << 20;

/// All trees but the root are idents, or subtrees without children; part and symbol of tree n are given.
fn list(trees: u32, subtrees: bool, part: impl Fn(u32) -> u32, symbol: impl Fn(u32) -> u32) -> Vec<u32> {
    let mut list = vec![3, trees - 1, 3, 0, 0, 0, 0, 0, 0, 0, 0, 0, 0];
    for n in 1..trees {
        if subtrees {
            list.extend([3, 0, 0, part(2 * n), 1, 1, n, 1, part(2 * n + 1), 1, 1, n, 1]);
        } else {
            list.extend([1, symbol(n), 0, part(n), 1, 1, n, 1, 0, 0, 0, 0, 0]);
        }
    }
    list
}

fn on_small_stack(f: impl FnOnce() -> bool + Send) -> bool {
    std::thread::scope(|s| std::thread::Builder::new().stack_size(STACK).spawn_scoped(s, f).unwrap().join().unwrap())
}

fn lists(tally: &mut Tally, what: &str, list: &[u32]) {
    let same = on_small_stack(|| {
        let own = plain_list::tables(list);
        let (parts, symbols) = (own.parts.concat(), own.symbols.clone());
        let mut runs = [vec![0; parts.len()], vec![0; own.part_counts.len()], vec![0; symbols.len()], vec![0; symbols.len()]];
        let [a, b, c, d] = &mut runs;
        let made = proved::tables(list, a, b, c, d) == Ok((own.parts.len() as u64, symbols.len() as u64));
        let tables = made && runs == [parts.clone(), own.part_counts.clone(), symbols.clone(), own.symbol_counts.clone()];
        let trees = plain_list::trees(list, &parts, &symbols).unwrap_or_else(|r| panic!("{r:?}"));
        let want = plain_list::bytes(&trees, &mut Loose::default);
        let (mut work, mut out) = (vec![0; want.work.len()], vec![0; want.bytes.len()]);
        let wrote = proved::encode_list(list, &parts, &symbols, &mut work, &mut out) == Ok(out.len() as u64);
        let written = tables && wrote && work == want.work && out == want.bytes;
        let read = written && read_alike(&out, (list.len() / 13) as u32, &parts, &symbols) && one_tree(&out, list, &parts, &symbols);
        let replaced = read && replaced_alike(list, &out, &parts, &symbols);
        let tidied = replaced && tidied_alike(&trees, &out, &parts, &symbols);
        tidied && built_alike(list, &parts, &symbols, &mut work, &out)
    });
    tally.case(same, || what.to_string());
}

/// The check, root rewriting, and the first calls of walk and cursor in both forms.
fn read_alike(bytes: &[u8], trees: u32, parts: &[u32], symbols: &[u32]) -> bool {
    let b = Lent { bytes, trees, parts, symbols };
    let (mut next, mut words, mut stack) = ([0; 3], [0; 32], Stack::EMPTY);
    let last = proved::last_span(b, (0, 0, trees), &mut words);
    let steps = [false, true].map(|skip| proved::walk(b, (0, 0, trees), skip, &mut next, &mut words));
    let calls = [false, true].map(|by_value| proved::cursor(by_value, b, 2, (0, 0, 0), &mut stack, &mut next, &mut words));
    let (mut copy, mut copied_parts) = (bytes.to_vec(), parts.to_vec());
    let kind = proved::set_kind(&mut copy, trees, parts, symbols, 1);
    let spans = proved::set_spans(&mut copy, trees, &mut copied_parts, symbols, &[1; 10]);
    let checked = proved::check_buffer(&copy, trees, &copied_parts, symbols);
    last == Ok(1) && steps == [Ok(1); 2] && calls == [Ok(3); 2] && (kind, spans, checked) == (Ok(()), Ok(()), Ok(()))
}

/// The last tree becomes an ident with a part and a symbol of its own, or is a subtree and stays; as told before.
fn replaced_alike(list: &[u32], bytes: &[u8], parts: &[u32], symbols: &[u32]) -> bool {
    let trees = list.len() / 13;
    let (number, leaf) = (trees as u32 - 1, [1, u32::MAX, 1, u32::MAX, 0, 0, 5, 1, 0, 0, 0, 0, 0]);
    let want = plain_replace::set_token(&Ok(list.to_vec()), number, &leaf);
    let sizes = want.as_ref().map_or([0; 3], |w| [w.bytes.len(), w.parts.len(), w.symbols.len()]);
    let work = work_words(trees).map(|n| vec![0; n]);
    let mut runs = Runs { work, bytes: vec![0; sizes[0]], parts: vec![0; sizes[1]], symbols: vec![0; sizes[2]] };
    let lent = Lent { bytes, trees: trees as u32, parts, symbols };
    let before = proved::preview(lent, number, &leaf, &mut runs.work);
    let reply = proved::set_token(lent, number, &leaf, &mut runs);
    let same = match want {
        Ok(w) => reply == Ok([sizes[0], sizes[1] / 3, sizes[2]]) && (runs.bytes, runs.parts, runs.symbols) == (w.bytes, w.parts, w.symbols),
        Err(refusal) => reply == Err(refusal),
    };
    same && before == reply
}

/// Every tree in its longest form, put in order.
fn tidied_alike(trees: &[Tree], bytes: &[u8], parts: &[u32], symbols: &[u32]) -> bool {
    let longest = Loose { span: 12, close: 12, close_extra: 3, symbol: 4, tag: 1, forms: 3 };
    put_in_order(&plain_list::bytes(trees, &mut || longest).bytes, trees.len(), parts, symbols, bytes)
}

fn put_in_order(loose: &[u8], trees: usize, parts: &[u32], symbols: &[u32], want: &[u8]) -> bool {
    let (mut work, mut out) = (work_words(trees).map(|n| vec![0; n]), vec![0; want.len()]);
    let reply = proved::tidy(Lent { bytes: loose, trees: trees as u32, parts, symbols }, &mut work, &mut out);
    reply == Ok(want.len()) && out == want && want.len() <= loose.len()
}

/// A list over its tables with every entry twice, the second places meant.
fn second_places(tally: &mut Tally, what: &str, list: &[u32]) {
    let same = on_small_stack(|| {
        let own = plain_list::tables(list);
        let (below, root) = own.parts.split_at(own.parts.len() - 2);
        let (parts, symbols) = ([below, below, root].concat().concat(), own.symbols.repeat(2));
        let mut trees = plain_list::trees(list, &parts, &symbols).unwrap();
        for tree in &mut trees[1..] {
            if let Tree::Ident { span, symbol, .. } = tree {
                span.index += below.len() as u64;
                *symbol += own.symbols.len() as u64;
            }
        }
        let want = plain_list::write(list, &parts, &symbols).unwrap().bytes;
        let loose = plain_list::bytes(&trees, &mut Loose::default).bytes;
        loose != want && put_in_order(&loose, trees.len(), &parts, &symbols, &want)
    });
    tally.case(same, || what.to_string());
}

/// The list made step by step, a point taken, passed and restored, then built in both ways.
fn built_alike(list: &[u32], parts: &[u32], symbols: &[u32], work: &mut [u32], bytes: &[u8]) -> bool {
    let mut run = vec![7; list.len() + 13];
    let (begun, mut b) = Builder::new(&mut run, list[2], list[3..13].try_into().unwrap());
    let stepped = steps_of(list).iter().all(|step| take(&mut b, &mut run, step).is_ok());
    let same = stepped && run[2..list.len()] == list[2..];
    let point = b.point(&run).unwrap();
    let more = b.count as usize == plain_list::TREES || take(&mut b, &mut run, &Step::Push([0; 13])).is_ok();
    let back = b.restore(&run, point) == Ok(()) && [b.count, b.depth as u32] == point;
    let (mut out, mut inner) = (vec![0; bytes.len()], vec![0; bytes.len()]);
    let built = b.build(&run, false, parts, symbols, work, &mut out) == Ok(bytes.len() as u64);
    let skipped = b.build(&run, true, parts, symbols, work, &mut inner).is_ok();
    begun == Ok(()) && same && more && back && built && out == bytes && (skipped || b.count > 1)
}

/// One tree's functions: the root read and written again, its spans, a symbol.
fn one_tree(bytes: &[u8], list: &[u32], parts: &[u32], symbols: &[u32]) -> bool {
    let (mut w, mut out) = ([0; 17], [0; 40]);
    let read = proved::decode_tree(bytes, parts, symbols, 0, 0, &mut w) == Ok(33) && w[..13] == list[..13];
    let (mut span, mut symbol) = ([0; 5], [0; 2]);
    let opening = proved::decode_span(bytes, 0, &mut span) == Ok(12);
    let spans = opening && proved::encode_span(&mut out, 0, [span[0], span[1], span[2]], 0, true) == Ok(12);
    let part = parts.len() as u32 / 3;
    let (open, close) = ([part - 2, list[6], list[7]], [part - 1, list[11], list[12]]);
    let root = proved::encode_root(&mut out, 0, open, close, list[1], list[2], w[13]) == Ok(33) && out[..33] == bytes[..33];
    let coded = proved::encode_symbol(&mut out, 0, 1, 8192) == Ok(4) && proved::decode_symbol(&out, 0, &mut symbol) == Ok(4) && symbol == [8192, 1];
    let tree: &[u32; 13] = list[list.len() - 13..].try_into().unwrap();
    read && spans && root && coded && proved::encode_tree(&mut out, 0, tree, [1 << 20, 1 << 20, 1 << 20], 0).is_ok()
}

/// 256 subtrees, each in the one before.
fn nested() -> Vec<u32> {
    (0..256).flat_map(|n| [3, 255 - n, 0, 1, 1, 1, n, 1, 1, 1, 1, 600, 1]).collect()
}

/// The same with a leaf in the innermost one.
fn nested_leaf() -> Vec<u32> {
    let subtrees = (0..256).flat_map(|n| [3, 256 - n, 0, 1, 1, 1, n, 1, 1, 1, 1, 600, 1]);
    subtrees.chain([1, 5, 0, 1, 1, 1, 300, 1, 0, 0, 0, 0, 0]).collect()
}

/// An ident in the place of the last tree.
fn leaf_last(mut list: Vec<u32>) -> Vec<u32> {
    list.truncate(list.len() - 13);
    list.extend([1, 5, 0, 1, 1, 1, 300, 1, 0, 0, 0, 0, 0]);
    list
}

pub fn run(tally: &mut Tally) {
    let most = plain_list::TREES as u32;
    lists(tally, "256 nested subtrees", &nested());
    lists(tally, "256 nested subtrees and a leaf", &nested_leaf());
    lists(tally, "a lone root", &list(1, false, |_| 0, |_| 0));
    lists(tally, "1,048,576 trees, one part, one symbol", &list(most, false, |_| 0, |_| 0));
    lists(tally, "1,048,576 trees, all symbols apart", &list(most, false, |n| n % 3, |n| n));
    lists(tally, "1,048,576 trees, all symbols and parts apart", &list(most, false, |n| n, |n| n.wrapping_mul(2654435761)));
    lists(tally, "1,048,576 trees, 2,097,150 parts", &list(most, true, |n| n, |_| 0));
    lists(tally, "1,048,576 trees, 2,097,149 parts, a leaf", &leaf_last(list(most, true, |n| n, |_| 0)));
    second_places(tally, "1,048,576 trees, 2,097,152 parts, 1,048,576 symbols, each twice", &list(most, false, |n| n, |n| n % (1 << 19)));
    lists(tally, "40,000 trees, symbols that differ in high bits alone", &list(40_000, false, |n| n << 16, |n| n << 16));
}
