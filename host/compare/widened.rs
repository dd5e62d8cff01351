//! Whole buffers of one list: as the writer makes it no span below the root is loose; widened at random, or all spans of twelve bytes, the same
//! list is read, and every report is the source's.
use crate::buffers::Stored;
use crate::maker::{Maker, loose};
use crate::plain::Loose;
use crate::plain_list;
use crate::proved;
use crate::reports;
use crate::tally::Tally;

/// The trees and the reports that the proved walk hands back, tree after tree.
pub fn walked(s: &Stored) -> Option<(Vec<u32>, Vec<[u32; 3]>)> {
    let (mut list, mut all) = (vec![], vec![]);
    let (mut at, mut next, mut words) = ((0, 0, s.trees), [0; 3], [0; 16]);
    while proved::walk(s.lent(), at, false, &mut next, &mut words).ok()? == 1 {
        list.extend(&words[..13]);
        all.push([words[13], words[14], words[15]]);
        at = (next[0], next[1] as u32, next[2] as u32);
    }
    Some((list, all))
}

/// The proved writer's bytes.
fn written(list: &[u32], parts: &[u32], symbols: &[u32]) -> Vec<u8> {
    let trees = list.len() / 13;
    let (mut work, mut out) = (vec![0; trees + 1], vec![0; 33 * trees]);
    let bytes = proved::encode_list(list, parts, symbols, &mut work, &mut out).expect("a list that rows 1 to 5 pass");
    out.truncate(bytes as usize);
    out
}

/// The check passes; the list, and the source's reports.
fn held(s: &Stored, list: &[u32], reports: &[[u32; 3]]) -> bool {
    let passes = proved::check_buffer(&s.bytes, s.trees, &s.parts, &s.symbols).is_ok();
    passes && walked(s).is_some_and(|(read, all)| read == list && all == reports)
}

pub fn run(tally: &mut Tally, lists: u64) {
    for seed in 0..lists {
        let mut m = Maker::new(seed);
        let list = if seed % 40 == 0 { m.limit_list() } else if seed % 40 == 1 { m.nested(256) } else { m.list() };
        let (parts, symbols) = m.tables_for(&list);
        let trees = plain_list::trees(&list, &parts, &symbols).expect("a list that rows 1 to 5 pass");
        let twelve = Loose { span: 12, close: 12, ..Loose::default() };
        let buffers = [
            ("written", written(&list, &parts, &symbols)),
            ("widened", plain_list::bytes(&trees, &mut || loose(&mut m.r)).bytes),
            ("twelve", plain_list::bytes(&trees, &mut || twelve).bytes),
        ];
        let least = buffers[0].1.len();
        for (how, bytes) in buffers {
            let s = Stored { bytes, trees: trees.len() as u32, parts: parts.clone(), symbols: symbols.clone() };
            let reports = reports::all(&s.unchecked());
            let spans: u32 = reports[1..].iter().map(|report| report[2]).sum();
            tally.answered(format!("{how}, {}", if spans > 0 { "loose" } else { "not" }));
            let right = held(&s, &list, &reports) && least <= s.bytes.len() && (how != "written" || spans == 0);
            tally.case(right, || format!("list {seed} {how}: {spans} loose"));
        }
    }
    tally.assert_answered(&["written, not", "widened, loose", "twelve, loose"], lists / 2);
}
