//! Whole lists: tables and writing, on random lists that reach every form and boundary, and on damaged ones.
use crate::maker::Maker;
use crate::plain_list::{self, Refusal, Written};
use crate::proved;
use crate::random::Random;
use crate::tally::Tally;
use crate::words;
use tt::TopSubtree;

// ---- what is held to what

/// The proved writer's reply, work words and output against the plain one's, with room to spare, none to spare and too little.
pub fn written_alike(r: &mut Random, list: &[u32], parts: &[u32], symbols: &[u32]) -> bool {
    let want = plain_list::write(list, parts, symbols);
    rooms_alike(r, list.len() / 13, &want, |work, out| proved::encode_list(list, parts, symbols, work, out))
}

/// What is wanted of a list of k trees, in each of the rooms.
pub fn rooms_alike(
    r: &mut Random, k: usize, want: &Result<Written, Refusal>, mut write: impl FnMut(&mut [u32], &mut [u8]) -> Result<u64, Refusal>,
) -> bool {
    let size = want.as_ref().map_or(40 * k, |w| w.bytes.len());
    let rooms = [(k + 1, size), (k + 1 + r.below(4) as usize, size + r.below(40) as usize), (k, size), (k + 1, size - size.min(1)), (0, 0)];
    rooms.into_iter().all(|(work_room, out_room)| {
        let (mut work, mut out) = (vec![0xAAAA; work_room], vec![0xAA; out_room]);
        let (mut want_work, mut want_out) = (work.clone(), out.clone());
        let expected: Result<u64, Refusal> = match want {
            Err(refusal) => Err(*refusal),
            Ok(_) if work_room < k + 1 => Err((6, 0)),
            Ok(w) => {
                want_work[..k + 1].copy_from_slice(&w.work);
                if out_room < size {
                    Err((6, 0))
                } else {
                    want_out[..size].copy_from_slice(&w.bytes);
                    Ok(size as u64)
                }
            }
        };
        write(&mut work, &mut out) == expected && work == want_work && out == want_out
    })
}

/// The source's bytes over the same tables are the plain writer's.
fn source_alike(list: &[u32], parts: &[u32], symbols: &[u32]) -> bool {
    let Ok(want) = plain_list::write(list, parts, symbols) else { return true };
    let part_list: Vec<[u32; 3]> = parts.chunks(3).map(|w| [w[0], w[1], w[2]]).collect();
    let maps = TopSubtree::maps(&part_list, symbols);
    let (bytes, after) = TopSubtree::encode_list(list.chunks(13).map(words::tree).collect(), &maps);
    // the source leaves its first size at 0
    *bytes == *want.bytes && after[1..] == want.work[1..]
}

fn tables_alike(r: &mut Random, list: &[u32]) -> bool {
    let rows = if plain_list::sized(list) { plain_list::rules(list) } else { Err((1, 0)) };
    let made = rows.map(|()| plain_list::tables(list));
    let (parts, symbols) = made.as_ref().map_or((3, 3), |t| (t.parts.len(), t.symbols.len()));
    let enough = [3 * parts, parts - 2, symbols, symbols];
    let spare = enough.map(|n| n + r.below(3) as usize);
    let mut short = spare;
    let which = r.below(4) as usize;
    short[which] = enough[which].saturating_sub(1);
    let too_short = enough[which] > 0;
    [(enough, false), (spare, false), (short, too_short)].into_iter().all(|(rooms, six)| {
        let mut runs = rooms.map(|n| vec![0xAAAA; n]);
        let mut want = runs.clone();
        let expected = match &made {
            Err(refusal) => Err(*refusal),
            Ok(_) if six => Err((6, 0)),
            Ok(t) => {
                for (run, words) in want.iter_mut().zip([&t.parts.concat(), &t.part_counts, &t.symbols, &t.symbol_counts]) {
                    run[..words.len()].copy_from_slice(words);
                }
                Ok((parts as u64, symbols as u64))
            }
        };
        let [a, b, c, d] = &mut runs;
        proved::tables(list, a, b, c, d) == expected && runs == want
    })
}

/// The source's sets and counts.
fn source_tables_alike(list: &[u32]) -> bool {
    let own = plain_list::tables(list);
    let below: Vec<_> = list.chunks(13).skip(1).map(words::tree).collect();
    let (mut parts, mut symbols) = TopSubtree::counts(&below);
    let mut own_parts: Vec<_> = own.parts.iter().zip(&own.part_counts).map(|(&p, &n)| (p, n as usize)).collect();
    let mut own_symbols: Vec<_> = own.symbols.iter().zip(&own.symbol_counts).map(|(&s, &n)| (s, n as usize)).collect();
    (parts.sort(), symbols.sort(), own_parts.sort(), own_symbols.sort());
    parts == own_parts && symbols == own_symbols
}

// ---- runs

fn one(seed: u64) -> (Maker, Vec<u32>) {
    let mut m = Maker::new(seed);
    let list = match seed % 10 {
        0 => m.limit_list(),
        1 if seed % 50 == 1 => {
            let depth = m.r.pick(&[255, 256, 257, 300]);
            m.nested(depth)
        }
        _ => m.list(),
    };
    (m, list)
}

pub fn write(tally: &mut Tally, lists: u64) {
    for seed in 0..lists {
        let (mut m, list) = one(seed);
        let (parts, symbols) = m.tables_for(&list);
        let same = written_alike(&mut m.r, &list, &parts, &symbols) && source_alike(&list, &parts, &symbols);
        tally.case(same, || format!("list {seed}, {} trees", list.len() / 13));
    }
}

pub fn tables(tally: &mut Tally, lists: u64) {
    for seed in 0..lists {
        let (mut m, list) = one(seed);
        let same = tables_alike(&mut m.r, &list) && (plain_list::rules(&list).is_err() || source_tables_alike(&list));
        tally.case(same, || format!("tables of list {seed}, {} trees", list.len() / 13));
    }
}

/// One or two words of list or tables changed, a word or a tree dropped or doubled.
pub fn damaged(tally: &mut Tally, lists: u64) {
    for seed in 0..lists {
        let (mut m, mut list) = one(seed);
        let (mut parts, mut symbols) = m.tables_for(&list);
        for _ in 0..1 + m.r.below(2) {
            damage(&mut m.r, &mut list, &mut parts, &mut symbols);
        }
        let same = written_alike(&mut m.r, &list, &parts, &symbols) && tables_alike(&mut m.r, &list);
        tally.case(same, || format!("damaged list {seed}, {} words", list.len()));
    }
}

fn damage(r: &mut Random, list: &mut Vec<u32>, parts: &mut Vec<u32>, symbols: &mut Vec<u32>) {
    let word = |r: &mut Random, run: &mut Vec<u32>| {
        if !run.is_empty() {
            let i = r.below(run.len() as u64) as usize;
            run[i] = match r.below(4) {
                0 => run[i].wrapping_add(1),
                1 => run[i].wrapping_sub(1),
                2 => run[i] ^ 1 << r.below(32),
                _ => r.near(&[0, 3, 255, 256, 65535, 1 << 24], u32::MAX.into()) as u32,
            };
        }
    };
    match r.below(9) {
        0..4 => word(r, list),
        4 => word(r, parts),
        5 => word(r, symbols),
        6 => {
            let run = r.below(3);
            let run = [list, parts, symbols].into_iter().nth(run as usize).unwrap();
            let shorter = run.len() - (r.below(4) as usize).min(run.len());
            run.truncate(shorter);
        }
        7 if list.len() >= 26 => {
            let n = r.below(list.len() as u64 / 13) as usize;
            list.drain(13 * n..13 * n + 13);
        }
        _ => {
            let n = r.below((list.len() / 13).max(1) as u64) as usize;
            let tree: Vec<u32> = list.iter().skip(13 * n).take(13).copied().collect();
            list.extend(tree);
        }
    }
}
