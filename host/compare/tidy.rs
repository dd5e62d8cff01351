//! Stored buffers put in order, in every room: the bytes that the source writes of the list that it reads, over the same tables.
use crate::buffers::{Stored, damage};
use crate::maker::Maker;
use crate::plain::{self, Loose, Span, Tree};
use crate::plain_list::{self, Refusal};
use crate::plain_tidy::{Tidied, tidy};
use crate::proved::{self, work_words};
use crate::random::Random;
use crate::replace::{LEAVES, limit_sizes, sized_list};
use crate::tally::Tally;
use crate::ways::{Ways, buffer};
use crate::widened::walked;
use crate::words;
use tt::TopSubtree;

// ---- what is held to what

/// Words of each lent run: three of work words, then bytes.
type Room = [usize; 4];

/// A buffer to put in order, with the list it holds and that list's bytes, or the check's refusal.
pub struct Given {
    what: String,
    stored: Stored,
    want: Result<Tidied, Refusal>,
    /// Whether every run is tried too short by one, or only one of them.
    every_room: bool,
}

impl Given {
    pub fn of(what: String, stored: Stored) -> Given {
        Given { what, want: tidy(&stored.plain()), every_room: stored.trees < 2000, stored }
    }

    fn exact(&self, bytes: usize) -> Room {
        // what is refused is so in any room
        let most = if self.want.is_ok() { plain_list::TREES } else { 2000 };
        let [list, tables, counts] = work_words((self.stored.trees as usize).min(most));
        [list, tables, counts, bytes]
    }

    /// Exact; to spare; each run too short by one; a short work run and no output; nothing at all.
    fn rooms(&self, r: &mut Random) -> Vec<Room> {
        let exact = self.exact(self.want.as_ref().map_or_else(|_| r.below(90) as usize, |w| w.bytes.len()));
        let spare = exact.map(|n| n + r.below(40) as usize);
        let mut short: Vec<Room> = Vec::new();
        for run in (0..4).filter(|_| self.want.is_ok()) {
            let mut room = if r.one_in(2) { exact } else { spare };
            room[run] = exact[run] - 1;
            short.push(room);
        }
        if !self.every_room && !short.is_empty() {
            short = vec![r.pick(&short)];
        }
        let mut no_output = exact;
        no_output[r.below(3) as usize] -= 1;
        no_output[3] = 0;
        [vec![exact, spare, no_output, [0; 4]], short].concat()
    }

    /// The reply and all lent contents in one room, and that there are no more bytes than the buffer has; else what differs.
    fn in_room(&self, tally: &mut Tally, room: Room) -> Option<String> {
        let [list, tables, counts, bytes] = room;
        let (mut work, mut out) = ([list, tables, counts].map(|n| vec![0xAAAA_AAAA; n]), vec![0xAA; bytes]);
        let (mut work_after, mut out_after) = (work.clone(), out.clone());
        let share = work_words(self.stored.trees as usize);
        let work_fits = (0..3).all(|i| share[i] <= room[i]);
        let expected = match &self.want {
            Err(refusal) => Err(*refusal),
            Ok(w) if !work_fits || bytes < w.bytes.len() => Err((6, 0)),
            Ok(w) => {
                out_after[..w.bytes.len()].copy_from_slice(&w.bytes);
                Ok(w.bytes.len())
            }
        };
        tally.answered(expected.map_or_else(|(number, _)| format!("refused {number}"), |_| "tidied".into()));
        let reply = proved::tidy(self.stored.lent(), &mut work, &mut out);
        if self.want.is_ok() && work_fits {
            // what the words for list and sizes hold is open, but not behind their share; those for tables are nobody's
            for i in [0, 2] {
                work_after[i][..share[i]].copy_from_slice(&work[i][..share[i]]);
            }
        }
        let longer = self.want.as_ref().is_ok_and(|w| w.bytes.len() > self.stored.bytes.len());
        let differ = if longer { ", longer than the buffer" } else if work == work_after && out == out_after { "" } else { ", other contents" };
        (reply != expected || !differ.is_empty()).then(|| format!("{reply:?} in room {room:?}, wanted {expected:?}{differ}"))
    }

    /// In all rooms, the buffer and its tables as they were; then the source's answer, and what the new buffer is.
    pub fn hold(&self, tally: &mut Tally, r: &mut Random) {
        let before = self.stored.clone();
        let rooms = self.rooms(r);
        let mut differs: Vec<String> = rooms.into_iter().filter_map(|room| self.in_room(tally, room)).collect();
        if before != *std::hint::black_box(&self.stored) {
            differs.push("the buffer or its tables are others".into());
        }
        tally.case(differs.is_empty(), || format!("{}: {}", self.what, differs[0]));
        if let Ok(want) = &self.want {
            tally.case(source_alike(&self.stored, want), || format!("source's, {}", self.what));
            tally.case(settled(&self.stored, want), || format!("put in order again, {}", self.what));
        }
    }
}

/// The list that the source reads, and the bytes that it writes of it over first places in the same tables.
pub fn by_source(s: &Stored) -> (Vec<u32>, Box<[u8]>) {
    let top = s.unchecked();
    let trees = words::trees(&top);
    let list = trees.iter().flat_map(words::words).collect();
    let (bytes, _) = TopSubtree::encode_list(trees, &TopSubtree::maps(&top.part_list(), &s.symbols));
    (list, bytes)
}

fn source_alike(s: &Stored, want: &Tidied) -> bool {
    let (list, bytes) = by_source(s);
    list == want.list && *bytes == *want.bytes
}

/// What is put in order passes the check, reads as the same list with no loose span below the root, and stays as it is.
fn settled(s: &Stored, want: &Tidied) -> bool {
    let tidied = Stored { bytes: want.bytes.clone(), ..s.clone() };
    let passes = proved::check_buffer(&tidied.bytes, tidied.trees, &tidied.parts, &tidied.symbols) == Ok(());
    let read = walked(&tidied).is_some_and(|(list, reports)| list == want.list && reports[1..].iter().all(|report| *report == [0; 3]));
    passes && read && put_in_order(&tidied) == want.bytes
}

/// The proved function's bytes, in as much room as the buffer has.
pub fn put_in_order(s: &Stored) -> Vec<u8> {
    let (mut work, mut out) = (work_words(s.trees as usize).map(|n| vec![0; n]), vec![0; s.bytes.len()]);
    let bytes = proved::tidy(s.lent(), &mut work, &mut out).expect("a buffer that the check passes, which is no shorter");
    out.truncate(bytes);
    out
}

// ---- random lists

/// Some entries a second time, anywhere before the root's.
fn repeat(r: &mut Random, parts: &mut Vec<u32>, symbols: &mut Vec<u32>) {
    for _ in 0..r.pick(&[0, 1, 4, 20]) {
        let below = parts.len() / 3 - 2;
        if below > 0 {
            let (from, to) = (3 * r.below(below as u64) as usize, 3 * r.below(below as u64 + 1) as usize);
            let entry = parts[from..from + 3].to_vec();
            parts.splice(to..to, entry);
        }
        if !symbols.is_empty() {
            let (entry, to) = (r.pick(symbols), r.below(symbols.len() as u64 + 1) as usize);
            symbols.insert(to, entry);
        }
    }
}

/// A list with tables that have unused and repeated entries.
struct Listed {
    m: Maker,
    list: Vec<u32>,
    parts: Vec<u32>,
    symbols: Vec<u32>,
}

impl Listed {
    fn of(seed: u64) -> Listed {
        let mut m = Maker::new(seed);
        let list = if seed % 40 == 0 { m.limit_list() } else if seed % 40 == 1 { m.nested(256) } else { m.list() };
        let (mut parts, mut symbols) = m.tables_for(&list);
        repeat(&mut m.r, &mut parts, &mut symbols);
        Listed { m, list, parts, symbols }
    }

    fn trees(&self, list: &[u32]) -> Result<Vec<Tree>, Refusal> {
        plain_list::trees(list, &self.parts, &self.symbols)
    }

    /// A list over these tables in any of the ways that the check admits.
    fn in_any_way(&mut self, ways: &Ways, list: &[u32]) -> Stored {
        let trees = self.trees(list).expect("a list that rows 1 to 5 pass");
        let (close_extra, r) = (self.m.r.below(4), &mut self.m.r);
        let bytes = buffer(&trees, close_extra, |n, children| ways.any(r, &trees[n], children));
        Stored { bytes, trees: trees.len() as u32, parts: self.parts.clone(), symbols: self.symbols.clone() }
    }
}

/// By turns as the writer makes it, in any way, and in any way but damaged.
pub fn random(tally: &mut Tally, buffers: u64) {
    for seed in 0..buffers {
        let mut l = Listed::of(seed);
        let list = l.list.clone();
        let ways = Ways::over(&l.parts, &l.symbols);
        let mut stored = l.in_any_way(&ways, &list);
        if seed % 4 == 0 {
            stored.bytes = plain_list::write(&list, &l.parts, &l.symbols).expect("a list that rows 1 to 5 pass").bytes;
        } else if seed % 4 > 2 {
            (0..1 + l.m.r.below(2)).for_each(|_| damage(&mut l.m.r, &mut stored));
        }
        let mut given = Given::of(format!("buffer {seed}"), stored);
        given.every_room = l.m.r.one_in(4);
        if let Ok(want) = &given.want {
            tally.answered(if want.bytes == given.stored.bytes { "in order" } else { "loose" }.into());
        }
        given.hold(tally, &mut l.m.r);
    }
    let refusals = [1, 2, 3, 7, 8, 9].map(|n| format!("refused {n}"));
    tally.assert_answered(&["tidied", "refused 6", "in order", "loose"], buffers / 5);
    tally.assert_answered(&refusals.each_ref().map(String::as_str), buffers / 200);
}

// ---- two buffers

/// The list with one tree changed in a word, or a leaf left out. It need not be a list over these tables.
fn changed(l: &mut Listed) -> Vec<u32> {
    let (mut list, r) = (l.list.clone(), &mut l.m.r);
    let n = r.below(list.len() as u64 / 13) as usize;
    let tree = &mut list[13 * n..13 * n + 13];
    match r.below(7) {
        0 if !l.symbols.is_empty() => tree[1] = r.pick(&l.symbols),
        // a subtree holds a tree more or less
        1 => tree[1] = tree[1].wrapping_add(r.pick(&[1, u32::MAX])),
        2 => tree[2] ^= 1 << r.pick(&[0, 1, 2, 8, 16]),
        3 | 4 => {
            let word = r.pick(&[6, 7, 11, 12]);
            tree[word] = tree[word].wrapping_add(r.pick(&[1, 256, 1 << 17, u32::MAX]));
        }
        5 => {
            let (to, from) = (r.pick(&[3, 8]), 3 * r.below(l.parts.len() as u64 / 3) as usize);
            tree[to..to + 3].copy_from_slice(&l.parts[from..from + 3]);
        }
        _ if tree[0] < 3 => {
            list.drain(13 * n..13 * n + 13);
            for i in (0..n).filter(|&i| l.list[13 * i] == 3 && l.list[13 * i + 1] as usize >= n - i) {
                list[13 * i + 1] -= 1;
            }
        }
        _ => {}
    }
    list
}

/// A list over the same tables that differs in one thing, if one is found soon.
fn near_miss(l: &mut Listed) -> Option<Vec<u32>> {
    let lists: Vec<Vec<u32>> = (0..20).map(|_| changed(l)).collect();
    lists.into_iter().find(|list| *list != l.list && l.trees(list).is_ok())
}

/// A bit of the buffer is another, and the check passes it.
pub fn flipped(r: &mut Random, s: &Stored) -> Option<Stored> {
    let mut tries = (0..20).map(|_| {
        let mut other = s.clone();
        other.bytes[r.below(s.bytes.len() as u64) as usize] ^= 1 << r.below(8);
        other
    });
    tries.find(|other| other.plain().check().is_ok())
}

/// Two buffers over the same tables: equal bytes exactly if the source reads the same list from both.
fn pair_alike(tally: &mut Tally, how: &str, a: &Stored, b: &Stored) -> bool {
    let lists = [a, b].map(|s| words::trees(&s.unchecked()).iter().flat_map(words::words).collect::<Vec<u32>>());
    let (same, apart) = (lists[0] == lists[1], a.bytes != b.bytes);
    tally.answered(format!("{how}, {} list{}", if same { "one" } else { "another" }, if apart { "" } else { ", one buffer" }));
    (put_in_order(a) == put_in_order(b)) == same
}

/// Each list in two ways, beside a list near to it, and beside its own buffer with a bit changed.
pub fn pairs(tally: &mut Tally, lists: u64) {
    for seed in 0..lists {
        let mut l = Listed::of(seed);
        let (list, near) = (l.list.clone(), near_miss(&mut l));
        let ways = Ways::over(&l.parts, &l.symbols);
        let [a, b] = [&list, &list].map(|list| l.in_any_way(&ways, list));
        let near = near.map(|list| l.in_any_way(&ways, &list));
        let bit = flipped(&mut l.m.r, &a);
        for (how, other) in [("twice", Some(b)), ("near", near), ("bit", bit)] {
            let Some(other) = other else { continue };
            let alike = pair_alike(tally, how, &a, &other);
            tally.case(alike, || format!("list {seed} and another buffer, {how}"));
        }
    }
    tally.assert_answered(&["twice, one list", "near, another list", "bit, another list"], lists / 2);
    tally.assert_answered(&["bit, one list"], lists / 200);
}

// ---- lent runs

/// A root around trees, over their own tables.
fn around(trees: &[[u32; 13]]) -> Stored {
    let list = [&[3, trees.len() as u32, 3, 1, 0, 0, 0, 9, 2, 0, 0, 40, 0], trees.as_flattened()].concat();
    let tables = plain_list::tables(&list);
    let (parts, symbols) = (tables.parts.concat(), tables.symbols);
    let bytes = plain_list::write(&list, &parts, &symbols).expect("a list that rows 1 to 5 pass").bytes;
    Stored { bytes, trees: trees.len() as u32 + 1, parts, symbols }
}

/// Each run at every length up to some words more than it needs, and each two of them too short by one; in a buffer as the writer makes it, a
/// loose one and a damaged one.
pub fn every_length(tally: &mut Tally) {
    let mut r = Random::new(41);
    let buffers = [around(&[]), around(&LEAVES[..1]), around(&LEAVES[2..]), around(&[[3, 0, 1, 1, 0, 0, 5, 1, 1, 0, 0, 264, 1]])];
    for (i, tidied) in buffers.into_iter().enumerate() {
        let list = tidy(&tidied.plain()).expect("the writer's buffer").list;
        let trees = plain_list::trees(&list, &tidied.parts, &tidied.symbols).expect("a list that rows 1 to 5 pass");
        let ways = Ways::over(&tidied.parts, &tidied.symbols);
        let loose = Stored { bytes: buffer(&trees, 3, |n, children| ways.any(&mut r, &trees[n], children)), ..tidied.clone() };
        let cut = Stored { bytes: tidied.bytes[1..].to_vec(), ..tidied.clone() };
        for (how, stored) in [("tidied", tidied), ("loose", loose), ("cut", cut)] {
            let given = Given::of(format!("every length, buffer {i} {how}"), stored);
            let exact = given.exact(given.want.as_ref().map_or(33, |w| w.bytes.len()));
            for (a, b) in (0..4).flat_map(|a| (0..4).map(move |b| (a, b))) {
                for length in 0..exact[a] + 4 {
                    let mut room = exact;
                    room[b] -= 1;
                    room[a] = length;
                    let differs = given.in_room(tally, room);
                    tally.case(differs.is_none(), || format!("{}: {}", given.what, differs.unwrap()));
                }
            }
        }
    }
    tally.assert_answered(&["tidied", "refused 6"], 100);
}

// ---- at the limits of sizes

/// Lists on both sides of each limit, over their tables once and with every entry twice, in any way.
pub fn limits(tally: &mut Tally) {
    let mut r = Random::new(42);
    for (trees, parts, symbols) in limit_sizes() {
        let list = sized_list(&mut r, trees, parts, symbols);
        let own = plain_list::tables(&list);
        let (below, root) = own.parts.split_at(own.parts.len() - 2);
        for times in [1, 2] {
            let mut stored = Stored { bytes: vec![], trees: trees as u32, parts: below.repeat(times).concat(), symbols: own.symbols.repeat(times) };
            stored.parts.extend(root.concat());
            let indexed = plain_list::trees(&list, &stored.parts, &stored.symbols).expect("a list that rows 1 to 5 pass");
            let ways = Ways::over(&stored.parts, &stored.symbols);
            stored.bytes = buffer(&indexed, 0, |n, children| ways.any(&mut r, &indexed[n], children));
            Given::of(format!("{trees} trees, {parts} parts, {symbols} symbols, {times} times"), stored).hold(tally, &mut r);
        }
    }
    tables_about_bounds(tally, &mut r);
}

/// A root around an ident with the last part below the root's and the last symbol; all entries are alike, so that the first places are meant.
/// Sizes at the bounds of row 1 and past them, and stated tree counts of any size.
fn tables_about_bounds(tally: &mut Tally, r: &mut Random) {
    for (parts, symbols) in [(2, 1), (3, 0), (3, 1), (2_097_152, 1_048_576), (2_097_153, 1), (3, 1_048_577)] {
        let span = |index: usize, start: u64| Span { index: index as u64, start, len: 9 };
        let last = |entries: usize| entries.saturating_sub(1) as u64;
        let trees = [
            Tree::Subtree { open: span(parts - 2, 0), close: span(parts - 1, 40), count: 1, kind: 3 },
            Tree::Ident { span: span(last(parts - 2) as usize, 12), symbol: last(symbols), raw: 0 },
        ];
        let bytes = buffer(&trees, 0, |n, children| plain::write(&trees[n], children, Loose::default()));
        for (more, trees) in [(0, 2), (1, 2), (0, 0), (0, 1), (0, 3), (0, 1_048_576), (0, 1_048_577), (0, u32::MAX)] {
            let stored = Stored { bytes: bytes.clone(), trees, parts: vec![5; 3 * parts + more], symbols: vec![9; symbols] };
            let given = Given::of(format!("{trees} trees, {parts} parts and {more} words, {symbols} symbols"), stored);
            given.hold(tally, r);
        }
    }
}
