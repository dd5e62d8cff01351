//! The proved functions beside the unmodified source and, where that has no answer or another one, beside a plain second implementation.
mod buffers;
mod builders;
mod builders_random;
mod cursors;
mod distances;
mod forms;
mod lists;
mod machine;
mod maker;
mod pack;
mod packers;
mod plain;
mod plain_buffer;
mod plain_builder;
mod plain_list;
mod plain_replace;
mod plain_tidy;
mod proved;
mod random;
mod replace;
mod reports;
mod roots;
mod shortest;
mod source_builder;
mod stack;
mod steps;
mod tally;
mod tidy;
mod tidy_small;
mod tree;
mod walks;
mod ways;
mod widened;
mod words;

use tally::Tally;

fn main() {
    let many: u64 = std::env::args().nth(1).map_or(1, |x| x.parse().expect("how many times the usual number"));
    // all parts are run, unless a word is given that their names must hold
    let word = std::env::args().nth(2).unwrap_or_default();
    let parts: [(&str, &dyn Fn(&mut Tally)); 39] = [
        ("spans and symbols written", &|t| pack::write(t)),
        ("lists of spans packed, both packers", &|t| packers::lists(t, 1_000_000 * many)),
        ("spans and symbols read", &|t| pack::read(t)),
        ("spans read, every form", &|t| forms::read_spans(t, 100_000 * many)),
        ("trees written", &|t| tree::write(t, 1_000_000 * many)),
        ("roots written", &|t| tree::write_roots(t, 200_000 * many)),
        ("trees read", &|t| tree::read(t, 50_000 * many)),
        ("trees read, every form with every form of its spans", &|t| forms::read_trees(t)),
        ("one tree over tables of every size", &|t| tree::sizes(t)),
        ("lists written", &|t| lists::write(t, 40_000 * many)),
        ("tables made", &|t| lists::tables(t, 40_000 * many)),
        ("damaged lists", &|t| lists::damaged(t, 40_000 * many)),
        ("largest lists, stack of 1 MB", &|t| stack::run(t)),
        ("buffers checked", &|t| buffers::check(t, 40_000 * many)),
        ("distance bits, one tree", &|t| distances::trees(t)),
        ("distance bits, whole buffers beside the reading by OR", &|t| distances::buffers(t, 40_000 * many)),
        ("distance bits, every other value in the writer's buffers", &|t| distances::every_bit(t, 1_000 * many)),
        ("spans of lists written and widened", &|t| widened::run(t, 20_000 * many)),
        ("walks", &|t| walks::run(t, 40_000 * many)),
        ("cursors", &|t| cursors::run(t, 40_000 * many)),
        ("lists of calls beside the plain machine", &|t| machine::run(t, 40_000 * many)),
        ("roots rewritten", &|t| roots::run(t, 40_000 * many)),
        ("leaves previewed and exchanged, every small list", &|t| replace::every_small_list(t)),
        ("leaves previewed and exchanged, random lists", &|t| replace::random(t, 40_000 * many)),
        ("leaves previewed and exchanged, bad ones", &|t| replace::bad_leaves(t)),
        ("leaves previewed and exchanged, every length of a lent run", &|t| replace::every_length(t)),
        ("leaves previewed and exchanged at the limits of sizes", &|t| replace::limits(t)),
        ("tidied, every buffer of a small list", &|t| tidy_small::every_way(t)),
        ("tidied, every way of one tree", &|t| tidy_small::each_tree(t)),
        ("tidied, random lists", &|t| tidy::random(t, 40_000 * many)),
        ("tidied, two buffers", &|t| tidy::pairs(t, 20_000 * many)),
        ("tidied, every length of a lent run", &|t| tidy::every_length(t)),
        ("tidied at the limits of sizes", &|t| tidy::limits(t)),
        ("nothing shorter, every way of one tree", &|t| shortest::trees(t)),
        ("nothing shorter, stored buffers", &|t| shortest::buffers(t, 40_000 * many)),
        ("builders, every script of few steps", &|t| builders::every_script(t, if many < 10 { 6 } else { 7 })),
        ("builders, random scripts", &|t| builders_random::scripts(t, 100_000 * many)),
        ("builders, invented", &|t| builders_random::invented_builders(t, 100_000 * many)),
        ("builders at their limits", &|t| builders_random::limits(t)),
    ];
    let mut failed = false;
    for (what, run) in parts.into_iter().filter(|(what, _)| what.contains(&word)) {
        let mut tally = Tally::default();
        run(&mut tally);
        println!("{what}: {} cases, {} differences", tally.cases, tally.differences);
        failed |= tally.differences > 0;
    }
    std::process::exit(i32::from(failed));
}
