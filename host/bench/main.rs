//! Times of the proved functions beside the unmodified source's, in one process, on the same input, both built for release.
// the modules of the comparison have more than is used here
#![allow(dead_code)]
#[path = "../compare/plain.rs"]
mod plain;
#[path = "../compare/plain_list.rs"]
mod plain_list;
#[path = "../compare/proved.rs"]
mod proved;
#[path = "../compare/random.rs"]
mod random;
#[path = "../compare/steps.rs"]
mod steps;
#[path = "../compare/words.rs"]
mod words;

mod buffers;
mod builders;
mod list;
mod lists;
mod packers;
mod replace;
mod tidy;
mod timing;
mod tree;
mod walks;

fn main() {
    println!("| what | ours, ns | the source's, ns | ratio |");
    println!("|---|---|---|---|");
    tree::spans();
    packers::run();
    tree::trees();
    lists::run();
    walks::run();
    replace::run();
    tidy::run();
    builders::run();
}
