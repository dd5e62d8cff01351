//! Writes the source's own answers, which tools/replay holds the proved functions to, to standard output: the same bytes in every run. Of a
//! damaged buffer, which the source would read unchecked, it is the plain version's refusal.
// the modules of the comparison have more than is used here
#![allow(dead_code)]
#[path = "../compare/maker.rs"]
mod maker;
#[path = "../compare/plain.rs"]
mod plain;
#[path = "../compare/plain_buffer.rs"]
mod plain_buffer;
#[path = "../compare/plain_list.rs"]
mod plain_list;
#[path = "../compare/random.rs"]
mod random;
#[path = "../compare/reports.rs"]
mod reports;
#[path = "../compare/tally.rs"]
mod tally;
#[path = "../compare/ways.rs"]
mod ways;
#[path = "../compare/words.rs"]
mod words;

mod buffers;
mod lists;
mod packing;
mod stored;
mod text;
mod tidy;
mod tokens;

fn main() {
    let mut text = text::Text::default();
    packing::run(&mut text);
    lists::run(&mut text);
    tokens::run(&mut text);
    tidy::run(&mut text);
    print!("{}", text.ended());
}
