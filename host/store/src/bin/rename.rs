//! Renames an ident: `rename BUNDLE TREE SYMBOL` writes to standard output the bundle in which the ident with that tree number has that symbol;
//! its span stays, and whether it is raw. Before that it says on standard error how storage will change. Exit status: 0 written, 1 refused, or
//! the tree is no ident, 2 no such use or no such file.
use std::env::args;
use std::fs;
use std::io::{self, Write};
use std::process::ExitCode;
use store::{Ident, IdentIsRaw, Leaf, Sizes, Span, Stored};

mod reader;

/// How storage would change.
fn change(before: Sizes, after: Sizes) -> String {
    let rows = [("bytes", before.bytes, after.bytes), ("parts", before.parts, after.parts), ("symbols", before.symbols, after.symbols)];
    rows.map(|(what, before, after)| format!("{what} {before} to {after}")).join(", ")
}

/// The new bundle, or why there is none. The change is told before anything is made.
fn renamed(bundle: &[u8], number: u32, sym: u32) -> Result<Vec<u8>, String> {
    let stored = Stored::from_bundle(bundle).map_err(|refusal| refusal.to_string())?;
    let Some([1, _, raw, file, ast_id, context, start, len, ..]) = reader::trees(&stored).nth(number as usize) else {
        return Err(format!("tree {number} is no ident"));
    };
    let is_raw = if raw == 1 { IdentIsRaw::Yes } else { IdentIsRaw::No };
    let ident = Ident { sym, span: Span { file, ast_id, context, start, len }, is_raw };
    let sizes = stored.preview(number, Leaf::Ident(ident)).map_err(|refusal| refusal.to_string())?;
    // where nobody can be told, it renames all the same
    _ = writeln!(io::stderr(), "{}", change(stored.sizes(), sizes));
    let renamed = stored.set_token(number, Leaf::Ident(ident)).map_err(|refusal| refusal.to_string())?;
    Ok(renamed.to_bundle())
}

fn told(why: &str, status: u8) -> ExitCode {
    eprintln!("rename: {why}");
    ExitCode::from(status)
}

fn main() -> ExitCode {
    let words: Vec<String> = args().skip(1).collect();
    let [file, number, symbol] = words.as_slice() else {
        return told("usage: rename BUNDLE TREE SYMBOL", 2);
    };
    let (Ok(number), Ok(symbol)) = (number.parse(), symbol.parse()) else {
        return told("tree and symbol are numbers", 2);
    };
    let bundle = match fs::read(file) {
        Ok(bundle) => bundle,
        Err(error) => return told(&format!("{file} cannot be read: {error}"), 2),
    };
    match renamed(&bundle, number, symbol) {
        Ok(bundle) => io::stdout().write_all(&bundle).map_or_else(|error| told(&error.to_string(), 2), |()| ExitCode::SUCCESS),
        Err(why) => told(&format!("{file}: {why}"), 1),
    }
}
