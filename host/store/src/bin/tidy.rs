//! Puts a bundle in order: `tidy IN OUT` writes the bundle of the file IN, in the writer's bytes over the same tables, to the file OUT, which may
//! be IN, and prints how many bytes the buffer and how many loose spans the lister counts, before and after. Exit status: 0 written, 1 refused,
//! 2 no such use, a file cannot be read or written, or nothing can be printed. A file OUT that is there stays as it is unless all of the new
//! bundle is written.
use std::env::args_os;
use std::ffi::OsString;
use std::fs::{self, File, OpenOptions};
use std::io::{self, Write};
use std::path::Path;
use std::process::{self, ExitCode};
use store::Stored;

mod reader;

/// Spans below the root in more bytes than they need.
fn loose(stored: &Stored) -> u32 {
    reader::trees(stored).skip(1).map(|words| words[15]).sum()
}

/// A new file with all of the bytes, which then takes the place of the old one, if there is one.
fn replace(to: &Path, bytes: &[u8]) -> io::Result<()> {
    let mut name = to.file_name().unwrap_or_default().to_os_string();
    name.push(format!(".{}.new", process::id()));
    let beside = to.with_file_name(name);
    let mut file = File::create_new(&beside)?;
    let permitted = fs::metadata(to).map_or(Ok(()), |old| file.set_permissions(old.permissions()));
    let written = permitted.and_then(|()| file.write_all(bytes)).and_then(|()| file.sync_all());
    written.and_then(|()| fs::rename(&beside, to)).inspect_err(|_| _ = fs::remove_file(&beside))
}

/// A link stays, and the file that it leads to is written. What is no file, a pipe for one, takes the bytes as they come.
fn write(to: &Path, bytes: &[u8]) -> io::Result<()> {
    match fs::canonicalize(to) {
        // one that may not be written is not replaced either
        Ok(there) if there.is_file() => OpenOptions::new().write(true).open(&there).and_then(|_| replace(&there, bytes)),
        Err(_) if fs::symlink_metadata(to).is_err() => replace(to, bytes),
        _ => fs::write(to, bytes),
    }
}

/// The line to print, or why the bundle was not written and the status.
fn tidied(from: &Path, to: &Path) -> Result<String, (String, u8)> {
    let bundle = fs::read(from).map_err(|error| (format!("{} cannot be read: {error}", from.display()), 2))?;
    let stored = Stored::from_bundle(&bundle).map_err(|refusal| (format!("{}: {refusal}", from.display()), 1))?;
    let tidy = stored.tidy();
    write(to, &tidy.to_bundle()).map_err(|error| (format!("{} cannot be written: {error}", to.display()), 2))?;
    let (before, after) = (stored.bytes().len(), tidy.bytes().len());
    Ok(format!("bytes {before} to {after}, loose spans {} to {}", loose(&stored), loose(&tidy)))
}

fn told(why: &str, status: u8) -> ExitCode {
    eprintln!("tidy: {why}");
    ExitCode::from(status)
}

fn main() -> ExitCode {
    let words: Vec<OsString> = args_os().skip(1).collect();
    let [from, to] = words.as_slice() else {
        return told("usage: tidy IN OUT", 2);
    };
    match tidied(from.as_ref(), to.as_ref()) {
        Ok(line) => writeln!(io::stdout(), "{line}").map_or_else(|error| told(&error.to_string(), 2), |()| ExitCode::SUCCESS),
        Err((why, status)) => told(&why, status),
    }
}
