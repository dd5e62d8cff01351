//! The lister's stored cases.
use std::fs;
use std::path::{Path, PathBuf};

/// The file, the bundle, the lister's text.
pub fn all() -> Vec<(PathBuf, Vec<u8>, String)> {
    let folder = Path::new(env!("CARGO_MANIFEST_DIR")).join("../../crates/lister/cases");
    let files = fs::read_dir(folder).expect("the cases").map(|entry| entry.unwrap().path());
    let case = |file: PathBuf| {
        let hex = fs::read_to_string(&file).unwrap();
        let bundle = hex.split_whitespace().map(|two| u8::from_str_radix(two, 16).expect("two digits")).collect();
        let text = fs::read_to_string(file.with_extension("txt")).unwrap();
        (file, bundle, text)
    };
    files.filter(|file| file.extension().is_some_and(|x| x == "hex")).map(case).collect()
}
