//! The program over files, and the header from C.
use std::fs;
use std::path::{Path, PathBuf};
use std::process::{Command, Output};

const HERE: &str = env!("CARGO_MANIFEST_DIR");

fn folder(name: &str) -> PathBuf {
    let folder = Path::new(env!("CARGO_TARGET_TMPDIR")).join(name);
    fs::create_dir_all(&folder).unwrap();
    folder
}

fn tariff() -> PathBuf {
    Path::new(HERE).join("../../examples/tariff.bundle")
}

/// The example without its last byte.
fn cut(folder: &Path) -> PathBuf {
    let file = folder.join("cut.bundle");
    let bundle = fs::read(tariff()).unwrap();
    fs::write(&file, &bundle[..bundle.len() - 1]).unwrap();
    file
}

fn told(output: &Output) -> String {
    String::from_utf8(output.stdout.clone()).unwrap()
}

fn check_bundles(files: &[&Path]) -> (Option<i32>, Vec<String>) {
    let output = Command::new(env!("CARGO_BIN_EXE_check-bundles")).args(files).output().unwrap();
    (output.status.code(), told(&output).lines().map(String::from).collect())
}

#[test]
fn the_status_is_the_worst() {
    let folder = folder("files");
    let (tariff, cut, none) = (tariff(), cut(&folder), folder.join("none.bundle"));
    let (status, lines) = check_bundles(&[&tariff]);
    assert_eq!((status, lines), (Some(0), vec![format!("{}: passed", tariff.display())]));
    let (status, lines) = check_bundles(&[&tariff, &cut, &tariff]);
    assert_eq!((status, lines.len()), (Some(1), 3));
    assert!(lines[1].starts_with(&format!("{}: refused 1: ", cut.display())), "{}", lines[1]);
    let (status, lines) = check_bundles(&[&none, &cut]);
    assert_eq!((status, lines.len()), (Some(2), 2));
    assert!(lines[0].contains("cannot be read"), "{}", lines[0]);
    assert_eq!(check_bundles(&[]), (Some(0), vec![]));
}

#[test]
fn the_header_from_c() {
    let folder = folder("c");
    let program = folder.join("check");
    let built = Command::new("cc")
        .args(["-std=c99", "-Wall", "-Wextra", "-Werror", "-pedantic", "-I"])
        .arg(Path::new(HERE).join("include"))
        .arg(Path::new(HERE).join("tests/check.c"))
        .arg(Path::new(env!("TT_BUNDLE_LIB_FOUND")).join("libbundle.a"))
        .arg("-o")
        .arg(&program)
        .output()
        .expect("a C compiler");
    assert!(built.status.success(), "{}", String::from_utf8_lossy(&built.stderr));
    let numbers = |files: &[PathBuf]| told(&Command::new(&program).args(files).output().unwrap());
    assert_eq!(numbers(&[]), "1\n");
    assert_eq!(numbers(&[tariff(), cut(&folder)]), "0\n1\n");
}
