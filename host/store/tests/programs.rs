//! The programs over files, and the header from C.
use std::fs::{self, Permissions};
use std::os::unix::fs::{PermissionsExt, symlink};
use std::path::{Path, PathBuf};
use std::process::Command;
use store::Stored;

mod lister_cases;

const HERE: &str = env!("CARGO_MANIFEST_DIR");

fn folder(name: &str) -> PathBuf {
    let folder = Path::new(env!("CARGO_TARGET_TMPDIR")).join(name);
    fs::create_dir_all(&folder).unwrap();
    folder
}

fn example(name: &str) -> PathBuf {
    Path::new(HERE).join("../../examples").join(name)
}

/// The status, what was written, what was said.
fn run(program: &str, words: &[&str]) -> (Option<i32>, Vec<u8>, String) {
    let output = Command::new(program).args(words).output().unwrap();
    (output.status.code(), output.stdout, String::from_utf8(output.stderr).unwrap())
}

fn rename(words: &[&str]) -> (Option<i32>, Vec<u8>, String) {
    run(env!("CARGO_BIN_EXE_rename"), words)
}

/// The status, what was printed, what was said.
fn tidy(from: &Path, to: &Path) -> (Option<i32>, String, String) {
    let (status, printed, said) = run(env!("CARGO_BIN_EXE_tidy"), &[from.to_str().unwrap(), to.to_str().unwrap()]);
    (status, String::from_utf8(printed).unwrap(), said)
}

#[test]
fn the_tariffs_deposit_renamed() {
    let tariff = example("tariff.bundle");
    let (status, bundle, said) = rename(&[tariff.to_str().unwrap(), "8", "204"]);
    assert_eq!((status, said.as_str()), (Some(0), "bytes 100 to 100, parts 4 to 4, symbols 5 to 5\n"));
    assert_eq!(bundle, fs::read(example("renamed.bundle")).unwrap());
}

/// What is said before is what the new bundle then has, also where that is fewer bytes, or a symbol less.
#[test]
fn the_change_told_before() {
    for (name, symbol, change) in [
        ("loose.bundle", "204", "bytes 188 to 100, parts 4 to 4, symbols 5 to 5\n"),
        ("tariff.bundle", "101", "bytes 100 to 100, parts 4 to 4, symbols 5 to 4\n"),
    ] {
        let (status, bundle, said) = rename(&[example(name).to_str().unwrap(), "8", symbol]);
        assert_eq!((status, said.as_str()), (Some(0), change));
        let sizes = Stored::from_bundle(&bundle).unwrap().sizes();
        let told = format!(" to {}, parts 4 to {}, symbols 5 to {}\n", sizes.bytes, sizes.parts, sizes.symbols);
        assert!(said.ends_with(&told), "{said}");
    }
}

#[test]
fn what_is_no_ident_stays() {
    let tariff = example("tariff.bundle");
    for (tree, why) in [("0", "tree 0 is no ident"), ("4", "tree 4 is no ident"), ("12", "tree 12 is no ident"), ("4294967295", "is no ident")] {
        let (status, bundle, said) = rename(&[tariff.to_str().unwrap(), tree, "204"]);
        assert_eq!((status, bundle.len()), (Some(1), 0));
        // and no change is told
        assert!(said.starts_with("rename: ") && said.contains(why), "{said}");
    }
}

#[test]
fn what_is_said_of_files_and_words() {
    let folder = folder("files");
    let (cut, none) = (folder.join("cut.bundle"), folder.join("none.bundle"));
    let bundle = fs::read(example("tariff.bundle")).unwrap();
    fs::write(&cut, &bundle[..bundle.len() - 1]).unwrap();
    let (status, _, said) = rename(&[cut.to_str().unwrap(), "8", "204"]);
    assert_eq!(status, Some(1));
    assert!(said.contains("refused 1 at 0: "), "{said}");
    let (status, _, said) = rename(&[none.to_str().unwrap(), "8", "204"]);
    assert_eq!(status, Some(2));
    assert!(said.contains("cannot be read"), "{said}");
    for words in [&["a", "b", "c"][..], &["a", "-1", "2"], &["a", "1", "4294967296"], &["a", "1"], &[]] {
        assert_eq!(rename(words).0, Some(2), "{words:?}");
    }
}

/// Where the change cannot be told, the bundle is written all the same.
#[test]
fn nobody_to_be_told() {
    let (tariff, program) = (example("tariff.bundle"), env!("CARGO_BIN_EXE_rename"));
    let (status, bundle, _) = run("sh", &["-c", "exec \"$0\" \"$1\" 8 204 2>/dev/full", program, tariff.to_str().unwrap()]);
    assert_eq!((status, bundle), (Some(0), fs::read(example("renamed.bundle")).unwrap()));
}

#[test]
fn the_loose_tariff_put_in_order() {
    let file = folder("tidy").join("tidied.bundle");
    let done = |line: &str| (Some(0), format!("{line}\n"), String::new());
    assert_eq!(tidy(&example("loose.bundle"), &file), done("bytes 188 to 100, loose spans 11 to 0"));
    let tariff = fs::read(example("tariff.bundle")).unwrap();
    assert_eq!(fs::read(&file).unwrap(), tariff);
    assert_eq!(tidy(&file, &file), done("bytes 100 to 100, loose spans 0 to 0"));
    assert_eq!(fs::read(&file).unwrap(), tariff);
    // in its own place, with more bytes there than are written
    fs::copy(example("loose.bundle"), &file).unwrap();
    assert_eq!(tidy(&file, &file), done("bytes 188 to 100, loose spans 11 to 0"));
    assert_eq!(fs::read(&file).unwrap(), tariff);
}

/// A folder with the loose tariff alone.
fn loose_alone(name: &str) -> (PathBuf, PathBuf) {
    let folder = folder(name);
    fs::remove_dir_all(&folder).unwrap();
    fs::create_dir(&folder).unwrap();
    let file = folder.join("tariff.bundle");
    fs::copy(example("loose.bundle"), &file).unwrap();
    (folder, file)
}

/// Through a link the file is written that it leads to; what it permits stays, and nothing is left beside it.
#[test]
fn a_link_and_a_file_for_its_owner() {
    let (folder, file) = loose_alone("link");
    let link = folder.join("link");
    fs::set_permissions(&file, Permissions::from_mode(0o600)).unwrap();
    symlink(&file, &link).unwrap();
    assert_eq!(tidy(&file, &link).0, Some(0));
    assert_eq!(fs::read(&file).unwrap(), fs::read(example("tariff.bundle")).unwrap());
    assert_eq!(fs::metadata(&file).unwrap().permissions().mode() & 0o777, 0o600);
    // and where it leads to no file yet
    fs::rename(&file, folder.join("elsewhere")).unwrap();
    assert_eq!(tidy(&folder.join("elsewhere"), &link).0, Some(0));
    assert_eq!(fs::read(&file).unwrap(), fs::read(example("tariff.bundle")).unwrap());
    assert!(fs::symlink_metadata(&link).unwrap().is_symlink());
    assert_eq!(fs::read_dir(&folder).unwrap().count(), 3);
}

/// Where no byte can be written, a bundle in its own place stays, and nothing is left beside it.
#[test]
fn a_full_disk() {
    let (folder, file) = loose_alone("full");
    let (from, program) = (file.to_str().unwrap(), env!("CARGO_BIN_EXE_tidy"));
    let no_room = "trap '' XFSZ; ulimit -f 0; exec \"$0\" \"$1\" \"$1\"";
    let (status, printed, said) = run("sh", &["-c", no_room, program, from]);
    assert_eq!((status, printed.len()), (Some(2), 0));
    assert!(said.contains("tariff.bundle cannot be written"), "{said}");
    assert_eq!(fs::read(&file).unwrap(), fs::read(example("loose.bundle")).unwrap());
    assert_eq!(fs::read_dir(&folder).unwrap().count(), 1);
    // a device takes the bytes as they come, or does not
    assert_eq!(tidy(&file, Path::new("/dev/null")).0, Some(0));
    assert_eq!(tidy(&file, Path::new("/dev/full")).0, Some(2));
}

/// Bytes and loose spans before are those of the lister's first line, and afterwards no span is loose. What is refused is not written.
#[test]
fn the_listers_cases_put_in_order() {
    let folder = folder("cases");
    let (from, to) = (folder.join("from.bundle"), folder.join("to.bundle"));
    let mut met = [0, 0];
    for (_, bundle, text) in lister_cases::all() {
        let line = text.lines().next().unwrap();
        fs::write(&from, &bundle).unwrap();
        fs::write(&to, "as it was").unwrap();
        let (status, printed, said) = tidy(&from, &to);
        if line.starts_with("refused") {
            assert_eq!((status, printed.as_str(), fs::read(&to).unwrap().as_slice()), (Some(1), "", &b"as it was"[..]), "{line}");
            assert!(said.contains(&format!("from.bundle: {line}: ")), "{said}");
            met[0] += 1;
        } else {
            let words: Vec<&str> = line.split(' ').collect();
            let due = [format!("bytes {} to ", words[3]), format!(", loose spans {} to 0\n", words[9])];
            assert!(status == Some(0) && printed.starts_with(&due[0]) && printed.ends_with(&due[1]), "{printed} for {line}");
            // the file that was written has no other bytes in order
            let bytes = printed.split([' ', ',']).nth(3).unwrap();
            let again = format!("bytes {bytes} to {bytes}, loose spans 0 to 0\n");
            assert_eq!(tidy(&to, &to), (Some(0), again, String::new()), "{line}");
            met[1] += 1;
        }
    }
    assert!(met[0] > 20 && met[1] > 20, "{met:?}");
}

#[test]
fn files_that_cannot_be_tidied() {
    let folder = folder("no tidy");
    let (none, nowhere) = (folder.join("none.bundle"), folder.join("no folder/to.bundle"));
    for (from, to, why) in [(&none, &nowhere, "none.bundle cannot be read"), (&example("loose.bundle"), &nowhere, "to.bundle cannot be written")] {
        let (status, printed, said) = tidy(from, to);
        assert_eq!((status, printed.as_str()), (Some(2), ""));
        assert!(said.contains(why), "{said}");
    }
    for words in [&["a"][..], &["a", "b", "c"], &[]] {
        let (status, printed, said) = run(env!("CARGO_BIN_EXE_tidy"), words);
        assert_eq!((status, printed.len(), said.as_str()), (Some(2), 0, "tidy: usage: tidy IN OUT\n"));
    }
}

/// What a program of this folder prints, built with the header.
fn from_c(name: &str) -> String {
    let program = folder("c").join(name);
    let built = Command::new("cc")
        .args(["-std=c99", "-Wall", "-Wextra", "-Werror", "-pedantic", "-I"])
        .arg(Path::new(HERE).join("include"))
        .arg(Path::new(HERE).join("tests").join(name).with_extension("c"))
        .arg(Path::new(env!("TT_STORE_LIB_FOUND")).join("libstore.a"))
        .arg("-o")
        .arg(&program)
        .output()
        .expect("a C compiler");
    assert!(built.status.success(), "{}", String::from_utf8_lossy(&built.stderr));
    let output = Command::new(&program).output().unwrap();
    assert_eq!(output.status.code(), Some(0));
    String::from_utf8(output.stdout).unwrap()
}

#[test]
fn a_leaf_exchanged_from_c() {
    assert_eq!(from_c("exchange"), "0: 38 3 1\n10: 0 0 0\n10: 2 0 0\n2: 1 0 0\n6: 0 0 0\n6: 0 0 0\n7: 1 0 0\n");
}

#[test]
fn the_size_before_from_c() {
    assert_eq!(from_c("preview"), "0: 38 3 1\n10: 0 0 0\n10: 2 0 0\n2: 1 0 0\n6: 0 0 0\n6: 0 0 0\n6: 0 0 0\n7: 1 0 0\n0: 38 3 1\n");
}

#[test]
fn a_buffer_put_in_order_from_c() {
    let rows = "1 at 0\n2 at 0\n3 at 0\n4 at 256\n7 at 1\n8 at 1\n9 at 2\n9 at 0\n";
    let short = "6 at 0\n6 at 0\n6 at 0\n6 at 0\n";
    assert_eq!(from_c("tidy"), format!("38 bytes\n38 bytes\n{rows}{short}"));
}
