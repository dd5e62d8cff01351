// For build scripts: finds a static library that tools/static-library NAME writes, in the folder that a variable of the environment names, or in
// the repository's target/staticlib. A relative folder counts from that of the crate.
use std::env;
use std::path::PathBuf;

pub fn link(name: &str, variable: &str) {
    let here = PathBuf::from(env::var_os("CARGO_MANIFEST_DIR").expect("set by cargo"));
    let usual = here.join("../../target/staticlib");
    let folder = env::var_os(variable).map_or(usual, |folder| here.join(folder));
    let library = folder.join(format!("lib{name}.a"));
    println!("cargo:rerun-if-env-changed={variable}");
    println!("cargo:rerun-if-changed={}", library.display());
    if env::var("CARGO_CFG_TARGET_ARCH").as_deref() != Ok("x86_64") {
        fail("the static library is for x86-64");
    }
    if !library.is_file() {
        let library = library.display();
        fail(&format!("{library} is missing: run tools/static-library {name}, or set {variable} to the folder that has it"));
    }
    println!("cargo:rustc-link-search=native={}", folder.display());
    println!("cargo:rustc-link-lib=static={name}");
    println!("cargo:rustc-env={variable}_FOUND={}", folder.display());
}

fn fail(why: &str) -> ! {
    eprintln!("{}: {why}", env!("CARGO_PKG_NAME"));
    std::process::exit(1)
}
