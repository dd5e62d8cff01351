//! Finds libbundle.a, which tools/static-library bundle writes: in the folder TT_BUNDLE_LIB, or in the repository's target/staticlib.
//! A relative TT_BUNDLE_LIB counts from the folder of this crate.
#[path = "../static_library.rs"]
mod static_library;

fn main() {
    static_library::link("bundle", "TT_BUNDLE_LIB");
}
