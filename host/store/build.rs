//! Finds libstore.a, which tools/static-library store writes: in the folder TT_STORE_LIB, or in the repository's target/staticlib.
//! A relative TT_STORE_LIB counts from the folder of this crate. The programs take libexport.a from there too.
#[path = "../static_library.rs"]
mod static_library;

fn main() {
    static_library::link("store", "TT_STORE_LIB");
}
