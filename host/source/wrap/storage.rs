// The source's private items are seen from inside its module alone. Its one `debug_assert!` is expanded by this macro, to
// std's own and to one more item: a module that thereby lies inside.
macro_rules! debug_assert {
    ($($t:tt)*) => {
        #[path = "inside_storage.rs"]
        mod inside;
        ::std::debug_assert!($($t)*)
    };
}

#[path = "../original/storage.rs"]
mod original;
pub use original::*;
