// As in storage.rs: the source's one `assert_ne!` carries the module in.
macro_rules! assert_ne {
    ($($t:tt)*) => {
        #[path = "inside_buffer.rs"]
        mod inside;
        ::std::assert_ne!($($t)*)
    };
}

#[path = "../original/buffer.rs"]
mod original;
pub use original::*;
