//! Stands for the crate `stdx`: the three names that the source uses.
#[macro_export]
macro_rules! impl_from {
    ($($variant:ident),* for $enum:ident) => {
        $(impl From<$variant> for $enum {
            fn from(it: $variant) -> $enum {
                $enum::$variant(it)
            }
        })*
    };
}

pub mod itertools {
    pub trait Itertools: Iterator {
        fn next_tuple(&mut self) -> Option<(Self::Item,)> {
            self.next().map(|it| (it,))
        }
    }
    impl<I: Iterator + ?Sized> Itertools for I {}
}

pub mod variance {
    use std::marker::PhantomData;

    #[derive(Clone, Copy)]
    pub struct PhantomCovariantLifetime<'a>(PhantomData<fn() -> &'a ()>);

    impl PhantomCovariantLifetime<'_> {
        #[inline]
        pub const fn new() -> Self {
            Self(PhantomData)
        }
    }
}
