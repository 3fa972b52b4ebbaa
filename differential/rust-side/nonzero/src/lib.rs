//! Stand-in for the crate nonzero: dual_module.rs uses only `nonzero!(1usize)`.
#[macro_export]
macro_rules! nonzero {
    ($e:expr) => {
        ::core::num::NonZeroUsize::new($e).unwrap()
    };
}
