//! Stand-in for the support crate with the out-of-memory error.

/// Errors.
pub mod error {
    /// No room for one more node.
    #[derive(Clone, Copy, Debug, PartialEq, Eq)]
    pub struct OutOfMemory;
}

/// Turning a failed allocation into a panic.
pub mod alloc {
    use crate::error::OutOfMemory;

    /// For results that are out of room or fine.
    pub trait PanicOnOom {
        /// What is there when there was room.
        type Fine;

        /// The value, or a panic.
        fn panic_on_oom(self) -> Self::Fine;
    }

    impl<T> PanicOnOom for Result<T, OutOfMemory> {
        type Fine = T;

        fn panic_on_oom(self) -> T {
            self.expect("out of memory")
        }
    }
}
