//! Stand-in for the crate `tracing`: says nothing.

/// Says nothing.
#[macro_export]
macro_rules! trace {
    ($($x:tt)*) => {};
}

/// Says nothing.
#[macro_export]
macro_rules! debug {
    ($($x:tt)*) => {};
}

/// Says nothing.
#[macro_export]
macro_rules! info {
    ($($x:tt)*) => {};
}

/// Says nothing.
#[macro_export]
macro_rules! warn {
    ($($x:tt)*) => {};
}

/// Says nothing.
#[macro_export]
macro_rules! error {
    ($($x:tt)*) => {};
}
