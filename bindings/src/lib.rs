//! The proved functions for programs in Rust. With the feature `embed` there is the server: its functions as they are in `embed`, safe calls over
//! them in `server`. With the feature `probe` there are the store's calls alone, for tests and measurements: `probe`, and safe ones in `store`.
//!
//! Each function is declared once, in `embed` or `probe`; tests/declared.rs compares the declarations with the proved sources and the C header.
#[cfg(any(feature = "embed", feature = "probe"))]
#[macro_use]
mod lend;

#[cfg(feature = "embed")]
pub mod embed;
#[cfg(feature = "probe")]
pub mod probe;
#[cfg(feature = "embed")]
pub mod server;
#[cfg(feature = "probe")]
pub mod store;
