//! The Rust side: the library's boundary, an independent model to compare it with, and what the tests are made from.

#[cfg(feature = "linked")]
pub mod boundary;
pub mod damage;
pub mod lent;
pub mod make;
pub mod model;
pub mod random;
pub mod same;
#[cfg(feature = "linked")]
pub mod store;
pub mod workload;
