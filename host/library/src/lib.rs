//! The library for players in Rust, over the product's C functions: [`Bench`] and [`Journal`]. `checker` has the calls one by one,
//! `ffi` the C functions as they are.

pub mod bench;
pub mod checker;
pub mod ffi;

pub use bench::{Bench, Journal};
