//! What the calls are compared with: `twin`, the same state on `&mut` in plain Rust, `source000`, the design of source document 000, and
//! `before`, the library of an earlier commit where ROSSINHIU_BEFORE names its archive.

#[cfg(before)]
pub mod before;
pub mod dice;
pub mod source000;
pub mod twin;
