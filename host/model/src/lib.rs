//! An independent program for document 01, requests 2026-01, 2026-02 and 2026-04 to 2026-07 and the bench console, held against the product from outside: a naive model, the listing,
//! the console over the model, a maker of scripts, and what runs the programs.

pub mod burst_calls;
pub mod console;
pub mod disk;
pub mod file;
pub mod generate;
pub mod harness;
pub mod listing;
pub mod model;
pub mod order;
pub mod sheet;
pub mod sheet_calls;
