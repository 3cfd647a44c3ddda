//! Measures of the key block: its calls against safe Rust on the same inputs,
//! all in one run.
#![forbid(unsafe_code)]
#![deny(missing_docs)]

pub mod measure;
pub mod plain;
pub mod rows;
pub mod sides;
pub mod table;
